#!/usr/bin/env python3
"""Plays a script of worked runs (crates/script_rows/stdin) by the rules alone, and writes what must come of it.

usage: script.py < crates/script_rows/stdin > crates/script_rows/stdout
"""

import sys

from vicelotus import commands, packets, people, ts
from vicelotus.bits import crc32
from vicelotus.desk import Desk
from vicelotus.frames import frames_of, length


def number(word):
    return ts.UNIT * int(word[:-1]) if word.endswith("u") else int(word)


def numbered(slot):
    return bytes([0x47, 0x01, 0x00, 0x10]) + (slot % 65_536).to_bytes(2, "big") + b"\xab" * 182


def cell_word(address, count):
    """Of so many cells of two blocks, five columns of each in a row, or of a dummy cell."""
    if address >= count:
        return 0xFFFFFFFF
    block, column = divmod(address % 10, 5)
    return block * 32_768 + column * 1_620 + address // 10


def first_places(pid, frames):
    """For each frame the place of its first byte in the units of all of them."""
    made, starts = [], []
    for frame in frames:
        starts.append(sum(map(len, made)))
        made += frame.packets(len(made))
    places, at, next_start = [], 0, 0
    stream = packets.pipe(pid, made)
    for begin, end, _, _ in packets.carriers(pid, stream):
        while next_start < len(starts) and starts[next_start] < at + end - begin:
            places.append(begin + starts[next_start] - at)
            next_start += 1
        at += end - begin
    return places


def ahead_rows(plan, streams, place, count):
    """How far `gateway` may read the input of a PLP while OUT lacks the first byte of a frame, from frame 1 on."""
    frames = frames_of(plan, streams, length(plan, list(map(len, streams))))
    chain, data = plan.chains[place], first_places(plan.config.pid, frames)
    most = [ts.UNIT * chain.over((number + 2) * plan.ticks) for number in range(count + 1)]
    return ",".join(f"{data[number] + 1}:{most[number]}" for number in range(1, count + 1))


class Page:
    """A line for each row; several lines of a run stand by themselves, and each further run of a row begins another line."""

    def __init__(self):
        self.at = "line"

    def name(self, line):
        before = "" if self.at == "line" else "\n"
        if line.startswith("## "):
            self.at = "line"
            return f"{before}\n{line}\n"
        self.at = "name"
        return before + line[2:]

    def word(self, word):
        before = {"line": "", "name": ": ", "answer": ", "}[self.at]
        self.at = "answer"
        return before + word

    def run(self, said, end):
        if said.count("\n") > 1:
            before, text = {"line": "", "name": ":\n", "answer": "\n"}[self.at], f"{said}  {end}"
        else:
            text = f"{said[:-1]}, {end}" if said else end
            before = {"line": "  ", "name": ": ", "answer": "\n  "}[self.at]
        self.at = "answer"
        return before + text


class Player:
    def __init__(self):
        self.defined, self.desk, self.page = {}, Desk(), Page()

    def files(self, name):
        return self.defined if name[:1].isupper() else self.desk.files

    def bytes(self, name):
        if name == "said":
            return "".join(self.desk.said).encode()
        return self.files(name).get(name, b"")

    def piece(self, text):
        one, _, times = text.partition("*")
        return self.once(one) * int(times or 1)

    def once(self, text):
        if text[:1] == "@":
            name, *bounds = text[1:].split(":")
            begin, end = (list(map(number, bounds)) + [0, None][len(bounds) :])[:2]
            return self.bytes(name)[begin:end]
        if text[:1] == "#":
            begin, end = map(int, text[1:].split(":"))
            return b"".join(map(numbered, range(begin, end)))
        if text[:1] == "%":
            return b"".join(cell_word(address, int(text[1:])).to_bytes(4, "big") for address in range(40_000))
        return bytes.fromhex(text)

    def mute(self, to, source, bits):
        data, at, made = self.bytes(source), 0, b""
        for bit in bits:
            size = 24 + int.from_bytes(data[at + 20 : at + 24], "big")
            muted = data[at : at + 4] + b"\2\0\0\0" + data[at + 8 : at + 20] + bytes(4)
            made += muted if bit == "1" else data[at : at + size]
            at += size
        self.files(to)[to] = made

    def run(self, words, is_told=False):
        self.desk.said = []
        words = ["" if word == "-" else word for word in words]
        (status, outcome), told = people.watched(words, self.desk) if is_told else (commands.run(words, self.desk), "")
        return "".join(self.desk.said) + told, f"{status} {outcome}"

    def calls(self, bounds, words):
        """Of each kind of calls whether so many may be made: each file is opened and read to its end, and OUT is created."""
        _, _, out, names = commands.command(self.desk, words)
        least = [len(names), len(names) + 1, int(out is not None), int(out is not None), 1]
        marks = ""
        for kind, bound, own in zip(["open", "read", "create", "write", "say"], bounds.split(","), least):
            low, _, high = bound.partition("-")
            fits = int(high or low) >= own and (kind not in ("open", "create") or bound == str(own))
            marks += "+" if fits else "-"
        return marks

    def ahead(self, writes, name, rows, words):
        plan = commands.plan_of(self.desk, words[1])
        streams = [ts.packets_of(self.bytes(word)) for word in words[3:]]
        own = ahead_rows(plan, streams, words[3:].index(name), len(rows.split(",")))
        if rows != own:
            sys.exit(f"script.py: ahead {writes} {name}: the rows are {own}")
        return writes

    def answer(self, line):
        if line.startswith("#"):
            return self.page.name(line)
        verb, *words = line.split(" ")
        rest = line.partition(" ")[2]
        if verb == "new":
            self.desk = Desk()
        elif verb == "file":
            name = words[0]
            self.files(name)[name] = b"".join(map(self.piece, words[1:]))
        elif verb in ("text", "set"):
            name, _, text = rest.partition(" ")
            lines = self.bytes(name).decode().splitlines()
            if verb == "text":
                lines.append(text)
            else:
                lines = [text if own.split(" ")[0] == words[1] else own for own in lines]
            self.files(name)[name] = "".join(own + "\n" for own in lines).encode()
        elif verb == "fail":
            self.desk.failing.setdefault(words[0], []).append(int(words[1]))
        elif verb == "mute":
            self.mute(*words)
        elif verb in ("run", "told"):
            return self.page.run(*self.run(words, verb == "told"))
        elif verb == "hush":
            return self.page.word(self.run(words)[1])
        elif verb == "size":
            name = words[0]
            return self.page.word(str(len(self.bytes(name))) if name in self.files(name) else "absent")
        elif verb == "crc":
            data = self.bytes(words[0])
            return self.page.word(f"{len(data)} {crc32(data):08x}")
        elif verb == "same":
            return self.page.word(str(self.bytes(words[0]) == self.bytes(words[1])).lower())
        elif verb == "calls":
            return self.page.word(self.calls(words[0], words[1:]))
        elif verb == "ahead":
            return self.page.word(self.ahead(*words[:3], words[3:]))
        return ""


def main():
    player = Player()
    for line in sys.stdin.read().splitlines():
        sys.stdout.write(player.answer(line))
    sys.stdout.write("\n")


if __name__ == "__main__":
    main()
