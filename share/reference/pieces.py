#!/usr/bin/env python3
"""Streams that no gateway sends, as pieces of a script (crates/script_rows/stdin): packets are changed and piped again.

usage: pieces.py CONFIG COUNT [FRAME CHANGE ..] ..

The stream is that of a configuration file with COUNT equal packets in each input, as `file i @PACKET*COUNT` and `gateway` make it.
In a frame its packets are changed, each change behind the one before: `drop KIND N`, `copy KIND N TIMES`, `bits KIND N FROM VALUE
WIDTH` (a field of the payload), `cut KIND N BYTES` (off a block), `move KIND N TO`, `add KIND HEX TO`; KIND is `stamp`, `current`,
`block` or a number, N counts those of the kind from 0, and TO is a place among the packets of the frame. A word `/` ends the changes of
a frame. What is printed is what stands behind `file d`, if `t` is the stream that is not changed.
"""

import re
import sys
from pathlib import Path

from vicelotus import packets, ts
from vicelotus.bits import bits_of, fields
from vicelotus.frames import frames_of, length
from vicelotus.plan import Plan
from vicelotus.text import read

KINDS = {"stamp": packets.STAMP, "current": packets.CURRENT, "block": packets.BLOCK}


def kind_of(word):
    return KINDS[word] if word in KINDS else int(word, 0)


def find(own, kind, number):
    return [place for place, packet in enumerate(own) if packet[0] == kind_of(kind)][int(number)]


def spelled(packet, payload):
    """A packet with the head of another one."""
    return packets.spell(packet[0], packet[1], packet[2] >> 4, payload)


def changed(own, words):
    """The packets of a frame behind some changes, each of which takes its words."""
    own, words = list(own), list(words)
    while words:
        change, kind, number = words.pop(0), words.pop(0), words.pop(0)
        if change == "add":
            payload = bits_of(bytes.fromhex(number))
            own.insert(int(words.pop(0)), packets.spell(kind_of(kind), 0, own[0][2] >> 4, payload))
            continue
        place = find(own, kind, number)
        packet = own.pop(place)
        payload = bits_of(packet[6:-4], int.from_bytes(packet[4:6], "big"))
        if change == "copy":
            own[place:place] = [packet] * int(words.pop(0))
        elif change == "bits":
            begin, value, width = (int(words.pop(0)) for _ in range(3))
            own.insert(place, spelled(packet, payload[:begin] + fields((value, width)) + payload[begin + width :]))
        elif change == "cut":
            own.insert(place, spelled(packet, payload[: -8 * int(words.pop(0))]))
        elif change == "move":
            own.insert(int(words.pop(0)), packet)
    return own


def in_hex(data):
    """Bytes in hexadecimal, those that stand often in a row as PIECE*N."""
    rows = (run if len(run) > 8 else None for run in re.findall(rb"(?s)((.)\2{8,})", data) for run in run[:1])
    pieces, at = [], 0
    for run in rows:
        place = data.index(run, at)
        pieces += [data[at:place].hex()] if place > at else []
        pieces.append(f"{run[:1].hex()}*{len(run)}")
        at = place + len(run)
    return pieces + ([data[at:].hex()] if at < len(data) else [])


def in_pieces(data, base):
    """A stream by the units of another one, from its front and its end as far as they agree."""
    own, other = ts.packets_of(data), ts.packets_of(base)
    front = 0
    while front < min(len(own), len(other)) and own[front] == other[front]:
        front += 1
    back = 0
    while back < min(len(own), len(other)) - front and own[-1 - back] == other[-1 - back]:
        back += 1
    middle = in_hex(data[front * ts.UNIT : len(data) - back * ts.UNIT])
    return ([f"@t:0u:{front}u"] if front else []) + middle + ([f"@t:{len(other) - back}u"] if back else [])


def main(words):
    plan = Plan(read(Path(words[0]).read_bytes())).fits()
    own = [bytes([0x47, 0x01, 0x00, 0x10]) + b"\xab" * 184] * int(words[1])
    inputs = [own] * len(plan.chains)
    sent, base = [], []
    for frame in frames_of(plan, inputs, length(plan, list(map(len, inputs)))):
        base.append(frame.packets(sum(map(len, base))))
    sent = [list(frame) for frame in base]
    for change in " ".join(words[2:]).split(" / "):
        if change:
            number, *rest = change.split(" ")
            sent[int(number)] = changed(sent[int(number)], rest)
    made, plain = (packets.pipe(plan.config.pid, [p for frame in frames for p in frame]) for frames in (sent, base))
    print(" ".join(in_pieces(made, plain)))


if __name__ == "__main__":
    if len(sys.argv) < 3:
        sys.exit(__doc__)
    main(sys.argv[1:])
