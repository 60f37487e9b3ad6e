#!/usr/bin/env python3
"""Tries start.py by the reference of the commands (share/reference): a gateway that is started again, and a region that joins.

    test.py
"""
import os
import subprocess
import sys
import tempfile

HERE = os.path.dirname(os.path.abspath(__file__))
sys.path.insert(0, f"{HERE}/../reference")
sys.path.insert(0, HERE)

from start import NULL, Config  # noqa: E402
from vicelotus import commands, desk  # noqa: E402

# 8 MHz, superframes of 2^15 ticks: 128 of them are 2^22 ticks, and 47 hold 112 slots of 1 Mbit/s
TEXT = """t2-gateway 1
bandwidth 8
frame 16384 2 8200
start 700000000 0 5
pid 256
network 1 2 3 474000000
l1 0 6 1 0 1 0 0 1000 6 0 59 0
subslices 1
plp 0 type1 1 1/2 qpsk short 0 {blocks} 0 delete {rate}
"""


def packets(count, word):
    return b"".join(b"\x47\x01\x00\x10" + (word + k).to_bytes(4, "big") * 46 for k in range(count))


def row(name, holds, what=""):
    print(f"{'ok' if holds else 'FAILED'}: {name}{': ' if what else ''}{what}")
    return holds


def run(files, words):
    """Runs a command over the files, to which OUT is added, and tells its last line."""
    at = desk.Desk()
    at.files = files
    status, outcome = commands.run(words.split(" "), at)
    assert status == 0, outcome
    return at.said[-1].strip()


def again(rate, superframes):
    """A gateway that begins so many superframes later: what modulators and a receiver with the first CONFIG make of it."""
    text = TEXT.format(rate=rate, blocks=1)
    config = Config(text)
    new = config.starting(config.begin + superframes * config.superframe * config.tick, 5)
    files = {"old": text.encode(), "new": new.encode(), "in": packets(60, 1)}
    run(files, "gateway new s in")
    said = run(files, "modulate old s r")
    run(files, "receive old 0 r back")
    goes_on = said.startswith(f"first={2 * superframes} ") and said.endswith("muted=0")
    return goes_on, files["back"].count(b"\x47\x01\x00\x10"), config.alike()


def joins():
    """A region that joins a stream at frame 100: IN stands in the slots that come then."""
    text = TEXT.format(rate=1_000_000, blocks=1)
    config = Config(text)
    files = {"c": text.encode(), "main": packets(200, 1)}
    run(files, "gateway c s main")
    over = int(config.slots(1_000_000, 50 * config.superframe))
    files["in"] = over * NULL + packets(40, 5000)
    run(files, "swap c 0 s in t")
    run(files, "modulate c t r")
    run(files, "receive c 0 r back")
    return [int.from_bytes(files["back"][at + 4:at + 8], "big") for at in range(0, 188 * (over + 40), 188)][over:] == list(range(5000, 5040))


def told():
    """All lines are as they were, but for the start."""
    text = TEXT.format(rate=1_000_000, blocks=1)
    with tempfile.NamedTemporaryFile("w", encoding="ascii") as file:
        file.write(text)
        file.flush()
        new = subprocess.run([f"{HERE}/start.py", file.name], capture_output=True, text=True, check=True).stdout
    return [a == b for a, b in zip(text.split("\n"), new.split("\n"), strict=True)].count(False) == 1


def main():
    goes_on, came, alike = again(1_000_000, 16)
    holds = row("modulators take it at a sixteenth superframe", goes_on, f"a receiver with the first CONFIG has {came} of 60 packets")
    goes_on, came, _ = again(1_000_000, alike)
    holds &= row("receivers go on where slots fit", goes_on and came == 60, f"behind {alike} superframes")
    holds &= row("a region joins", joins())
    holds &= row("the text", told())
    sys.exit(not holds)


main()
