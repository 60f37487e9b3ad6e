#!/usr/bin/env python3
"""Tries groups.py on a stream that is spelled here by share/reference: whole, with a unit that lacks, and in a pipe.

    test.py
"""
import os
import subprocess
import sys

HERE = os.path.dirname(os.path.abspath(__file__))
sys.path.insert(0, f"{HERE}/../reference")
from vicelotus import packets  # noqa: E402

PID = 300
PRE = "0" * 168


def block(dfl, size=1000):
    return bytes(4) + dfl.to_bytes(2, "big") + bytes(size - 6)


def stream(frames):
    """Frames of two blocks of PLP 7, two of them a superframe, each but the last with its dynamic part."""
    made = []
    for n in range(frames):
        s, f = n // 2, n % 2
        if f == 0:
            made.append((packets.STAMP, s, packets.stamp_payload(4, 700_000_000 + s, 32_000_000, 5)))
        made.append((packets.CURRENT, s, packets.current_payload(f, PRE, "10", f"{n:08b}")))
        made += [(packets.BLOCK, s, packets.block_payload(f, 7, i == 0, block(3960))) for i in range(2)]
    spelled = [packets.spell(kind, count, s, payload) for count, (kind, s, payload) in enumerate(made)]
    return packets.pipe(PID, spelled)


def run(data, *words):
    return subprocess.run([f"{HERE}/groups.py", *words], input=data, capture_output=True, check=True)


def row(name, came, wanted):
    lines = came.stdout.decode().splitlines()
    print(f"{'ok' if lines == wanted else 'FAILED'}: {name}: {came.stderr.decode().strip()}")
    if lines != wanted:
        print("\n".join(lines))
    return lines == wanted


LINES = [
    "group=0 superframe=0 frame=0 packets=4 utc=2022-03-07T20:26:35.5000000Z blocks=7:2 fill=7:50 l1=first",
    "group=1 superframe=0 frame=1 packets=3 blocks=7:2 fill=7:50 l1=0,0,1",
    "group=2 superframe=1 frame=0 packets=4 utc=2022-03-07T20:26:36.5000000Z blocks=7:2 fill=7:50 l1=0,0,2",
]
WHOLE = stream(3)
# of the first frame the unit in the midst of its second block; and what is cut off begins behind the second L1-current
LACKS = WHOLE[: 188 * 8] + WHOLE[188 * 9 :]
CUT = "group=1 superframe=0 frame=1 packets=1 l1=0,0,1"
LESS = LINES[0].replace("packets=4", "packets=3").replace("7:2", "7:1")
rows = [
    row("whole", run(WHOLE), LINES),
    row("its PID is told", run(WHOLE, "--pid", str(PID)), LINES),
    row("another PID", run(WHOLE, "--pid", "301"), []),
    row("a unit lacks", run(LACKS), [LESS, *LINES[1:]]),
    row("it ends inside a frame", run(WHOLE[: 188 * 14]), [LINES[0], CUT]),
    row("nothing", run(b""), []),
]
sys.exit(not all(rows))
