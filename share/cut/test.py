#!/usr/bin/env python3
"""Tries cut.py: bytes that lack or were added, and packets of 192 and 204 bytes.

    test.py
"""
import os
import random
import subprocess
import sys

CUT = f"{os.path.dirname(os.path.abspath(__file__))}/cut.py"
DRAWN = random.Random(1)
PACKETS = [b"\x47" + DRAWN.randbytes(187) for _ in range(3000)]


def row(name, stream, wanted):
    came = subprocess.run([CUT], input=stream, capture_output=True, check=True)
    holds = came.stdout == b"".join(wanted)
    print(f"{'ok' if holds else 'FAILED'}: {name}: {came.stderr.decode().splitlines()[-1]}")
    return holds


whole = b"".join(PACKETS)
rows = [
    row("whole packets", whole, PACKETS),
    row("a thousand bytes lack", whole[:100_000] + whole[101_000:], PACKETS[:531] + PACKETS[538:]),
    row("bytes were added", whole[:188_000] + bytes(77) + whole[188_000:], PACKETS[:999] + PACKETS[1000:]),
    row("it begins inside a packet", whole[100:], PACKETS[1:]),
    row("it ends inside a packet", whole[:-100], PACKETS[:-1]),
    row("with times in front", b"".join(DRAWN.randbytes(4) + packet for packet in PACKETS), PACKETS),
    row("with Reed-Solomon bytes", b"".join(packet + DRAWN.randbytes(16) for packet in PACKETS), PACKETS),
    row("nothing", b"", []),
]
sys.exit(not all(rows))
