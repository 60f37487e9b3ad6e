#!/usr/bin/env python3
"""Tells how many frames of the network on air are left behind two links that lose datagrams, each its own (docs/EXAMPLES.md).

    losses.py PROGRAM [FRAMES]      PROGRAM is the one that `./install` leaves; of so many frames at least (142)
"""
import os
import random
import subprocess
import sys
import tempfile

NETWORK = os.path.join(os.path.dirname(os.path.abspath(__file__)), "../../crates/site_cli/data/network.txt")
SIZE = 188
DATAGRAM = 7 * SIZE
PACKETS = 5654  # of a frame, nearly
SHARES = [0.0001, 0.001, 0.01]


def frames(program, *words):
    """How many frames a command says that it made."""
    told = subprocess.run([program, *words], capture_output=True, text=True, check=True).stdout
    return int(told.split("frames=")[1].split()[0])


def lose(stream, name, share, seed):
    draw = random.Random(seed)
    datagrams = (stream[at:at + DATAGRAM] for at in range(0, len(stream), DATAGRAM))
    with open(name, "wb") as file:
        file.writelines(datagram for datagram in datagrams if draw.random() >= share)


def main(program, wanted="142"):
    program = os.path.abspath(program)
    with tempfile.TemporaryDirectory() as folder:
        os.chdir(folder)
        with open("in.ts", "wb") as file:
            file.write((b"\x47\x01\x00\x10" + bytes(SIZE - 4)) * (PACKETS * (int(wanted) - 1)))
        print(f"{frames(program, 'gateway', NETWORK, 's.ts', 'in.ts')} frames", flush=True)
        with open("s.ts", "rb") as file:
            stream = file.read()
        for share in SHARES:
            for seed, name in enumerate(["a.ts", "b.ts"]):
                lose(stream, name, share, seed)
            one = frames(program, "mend", NETWORK, "o.ts", "a.ts")
            merged = frames(program, "merge", NETWORK, "a.ts", "b.ts", "o.ts")
            mended = frames(program, "mend", NETWORK, "o.ts", "a.ts", "b.ts")
            print(f"{share:.2%} of the datagrams lost: one link {one}, merged {merged}, mended {mended}", flush=True)


if len(sys.argv) not in (2, 3):
    sys.exit(__doc__)
main(*sys.argv[1:])
