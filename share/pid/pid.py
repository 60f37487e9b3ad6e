#!/usr/bin/env python3
"""Writes to standard output the transport packets of FILE that have this PID.

    pid.py FILE PID > OUT
"""
import sys

SIZE = 188
SYNC = 0x47


def main():
    if len(sys.argv) != 3 or not sys.argv[2].isdecimal() or int(sys.argv[2]) > 0x1FFF:
        sys.exit("usage: pid.py FILE PID > OUT, with a PID from 0 to 8191")
    name, pid = sys.argv[1], int(sys.argv[2])
    count = 0
    try:
        file = open(name, "rb")
    except OSError as error:
        sys.exit(f"{name}: {error.strerror}")
    with file:
        while len(unit := file.read(SIZE)) == SIZE:
            if unit[0] == SYNC and (unit[1] << 8 | unit[2]) & 0x1FFF == pid:
                sys.stdout.buffer.write(unit)
                count += 1
    print(f"{count} packets of PID {pid}", file=sys.stderr)


main()
