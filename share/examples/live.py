#!/usr/bin/env python3
"""Feeds a transport stream at its rate to a chain of commands, and tells how much later its packets come out of it.

    live.py BITS FILE IN OUT     writes FILE to the FIFO IN at so many bit/s, and reads the FIFO OUT till its end
"""
import sys
import threading
import time

SIZE = 188


def feed(file, out, seconds, start):
    """Writes each packet when its time has come; `start` gets the time of the first one."""
    with open(out, "wb", buffering=0) as pipe:
        start.append(time.monotonic())
        for number in range(len(file) // SIZE):
            time.sleep(max(0.0, start[0] + number * seconds - time.monotonic()))
            pipe.write(file[number * SIZE:(number + 1) * SIZE])


def main(bits, name, into, out):
    with open(name, "rb") as file:
        packets = file.read()
    packets = packets[:len(packets) // SIZE * SIZE]
    seconds, start, delays = SIZE * 8 / int(bits), [], []
    feeder = threading.Thread(target=feed, args=(packets, into, seconds, start), daemon=True)
    feeder.start()
    with open(out, "rb") as pipe:
        while packet := pipe.read(SIZE):
            place = len(delays) * SIZE
            if place >= len(packets):
                continue  # null packets behind the stream
            if packet != packets[place:place + SIZE]:
                sys.exit(f"live.py: packet {len(delays)} is another one")
            delays.append(time.monotonic() - start[0] - len(delays) * seconds)
    if not delays:
        sys.exit("live.py: no packet came out")
    print(f"packets={len(delays)} from {min(delays) * 1000:.0f} ms to {max(delays) * 1000:.0f} ms later")


if len(sys.argv) != 5 or not sys.argv[1].isdecimal() or int(sys.argv[1]) == 0:
    sys.exit(__doc__)
main(*sys.argv[1:])
