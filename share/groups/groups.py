#!/usr/bin/env python3
"""A line for each T2 frame in a T2-MI stream, without CONFIG: what its packets carry.

    groups.py [--pid PID] [FILE]      without FILE of standard input; a frame is told when the next one begins

group=N superframe=S frame=F packets=P utc=T blocks=PLP:COUNT,.. fill=PLP:PERCENT,.. l1=PRE,CONF,DYN
"""
import argparse
import binascii
import datetime
import os
import sys

sys.path.insert(0, os.path.join(os.path.dirname(os.path.abspath(__file__)), "../reference"))
from vicelotus import packets, ts  # noqa: E402

PIECE = 188 * 1000
# Subseconds of a second, by the bandwidth that a timestamp tells (TS 102 773, clause 5.2.7).
SUBSECONDS = [131_000_000, 40_000_000, 48_000_000, 56_000_000, 64_000_000, 80_000_000]
EPOCH = datetime.datetime(2000, 1, 1)
HEADER = 10  # bytes of a baseband header, with DFL at byte 4
TURNED = bytes(int(f"{byte:08b}"[::-1], 2) for byte in range(256))


def crc32(data):
    """The CRC_32 of ISO/IEC 13818-1: the one of zlib, with the bits of each byte turned."""
    return int(f"{binascii.crc32(data.translate(TURNED)) ^ 0xFFFFFFFF:032b}"[::-1], 2)


packets.crc32 = crc32


class Unpiper:
    """T2-MI packets out of units as they come; a packet in which units were lost is passed over."""

    def __init__(self, pid):
        self.pid, self.counter, self.bytes, self.begun = pid, None, b"", False
        self.lost = self.refused = 0

    def feed(self, unit):
        view = ts.read(unit)
        if view is None or view.error or view.scrambling or not view.payload or view.pid == 0x1FFF:
            return []
        if self.pid is None and view.starts:
            self.pid = view.pid
        if view.pid != self.pid:
            return []
        if self.counter is not None and view.counter != (self.counter + 1) % 16:
            self.lost += 1
            self.bytes, self.begun = b"", False
        self.counter = view.counter
        if not view.starts:
            return self.take(view.payload)
        pointer, data = view.payload[0], view.payload[1:]
        found = self.take(data[:pointer])
        self.bytes, self.begun = b"", True
        return found + self.take(data[pointer:])

    def take(self, data):
        """What is whole by these bytes."""
        found = []
        if self.begun:
            self.bytes += data
        while len(self.bytes) >= 6:
            size = 10 + -(-int.from_bytes(self.bytes[4:6], "big") // 8)
            if len(self.bytes) < size:
                break
            packet = packets.read(self.bytes[:size])
            if not isinstance(packet, packets.Packet):
                self.refused += 1
                self.bytes, self.begun = b"", False
                break
            found.append(packet)
            self.bytes = self.bytes[size:]
        return found


class Group:
    """The packets of a frame."""

    def __init__(self, key):
        self.key, self.count, self.stamp, self.parts, self.blocks = key, 0, None, None, {}

    def add(self, packet):
        self.count += 1
        if packet.kind == packets.STAMP:
            self.stamp = self.stamp or packet
        elif packet.kind == packets.CURRENT:
            self.parts = packet.parts
        else:
            blocks, carried, room = self.blocks.get(packet.plp_id, (0, 0, 0))
            self.blocks[packet.plp_id] = (
                blocks + 1,
                carried + int.from_bytes(packet.block[4:6], "big"),
                room + packet.block_bits - 8 * HEADER,
            )

    def line(self, number, before):
        superframe, frame = self.key
        words = [f"group={number}", f"superframe={superframe}", f"frame={frame}", f"packets={self.count}"]
        if self.stamp:
            words.append(f"utc={utc_of(self.stamp)}")
        if self.blocks:
            rows = [(plp, *counts) for plp, counts in sorted(self.blocks.items())]
            words.append("blocks=" + ",".join(f"{plp}:{blocks}" for plp, blocks, _, _ in rows))
            words.append("fill=" + ",".join(f"{plp}:{100 * carried // max(room, 1)}" for plp, _, carried, room in rows))
        words.append("l1=none" if self.parts is None else f"l1={','.join(changed(self.parts, before))}")
        return " ".join(words)


def changed(parts, before):
    """How many bits of L1-pre, of the configurable and of the dynamic part are others than in the frame before."""
    if before is None:
        return ["first"]
    counts = (sum(a != b for a, b in zip(one, other)) + abs(len(one) - len(other)) for one, other in zip(parts, before))
    return [str(count) for count in counts][:3]


def utc_of(stamp):
    """The moment of a timestamp, to a tenth of a microsecond; a relative one has no date."""
    if stamp.bw >= len(SUBSECONDS):
        return f"bandwidth-{stamp.bw}"
    part = f"{stamp.subseconds / SUBSECONDS[stamp.bw]:.7f}"[1:]
    if stamp.seconds == 0:
        return f"relative+0{part}"
    at = EPOCH + datetime.timedelta(seconds=stamp.seconds - stamp.utco)
    return f"{at:%Y-%m-%dT%H:%M:%S}{part}Z"


def units_of(file):
    rest = b""
    while piece := file.read1(PIECE):
        rest += piece
        whole = len(rest) - len(rest) % ts.UNIT
        yield from (rest[at : at + ts.UNIT] for at in range(0, whole, ts.UNIT))
        rest = rest[whole:]


class Groups:
    """Frames, one behind another, each told when the next one begins."""

    def __init__(self):
        self.group, self.number, self.before = None, 0, None

    def add(self, packet):
        if packet.kind not in (packets.BLOCK, packets.CURRENT, packets.STAMP):
            return
        key = (packet.superframe, packet.frame_idx)
        if packet.kind == packets.STAMP:
            # it has no frame_idx: it is of the frame before it if that is of its superframe, else of the first one
            own = self.group and self.group.key
            key = own if own and own[0] == packet.superframe else (packet.superframe, 0)
        if self.group is None or self.group.key != key:
            self.tell()
            self.group = Group(key)
        self.group.add(packet)

    def tell(self):
        if self.group is None:
            return
        print(self.group.line(self.number, self.before), flush=True)
        self.before, self.number, self.group = self.group.parts or self.before, self.number + 1, None


def main():
    words = argparse.ArgumentParser(description="A line for each T2 frame in a T2-MI stream, without CONFIG.")
    words.add_argument("--pid", type=int, help="the PID of the stream; else that of the first packet that begins there")
    words.add_argument("file", nargs="?", help="the stream; else standard input")
    asked = words.parse_args()
    try:
        file = open(asked.file, "rb") if asked.file else sys.stdin.buffer
    except OSError as error:
        sys.exit(f"{asked.file}: {error.strerror}")
    unpiper, groups = Unpiper(asked.pid), Groups()
    for unit in units_of(file):
        for packet in unpiper.feed(unit):
            groups.add(packet)
    groups.tell()
    damage = f"jumps of the continuity counter: {unpiper.lost}; packets refused: {unpiper.refused}"
    print(f"groups.py: frames: {groups.number}; {damage}", file=sys.stderr)


try:
    main()
except BrokenPipeError:
    os.dup2(os.open(os.devnull, os.O_WRONLY), sys.stdout.fileno())
