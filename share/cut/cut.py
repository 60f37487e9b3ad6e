#!/usr/bin/env python3
"""Whole transport packets of what is not: behind bytes that were lost or added, and of packets of 192 or 204 bytes.

    cut.py < IN > OUT
"""
import sys

SIZE = 188
SYNC = 0x47
# The bytes of a packet, and where it has its sync byte: as sent, with a time in front (M2TS), with Reed-Solomon bytes behind
FORMS = {188: 0, 192: 4, 204: 0}
SURE = 5  # sync bytes in a row, by which a packet is known to begin
PIECE = 1 << 20


def tell(*words):
    print("cut.py:", *words, file=sys.stderr)


def is_at(bytes_, at, length, count=SURE):
    """Whether packets of a length begin here, as far as there are bytes."""
    places = range(at + FORMS[length], len(bytes_), length)[:count]
    return len(places) > 0 and all(bytes_[place] == SYNC for place in places)


def find(bytes_, begin, lengths):
    """The first place from one on at which packets begin, and their length."""
    places = ((at, length) for at in range(begin, len(bytes_)) for length in lengths if is_at(bytes_, at, length))
    return next(places, (len(bytes_), 0))


class Cutter:
    def __init__(self):
        self.bytes, self.place, self.length, self.lost = b"", 0, None, 0

    def begin(self, at):
        """Passes over what is no packet; one that is not known to be whole is passed over too."""
        begin, length = find(self.bytes, at + (self.length is not None), [self.length] if self.length else FORMS)
        if begin > at:
            tell(f"{begin - at} bytes at byte {self.place + at} are no packet")
            self.lost += begin - at
        if self.length is None and length:
            self.length = length
            if length != SIZE:
                tell(f"packets of {length} bytes")
        return begin

    def cut(self, piece, last):
        """The packets that are known to be whole by what came: the next one begins behind each, or the end comes."""
        self.bytes += piece
        packets, at = [], 0
        while len(self.bytes) - at >= (1 if last else SURE * max(FORMS)):
            # the packet in which bytes lack, or behind which some were added, is not known to be whole
            if self.length is None or not is_at(self.bytes, at, self.length, 2):
                at = self.begin(at)
                continue
            first = at + FORMS[self.length]
            if len(self.bytes) < first + SIZE:
                break
            packets.append(self.bytes[first:first + SIZE])
            at += self.length
        self.bytes, self.place = self.bytes[at:], self.place + at
        return b"".join(packets)


def main():
    if len(sys.argv) > 1:
        sys.exit(__doc__)
    cutter, count, piece = Cutter(), 0, b" "
    while piece:
        piece = sys.stdin.buffer.read1(PIECE)
        packets = cutter.cut(piece, not piece)
        count += len(packets) // SIZE
        sys.stdout.buffer.write(packets)
        sys.stdout.buffer.flush()
    tell(f"packets={count} lost={cutter.lost + len(cutter.bytes)}")


try:
    main()
except BrokenPipeError:
    sys.exit(1)
