"""T2-MI packets (TS 102 773, clause 5) and how they are piped (clause 6)."""

from bisect import bisect_left
from itertools import accumulate

from . import ts
from .bits import bits_of, bytes_of, crc32, fields

BLOCK, CURRENT, STAMP = 0x00, 0x10, 0x20
PACKET_WHYS = {1: "Short", 2: "Crc", 3: "PadBits", 4: "PayloadShape"}


def spell(kind, count, superframe, payload):
    """A packet; the payload is bits."""
    size = len(payload)
    data = bytes([kind, count % 256, superframe % 16 << 4, 0]) + size.to_bytes(2, "big") + bytes_of(payload)
    return data + crc32(data).to_bytes(4, "big")


def block_payload(frame_idx, plp_id, first, block):
    return fields((frame_idx, 8), (plp_id, 8), (int(first), 1), (0, 7)) + bits_of(block)


def current_payload(frame_idx, pre, conf, dynamic, extension=""):
    parts = "".join(fields((len(part), 16)) + part + "0" * (-len(part) % 8) for part in (conf, dynamic, extension))
    return fields((frame_idx, 8), (0, 8)) + pre + parts


def stamp_payload(bw, seconds, subseconds, utco):
    return fields((0, 4), (bw, 4), (seconds, 40), (subseconds, 27), (utco, 13))


class Packet:
    """A packet that is spelled, with the bytes of its payload and how many bits these are."""

    def __init__(self, data, place):
        self.kind, self.count, self.superframe, self.stream = data[0], data[1], data[2] >> 4, data[3] % 8
        self.bits = int.from_bytes(data[4:6], "big")
        self.payload, self.place, self.bytes = data[6:-4], place, data
        self.frame_idx = None
        if self.kind == BLOCK:
            self.frame_idx, self.plp_id = self.payload[0], self.payload[1]
            self.block, self.block_bits = self.payload[3:], self.bits - 24
        elif self.kind == CURRENT:
            self.frame_idx = self.payload[0]
            self.parts = current_parts(self.payload, self.bits)
        elif self.kind == STAMP:
            rows = bits_of(self.payload)
            self.bw, self.seconds = int(rows[4:8], 2), int(rows[8:48], 2)
            self.subseconds, self.utco = int(rows[48:75], 2), int(rows[75:88], 2)

    def line(self, name, place):
        head = self.payload[:8]
        if self.bits < 64 and self.bits % 8:
            head = head[:-1] + bytes([head[-1] & 0xFF00 >> self.bits % 8 & 255])
        return (
            f"{name}={place} type={self.kind:02x} count={self.count} superframe={self.superframe} stream={self.stream} "
            f"bits={self.bits} head={head.hex()}"
        )


def current_parts(payload, bits):
    """L1-pre, the configurable and the dynamic part, and the extension; nothing if they do not end where the payload does."""
    if bits < 16 + 168:
        return None
    at, parts = 2 + 21, [bits_of(payload[2:23])]
    for _ in range(3):
        if 8 * (at + 2) > bits:
            return None
        size = int.from_bytes(payload[at : at + 2], "big")
        filled = -(-size // 8)
        parts.append(bits_of(payload[at + 2 : at + 2 + filled], size))
        at += 2 + filled
    return parts if 8 * at == bits else None


def has_shape(kind, bits, payload):
    if kind == BLOCK:
        return bits >= 24
    if kind == CURRENT:
        return current_parts(payload, bits) is not None
    return kind != STAMP or bits == 88


def read(data, place=0):
    """The packet at the front of some bytes, or the number of its refusal."""
    if len(data) < 6:
        return 1
    bits = int.from_bytes(data[4:6], "big")
    size = 6 + -(-bits // 8) + 4
    if len(data) < size:
        return 1
    data = data[:size]
    if crc32(data[:-4]) != int.from_bytes(data[-4:], "big"):
        return 2
    if bits % 8 and data[-5] << bits % 8 & 255:
        return 3
    return Packet(data, place) if has_shape(data[0], bits, data[6:-4]) else 4


def pipe(pid, packets, is_whole=True):
    """The units of some packets; if more of them follow, the units that are complete."""
    data = b"".join(packets)
    starts = [0, *accumulate(map(len, packets))][:-1]
    at, units = 0, []
    while at < len(data) and (is_whole or len(data) - at >= 184):
        next_start = bisect_left(starts, at)
        place = starts[next_start] - at if next_start < len(starts) else 184
        size = 183 if place <= 183 else 184
        pointer = place if place <= 182 else None
        units.append(ts.write(pid, len(units) % 16, pointer, data[at : at + size]))
        at += size
    return b"".join(units)


def carriers(pid, data):
    """The units that carry packets: from where to where in the bytes, the counter, and what the pointer_field names."""
    for unit in range(len(data) // ts.UNIT):
        view = ts.read(data[unit * ts.UNIT : (unit + 1) * ts.UNIT])
        if not view or view.pid != pid or view.error or view.scrambling or not view.payload:
            continue
        at = unit * ts.UNIT + view.at
        if not view.starts:
            yield at, (unit + 1) * ts.UNIT, view.counter, None
        elif view.payload[0] < len(view.payload) - 1:
            yield at + 1, (unit + 1) * ts.UNIT, view.counter, view.payload[0]


def runs(pid, data):
    """The longest runs of carriers whose counters follow each other."""
    run = []
    for carrier in carriers(pid, data):
        if run and carrier[2] != (run[-1][2] + 1) % 16:
            yield run
            run = []
        run.append(carrier)
    if run:
        yield run


def accepted(pid, data):
    """The packets that stand in some received bytes, with their places."""
    found = []
    for run in runs(pid, data):
        joined = b"".join(data[begin:end] for begin, end, _, _ in run)
        before = [0, *accumulate(end - begin for begin, end, _, _ in run)]
        named = [place + pointer for place, (_, _, _, pointer) in zip(before, run) if pointer is not None]
        starts, ahead = sorted(set(named)), []
        place_of = 0
        at = -1
        while True:
            # The least start behind the last one: a place that is named, or the end of a packet.
            following = starts[bisect_left(starts, at + 1) :][:1] + [end for end in ahead if end > at][:1]
            if not following:
                break
            at = min(following)
            if at >= len(joined):
                break
            packet = read(joined[at : at + 8_202])
            if not isinstance(packet, Packet):
                continue
            end = at + len(packet.bytes)
            inside = bisect_left(starts, at + 1)
            if inside < len(starts) and starts[inside] < end:
                continue
            while before[place_of + 1] <= at:
                place_of += 1
            packet.place = run[place_of][0] + at - before[place_of]
            # The unit with which it has come.
            last = at + len(packet.bytes) - 1
            packet.unit = run[bisect_left(before, last + 1, place_of) - 1][0] // ts.UNIT
            ahead = [end]
            found.append(packet)
    return found
