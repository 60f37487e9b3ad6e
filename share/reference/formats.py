#!/usr/bin/env python3
"""What must come of the rows of `crates/format_rows`, by EN 302 755, TS 102 773 and ISO/IEC 13818-1, from the rules alone: bits are
texts of 0 and 1, and all slots, cells and blocks are lists.

usage: formats.py < crates/format_rows/stdin > crates/format_rows/stdout

What each call is stands at the head of its module in `crates/format_rows/src`.
"""

import sys

import cells
from vicelotus import l1, ts
from vicelotus.bits import bits_of, fields
from vicelotus.blocks import Queue
from vicelotus.cells import shape_of
from vicelotus.plan import Plan
from vicelotus.text import KINDS, read

CRC_32 = (32, 0x04C11DB7, 2**32 - 1)
CRC_8 = (8, 0xD5, 0)
FULL_BYTES = 46


def padded(bits):
    return bits + "0" * (-len(bits) % 8)


def remainder(bits, degree, generator, start):
    """The CRC of bits: a shift register that begins with `start`."""
    register = start
    for bit in bits:
        top = register >> (degree - 1) ^ int(bit)
        register = register << 1 & (1 << degree) - 1
        if top:
            register ^= generator
    return register


def data(word):
    """Bytes: pieces in hexadecimal joined by `+`, any of them N times."""
    out = b""
    for piece in word.split("+"):
        one, _, times = piece.partition("*")
        out += bytes.fromhex(one) * int(times or 1)
    return out


def part(word, first, length):
    return bits_of(data(word))[int(first) :][: int(length)]


def hexed(bits):
    bits = padded(bits)
    return bytes(int(bits[place : place + 8], 2) for place in range(0, len(bits), 8)).hex()


def number(bits):
    return int(bits or "0", 2)


# ---- bits


def sequence(count):
    """Bytes of the scrambler's sequence, by its recurrence (EN 302 755, clause 5.2.4)."""
    bits = [int(bit) for bit in "100101010000000"]
    out = []
    for _ in range(8 * count):
        new = bits[13] ^ bits[14]
        out.append(new)
        bits = [new] + bits[:14]
    return bytes(number("".join(map(str, out[place : place + 8]))) for place in range(0, 8 * count, 8))


def item(word):
    if "/" in word:
        value, width = map(int, word.split("/"))
        return fields((value, width)) if width else ""
    text, _, place = word.partition("@")
    return part(text, *place.split(":"))


def put(*words):
    bits = "".join(map(item, words))
    spelled = bits + fields((remainder(bits, *CRC_32), 32))
    told = f"{len(spelled)} bits {hexed(spelled)}"
    used = 0
    for one in map(item, words):
        if used + len(one) > 8 * FULL_BYTES:
            return f"{told}; in 46 bytes Full {{ need: {len(one)}, room: {8 * FULL_BYTES - used} }}"
        used += len(one)
    return f"{told}; in 46 bytes {used}"


def take(word, first, length, *widths):
    bits, told = part(word, first, length), ""
    for width in map(int, widths):
        if len(bits) < width:
            told += f"short-{len(bits)} "
        else:
            told, bits = told + f"{number(bits[:width]):x} ", bits[width:]
    return told + "left"


def joined(front, length, back, first, at, width):
    bits = part(front, 0, length) + part(back, first, 1000)
    return f"{number(bits[int(at) :][: int(width)]):x}"


# ---- transport packets and deletion


def packet_of(word):
    return data(word).ljust(188, b"\0")[:188]


def transport(word):
    packet = packet_of(word)
    if packet[0] != 0x47:
        return "NoSync"
    control, place = packet[3] >> 4 & 3, 4
    if control == 0:
        return "BadAdaptation"
    if control > 1:
        if packet[4] > (182 if control == 3 else 183) or control == 2 and packet[4] != 183:
            return "BadAdaptation"
        place = 5 + packet[4]
    flag = {True: "true", False: "false"}
    return (
        f"pid={packet[1] % 32 * 256 + packet[2]} error={flag[packet[1] > 127]} starts={flag[packet[1] & 64 > 0]}"
        f" scrambling={packet[3] >> 6} counter={packet[3] % 16} payload={place}"
    )


def carries(pid, counter, pointer, word):
    starts = pointer != "-"
    area = (bytes([int(pointer)]) if starts else b"") + data(word)
    lacks = 184 - len(area)
    adaptation = b"" if lacks == 0 else bytes([lacks - 1]) + (b"\0" + b"\xff" * (lacks - 2) if lacks > 1 else b"")
    pid = int(pid)
    head = bytes([0x47, 64 * starts + pid // 256, pid % 256, 16 + 32 * (lacks > 0) + int(counter)])
    return (head + adaptation + area).hex()


def is_null(word):
    packet = packet_of(word)
    return "true" if packet[1] % 32 * 256 + packet[2] == 0x1FFF else "false"


def deletes(mode, *runs):
    told, slot, gone = "", 0, 0
    for run in map(int, runs):
        for null in [True] * run + [False]:
            if mode == "on" and null and gone < 255:
                gone += 1
            else:
                told, gone = told + f"{slot}:{gone} ", 0
            slot += 1
    return told + "of"


def slots(first, *dnps):
    told, at = "", int(first)
    for dnp in map(int, dnps):
        at += 1 + dnp
        told += f"{at} "
    return told + "are"


# ---- baseband frames


def baseband(word):
    bits = bits_of(data(word))
    mode = remainder(bits[:72], *CRC_8) ^ number(bits[72:80])
    if mode != 1:
        return "why=2" if mode == 0 else "why=1"
    dfl, syncd = number(bits[32:48]), number(bits[56:72])
    if dfl % 8 or 80 + dfl > len(bits):
        return "why=3"
    if syncd != 65535 and (syncd % 8 or syncd >= dfl):
        return "why=4"
    issy = number(bits[16:32] + bits[48:56])
    return f"matype={number(bits[:8])},{number(bits[8:16])} issy={issy} dfl={dfl} syncd={syncd}"


def written(matype_1, matype_2, issy, syncd, kbch, word):
    field, issy = bits_of(data(word)), f"{int(issy):024b}"
    head = fields((int(matype_1), 8), (int(matype_2), 8)) + issy[:16] + fields((len(field), 16)) + issy[16:]
    head += fields((int(syncd), 16))
    head += fields((remainder(head, *CRC_8) ^ 1, 8))
    return hexed((head + field).ljust(int(kbch), "0"))


def scramble(word):
    own = data(word)
    return bytes(a ^ b for a, b in zip(own, sequence(len(own)))).hex()


# ---- T2-MI packets


def told_parts(payload):
    """The parts of an L1-current behind L1-pre, and what is left, or None if one is cut off."""
    lengths, at = [], 184
    for _ in range(3):
        if len(payload) < at + 16:
            return None
        lengths.append(number(payload[at : at + 16]))
        at += 16 + -(-lengths[-1] // 8) * 8
    return lengths if at == len(payload) else None


def t2mi(word):
    own = data(word)
    bits = bits_of(own)
    length = number(bits[32:48]) if len(own) >= 6 else 0
    whole = 6 + -(-length // 8) + 4
    if len(own) < 6 or len(own) < whole:
        return f"at={len(own)} why=1"
    if remainder(bits[: 8 * whole - 32], *CRC_32) != number(bits[8 * whole - 32 : 8 * whole]):
        return f"at={whole - 4} why=2"
    payload, pad = bits[48 : 48 + length], bits[48 + length : 8 * whole - 32]
    if "1" in pad:
        return f"at={whole - 5} why=3"
    head = f"count={own[1]} superframe={own[2] >> 4} stream={own[3] % 8}"
    kind = own[0]
    parts = told_parts(payload) if kind == 0x10 else []
    if kind == 0 and length < 24 or parts is None or kind == 0x20 and length != 88:
        return "at=6 why=4"
    if kind == 0:
        first = "true" if payload[16] == "1" else "false"
        body = f"block frame={number(payload[:8])} plp={number(payload[8:16])} first={first} bits={length - 24}"
    elif kind == 0x10:
        body = f"l1 frame={number(payload[:8])} bits=168,{parts[0]},{parts[1]},{parts[2]}"
    elif kind == 0x20:
        rows = [number(payload[a:b]) for a, b in ((4, 8), (8, 48), (48, 75), (75, 88))]
        body = "time bw={} seconds={} subseconds={} utco={}".format(*rows)
    else:
        body = f"type={kind} bits={length}"
    return f"{head} {body} bytes={whole}"


def needed(word):
    own = data(word)
    return str(6 + -(-int.from_bytes(own[4:6], "big") // 8) + 4) if len(own) >= 6 else "not known"


# ---- networks


def row_of(chain):
    """A PLP as `cells` takes it."""
    return KINDS.index(chain.kind), chain.cells, chain.most, chain.plp.interleave, chain.spread


class Networks(dict):
    def add(self, name, frame_cells, sub_slices, frames, plps):
        rows = [row.replace(",", " ") for row in plps.split(";")]
        text = f"t2-gateway 2\nbandwidth 8\nframe 100000 {frames} {frame_cells}\nstart 700000000 0 5\npid 256\n"
        text += "network 1 2 3 474000000\nl1 0 6 1 0 1 0 0 1000 6 0 59 0\n"
        text += f"subslices {sub_slices}\n" + "".join(f"plp {row}\n" for row in rows)
        self[name] = Plan(read(text.encode())).fits()

    def shape(self, name, counts):
        shape = shape_of(self[name], 0, numbers(counts))
        starts = "".join(f"{start}," for start in shape.starts)
        return f"interval={shape.interval} type2={shape.type2_start} starts={starts}"

    def judged(self, name, frame, counts, starts, interval):
        net = self[name]
        shape = numbers(counts) + numbers(starts) + [int(interval)]
        return cells.judge(net.config.cells, net.config.sub_slices, int(frame), list(map(row_of, net.chains)), shape)

    def map(self, *words):
        answer = self.judged(*words)
        if answer.startswith("PLPs"):
            first, second = answer.split()[1], answer.split()[3]
            return f"Overlap {{ first: {first}, second: {second} }}"
        return f"Beyond {{ plp: {answer.split()[1]} }}" if answer.startswith("PLP ") else answer.replace("_", "")

    def cell(self, name, frame, counts, starts, interval, plp, block, cell):
        net = self[name]
        plp, counts = int(plp), numbers(counts)
        rows = row_of(net.chains[plp])
        order = cells.carried(rows, counts[plp], int(frame))
        if (int(block), int(cell)) not in order:
            return "in another frame"
        places = cells.addresses(rows, net.config.sub_slices, len(order), numbers(starts)[plp], int(interval))
        place = places[order.index((int(block), int(cell)))]
        return f"{place}: block {sum(counts[:plp]) + int(block)} cell {cell}"


def queue(net, plp, frames, count):
    """Of each interleaving frame of a PLP how many blocks it has, how many bytes wait then, and the CRC-32 of the blocks."""
    packets = [ts.NULL[:2] + bytes([0xFE, ts.NULL[3], slot % 256]) + ts.NULL[5:] for slot in range(int(count))]
    own, told = Queue(net.chains[int(plp)], packets, int(frames)), ""
    for m in range(int(frames) + 1):
        blocks = own.blocks(m) if m else []
        told += f"{len(blocks)}:{own.arrived[m] - own.sent[m]}:{remainder(bits_of(b''.join(blocks)), *CRC_32):08x} "
    return told + "all"


def dynamic(net, frame, counts):
    return l1.dyn_of(net, frame, shape_of(net, frame, counts))


def numbers(word):
    return [int(text) for text in word.split(",")]


# ---- L1 signalling (EN 302 755, clause 7.2): each row by its number, its bits, and what is right of it; what is ignored is read as 0


def is_0(value):
    return value == 0


def is_1(value):
    return value == 1


def any_value(value):
    return True


def ignored(value):
    return None


def below(most):
    return lambda value: value < most


PRE = [(1, 8, is_0), (2, 1, any_value), (3, 3, is_0), (4, 4, lambda value: value % 2 == 0), (5, 1, is_0)]
PRE += [(row, bits, any_value) for row, bits in ((6, 3), (7, 4), (8, 4), (9, 2), (10, 2), (11, 18), (12, 18), (13, 4), (14, 8))]
PRE += [(row, bits, any_value) for row, bits in ((15, 16), (16, 16), (17, 16), (18, 8), (19, 12), (20, 3))]
PRE += [(21, 1, is_0), (22, 3, is_1), (23, 3, is_0), (24, 4, any_value), (25, 1, is_0), (26, 1, is_0), (27, 4, ignored)]
CONF = [(33, 4, is_0), (34, 8, ignored), (35, 3, any_value), (36, 32, any_value)]
CONF_PLP = [(37, 8, any_value), (38, 3, below(3)), (39, 5, lambda value: value == 3), (40, 1, is_0), (41, 3, any_value)]
CONF_PLP += [(42, 8, any_value), (43, 8, any_value), (44, 3, below(6)), (45, 3, below(4)), (46, 1, any_value), (47, 2, below(2))]
CONF_PLP += [(48, 10, any_value), (49, 8, is_1), (50, 8, any_value), (51, 1, any_value), (52, 1, is_0), (53, 1, is_0)]
CONF_PLP += [(54, 11, ignored), (55, 2, lambda value: value == 2), (56, 1, any_value), (57, 1, any_value)]
CONF_BACK = [(58, 2, is_0), (59, 30, ignored)]
DYN = [(61, 8, any_value), (62, 22, any_value), (63, 22, any_value), (64, 8, any_value), (65, 3, any_value), (66, 8, ignored)]
DYN_PLP = [(67, 8, any_value), (68, 22, any_value), (69, 10, any_value), (70, 8, ignored)]
DYN_BACK = [(71, 8, ignored)]


class Source:
    """Bits that are read, row by row, and as they are written again."""

    def __init__(self, bits):
        self.left, self.out = bits, ""

    def take(self, width):
        if len(self.left) < width:
            raise ValueError(f"Short {{ left: {len(self.left)} }}")
        own, self.left = self.left[:width], self.left[width:]
        return number(own)

    def rows(self, rows):
        for row, width, right in rows:
            value = self.take(width)
            verdict = right(value)
            if verdict is False:
                raise ValueError(f"Unsupported {{ field: {row} }}")
            self.out += f"{0 if verdict is None else value:0{width}b}"


def again(net, kind, bits):
    """The bits that are written of a part that is read."""
    source = Source(bits)
    if kind in ("pre", "crc"):
        source.rows(PRE)
        counted = remainder(bits[:168], *CRC_32)
        if kind == "crc" and (told := source.take(32)) != counted:
            raise ValueError(f"Crc {{ read: {told}, counted: {counted} }}")
    elif kind == "conf":
        source.rows([(31, 15, any_value)])
        plps = source.take(8)
        if plps == 0:
            raise ValueError("Unsupported { field: 32 }")
        if (size := 181 + 137 * len(net.chains)) != 181 + 137 * plps:
            raise ValueError(f"Size {{ told: {size}, counted: {181 + 137 * plps} }}")
        source.out += f"{plps:08b}"
        source.rows(CONF + plps * CONF_PLP + CONF_BACK)
    else:
        source.rows(DYN + len(net.chains) * DYN_PLP + DYN_BACK)
    return source.out


def reads(net, kind, word, length):
    try:
        return hexed(again(net, kind, part(word, 0, length)))
    except ValueError as refusal:
        return str(refusal)


def turned_at(net, kind, bits, place):
    own = bits[:place] + "10"[int(bits[place])] + bits[place + 1 :]
    try:
        came = again(net, kind, own)
    except ValueError as refusal:
        words = str(refusal).split()
        return words[-2] if words[0] == "Unsupported" else "s" if words[0] == "Size" else str(refusal)
    return "t" if padded(came) == padded(own) else "i" if padded(came) == padded(bits) else "other"


def turned(net, kind, word, length):
    bits = part(word, 0, length)
    return "".join(f"{turned_at(net, kind, bits, place)} " for place in range(len(bits))) + "all"


def post(word, first, length):
    bits = part(word, first, length)
    if len(bits) < 32:
        return f"Short {{ left: {len(bits)} }}"
    told, counted = number(bits[-32:]), remainder(bits[:-32], *CRC_32)
    return "right" if told == counted else f"Crc {{ read: {told}, counted: {counted} }}"


def knows(net, word, length):
    """Whether bits are the configurable part of a network, but for what is ignored."""
    bits = part(word, 0, length)
    try:
        known = again(net, "conf", bits) == l1.conf_of(net) and len(bits) == len(l1.conf_of(net))
    except ValueError:
        known = False
    return "true" if known else "false"


def answer(networks, verb, *words):
    with_network = {
        "pre": lambda net: hexed(l1.pre_of(net)),
        "conf": lambda net: hexed(l1.conf_of(net)),
        "dyn": lambda net, frame, counts: hexed(dynamic(net, int(frame), numbers(counts))),
        "read": reads,
        "turned": turned,
        "post": lambda net, *rest: post(*rest),
        "knows": knows,
        "queue": queue,
    }
    plain = {
        "crc32": lambda *words: f"{remainder(part(*words), *CRC_32):08x}",
        "crc8": lambda *words: f"{remainder(part(*words), *CRC_8):02x}",
        "prbs": lambda count: sequence(int(count)).hex(),
        "blocks": lambda block: sequence(120 * (int(block) + 1))[-120:].hex(),
        "field": lambda word, at, width: f"{number(part(word, at, width)):x}",
        "bytes": lambda word, first, count: hexed(part(word, first, 8 * int(count))),
        "put": put,
        "take": take,
        "joined": joined,
        "transport": transport,
        "carries": carries,
        "null": is_null,
        "canonical": lambda: ts.NULL.hex(),
        "deletes": deletes,
        "slots": slots,
        "baseband": baseband,
        "written": written,
        "scramble": scramble,
        "t2mi": t2mi,
        "needed": needed,
        "shape": networks.shape,
        "map": networks.map,
        "cell": networks.cell,
    }
    if verb in with_network:
        return with_network[verb](networks[words[0]], *words[1:])
    return plain[verb](*words)


def main():
    networks = Networks()
    for line in sys.stdin.read().splitlines():
        words = line.split(" ")
        if words[0] == "network":
            networks.add(*words[1:])
        if not line or line.startswith("#") or words[0] == "network":
            print(line)
        else:
            print(f"{line} = {answer(networks, *words)}")


if __name__ == "__main__":
    main()
