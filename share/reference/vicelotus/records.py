"""Files of records, as they are read."""

from . import l1
from .bits import bits_of, crc32_of_bits
from .cells import passes
from .text import RECORD_MOST, Refused

WHYS = {1: "Head", 2: "Kind", 3: "Length", 4: "Order", 5: "OffGrid"}


class Record:
    """A record that is read: a muted one has no parts."""

    def __init__(self, kind, seconds, subseconds, parts):
        self.kind, self.seconds, self.subseconds, self.parts = kind, seconds, subseconds, parts


def parts_of(rest):
    """The L1-pre, the L1-post, the blocks and the cells of a rest that they fill exactly, or nothing."""
    if len(rest) < 29:
        return None
    pre, count = rest[:25], int.from_bytes(rest[25:29], "big")
    at = 29 + -(-count // 8)
    if len(rest) < at + 2:
        return None
    post, blocks = (rest[29:at], count), []
    left = int.from_bytes(rest[at : at + 2], "big")
    at += 2
    for _ in range(left):
        if len(rest) < at + 4:
            return None
        size = int.from_bytes(rest[at + 2 : at + 4], "big")
        blocks.append((rest[at], rest[at + 4 : at + 4 + size]))
        at += 4 + size
    if len(rest) < at + 4 or len(rest) != at + 4 + 4 * int.from_bytes(rest[at : at + 4], "big"):
        return None
    return pre, post, blocks, rest[at + 4 :]


def read(data, at):
    """The record at a place, and its length; or the number of its refusal."""
    head = data[at : at + 24]
    if len(head) < 24 or head[:4] != b"T2FR" or head[5:8] != b"\0\0\0":
        return 1, 0
    kind, size = head[4], int.from_bytes(head[20:24], "big")
    if kind not in (1, 2):
        return 2, 0
    rest = data[at + 24 : at + 24 + size]
    parts = parts_of(rest) if kind == 1 else None
    if size > RECORD_MOST or len(rest) < size or (parts is None if kind == 1 else size):
        return 3, 0
    return Record(kind, int.from_bytes(head[8:16], "big"), int.from_bytes(head[16:20], "big"), parts), 24 + size


def refused(number, why):
    return Refused(7, f"RecordRefused {{ number: {number}, why: {WHYS[why]} }}", f"refused: record {number} why {why}")


def all_of(data):
    """The records of a file up to its end or to the first that is refused; and that refusal, if there is one."""
    at, found = 0, []
    while at < len(data):
        record, size = read(data, at)
        if not isinstance(record, Record):
            return found, refused(len(found), record)
        found.append(record)
        at += size
    return found, None


def placed(plan, data):
    """The records of a file with the numbers of their frames, up to the first that is refused, and that refusal."""
    found, refusal = all_of(data)
    numbered, expected = [], None
    for place, record in enumerate(found):
        number = plan.frame_at(record.seconds, record.subseconds)
        if number is None:
            return numbered, refused(place, 5)
        if expected not in (None, number):
            return numbered, refused(place, 4)
        numbered.append((number, record))
        expected = number + 1
    return numbered, refusal


def has_plan_l1(plan, pre, post, count):
    bits = bits_of(pre)
    if crc32_of_bits(bits[:168]) != int(bits[168:], 2) or not l1.is_pre(plan, bits[:168]):
        return False
    return count == 213 + 137 * len(plan.chains) and l1.has_crc(bits_of(post, count))


def readable(plan, number, record):
    """The shape of a record that a receiver can read, or nothing if it counts as muted."""
    if record.kind != 1:
        return None
    pre, (post, count), blocks, cells = record.parts
    if not has_plan_l1(plan, pre, post, count):
        return None
    bits, conf = bits_of(post, count), 102 + 89 * len(plan.chains)
    shape = l1.read_dyn(plan, bits[conf:-32])
    if not l1.is_conf(plan, bits[:conf]) or not l1.agrees(plan, number, shape):
        return None
    due = []
    for chain, told in zip(plan.chains, shape.counts):
        if number % chain.spread == 0:
            due += [(chain.id, chain.bits // 8)] * told
    if [(plp_id, len(block)) for plp_id, block in blocks] != due or len(cells) != 4 * plan.config.cells:
        return None
    return shape if passes(plan, shape) else None


def lines(found):
    """What `show frames` says of records."""
    for place, record in enumerate(found):
        moment = f"seconds={record.seconds} subseconds={record.subseconds}"
        if record.kind == 2:
            yield f"record={place} kind=muted {moment}"
        else:
            yield f"record={place} kind=frame {moment} blocks={len(record.parts[2])} cells={len(record.parts[3]) // 4}"
