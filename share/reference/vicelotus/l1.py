"""L1 signalling (EN 302 755, clause 7.2). A part is the bits of its fields; RESERVED ones and AUX_CONFIG_RFU decide nothing."""

from .bits import crc32_of_bits, fields
from .text import KINDS

PRE = [8, 1, 3, 4, 1, 3, 4, 4, 2, 2, 18, 18, 4, 8, 16, 16, 16, 8, 12, 3, 1, 3, 3, 4, 1, 1, 4]
CONF_HEAD = [15, 8, 4, 8, 3, 32]
CONF_PLP = [8, 3, 5, 1, 3, 8, 8, 3, 3, 1, 2, 10, 8, 8, 1, 1, 1, 11, 2, 1, 1]
CONF_TAIL = [2, 30]
DYN_HEAD = [8, 22, 22, 8, 3, 8]
DYN_PLP = [8, 22, 10, 8]
DYN_TAIL = [8]
# The places of the fields that decide nothing.
PRE_FREE, CONF_HEAD_FREE, CONF_PLP_FREE, CONF_TAIL_FREE = {26}, {3}, {17}, {1}


def conf_widths(count):
    return CONF_HEAD + CONF_PLP * count + CONF_TAIL


def conf_free(count):
    head, plp = len(CONF_HEAD), len(CONF_PLP)
    free = set(CONF_HEAD_FREE) | {head + count * plp + place for place in CONF_TAIL_FREE}
    return free | {head + number * plp + place for number in range(count) for place in CONF_PLP_FREE}


def split(bits, widths):
    values, at = [], 0
    for width in widths:
        values.append(int(bits[at : at + width], 2))
        at += width
    return values


def spell(values, widths):
    return fields(*zip(values, widths))


def pre_values(plan):
    config = plan.config
    ext, s2, guard, papr, mod, cod, fec, size, pilot, tx, symbols, regen = config.l1
    cell, network, system, _ = config.network
    info = 181 + 137 * len(plan.chains)
    head = [0, ext, 0, s2, 0, guard, papr, mod, cod, fec, size, info, pilot, tx, cell, network, system, config.frames]
    return head + [symbols, regen, 0, 1, 0, 2, 0, 0, 0]


def pre_of(plan):
    return spell(pre_values(plan), PRE)


def conf_of(plan):
    config = plan.config
    values = [config.sub_slices, len(plan.chains), 0, 0, 0, config.network[3]]
    for chain in plan.chains:
        plp, wide = chain.plp, chain.spread > 1
        values += [plp.id, KINDS.index(plp.kind), 3, 0, 0, 0, plp.group, chain.cod, chain.mod, plp.rotation]
        values += [int(plp.size == "normal"), plp.blocks, 1, chain.spread if wide else plp.interleave, int(wide)]
        values += [0, 0, 0, 2, 0, 0]
    return spell(values + [0, 0], conf_widths(len(plan.chains)))


def is_same(bits, own, widths, free):
    """Whether bits spell what others spell, but for fields that decide nothing."""
    if len(bits) != len(own):
        return False
    pairs = zip(split(bits, widths), split(own, widths))
    return all(one == other or place in free for place, (one, other) in enumerate(pairs))


def is_pre(plan, bits):
    return is_same(bits, pre_of(plan), PRE, PRE_FREE)


def is_conf(plan, bits):
    count = len(plan.chains)
    return is_same(bits, conf_of(plan), conf_widths(count), conf_free(count))


class Shape:
    """How many blocks of each PLP a frame tells, where they start, and the interval of sub-slices."""

    def __init__(self, frame_idx, ids, counts, starts, interval, type2_start):
        self.frame_idx, self.ids, self.counts, self.starts = frame_idx, tuple(ids), tuple(counts), tuple(starts)
        self.interval, self.type2_start = interval, type2_start


def dyn_of(plan, frame, shape):
    values = [frame % plan.frames, shape.interval, shape.type2_start, 0, 0, 0]
    for chain, count, start in zip(plan.chains, shape.counts, shape.starts):
        values += [chain.id, start, count, 0]
    return spell(values + [0], DYN_HEAD + DYN_PLP * len(plan.chains) + DYN_TAIL)


def read_dyn(plan, bits):
    """The shape that a dynamic part tells, or nothing if it has another length."""
    count = len(plan.chains)
    if len(bits) != 79 + 48 * count:
        return None
    values = split(bits, DYN_HEAD + DYN_PLP * count + DYN_TAIL)
    rows = [values[6 + 4 * place : 10 + 4 * place] for place in range(count)]
    ids, starts, counts, _ = zip(*rows)
    return Shape(values[0], ids, counts, starts, values[1], values[2])


def agrees(plan, frame, shape):
    """Whether a dynamic part is one of this frame, with the PLPs in order."""
    ids = tuple(chain.id for chain in plan.chains)
    return shape is not None and shape.frame_idx == frame % plan.frames and shape.ids == ids


def with_crc(bits):
    return bits + fields((crc32_of_bits(bits), 32))


def has_crc(bits):
    return len(bits) >= 32 and with_crc(bits[:-32]) == bits
