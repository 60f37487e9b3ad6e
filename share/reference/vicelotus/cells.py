"""Which cell stands at which address of a frame (EN 302 755, clauses 6.5 and 8)."""

from array import array
from functools import lru_cache

from .l1 import Shape

DUMMY = 0xFFFFFFFF


def shape_of(plan, frame, counts):
    """The shape of a frame that tells these numbers of blocks."""
    cells = [count * chain.cells // chain.spread for chain, count in zip(plan.chains, counts)]
    two = [chain.kind == "type2" for chain in plan.chains]
    first = sum(w for w, is_two in zip(cells, two) if not is_two)
    second = sum(w for w, is_two in zip(cells, two) if is_two)
    slices = plan.config.sub_slices
    starts = []
    for place, count in enumerate(counts):
        if two[place]:
            start = first + sum(w // slices for w, is_two in zip(cells[:place], two) if is_two)
        else:
            start = sum(cells[:place])
        starts.append(start if count else 0)
    ids = [chain.id for chain in plan.chains]
    interval, type2_start = (second // slices, first) if plan.two else (0, 0)
    return Shape(frame % plan.frames, ids, counts, starts, interval, type2_start)


def pieces(plan, shape, place):
    """The pieces of a frame in which the cells of a PLP stand: the first address of each, and its length."""
    chain = plan.chains[place]
    count = shape.counts[place] * chain.cells // chain.spread
    if count == 0:
        return []
    if chain.kind != "type2":
        return [(shape.starts[place], count)]
    slices = plan.config.sub_slices
    return [(shape.starts[place] + number * shape.interval, count // slices) for number in range(slices)]


def passes(plan, shape):
    """Whether each PLP has at most its blocks, each cell an address of the frame, and no two cells one address."""
    used = bytearray(plan.config.cells)
    for place, chain in enumerate(plan.chains):
        if shape.counts[place] > chain.most:
            return False
        for start, size in pieces(plan, shape, place):
            if start + size > len(used) or 1 in used[start : start + size]:
                return False
            used[start : start + size] = b"\1" * size
    return True


@lru_cache(64)
def interleaved(blocks, cells, groups, ordinal):
    """The words of all cells of some blocks, the first of this ordinal, by their positions."""
    words = array("I", bytes(4 * blocks * cells))
    least, larger = divmod(blocks, groups) if groups else (1, 0)
    sizes = [least] * (groups - larger) + [least + 1] * larger if groups else [1] * blocks
    rows, first = cells // 5, 0
    for size in sizes:
        for block in range(first, first + size):
            word = 32_768 * (ordinal + block)
            if groups == 0:
                words[block * cells : (block + 1) * cells] = array("I", range(word, word + cells))
                continue
            for column in range(5):
                begin = first * cells + 5 * (block - first) + column
                values = array("I", range(word + column * rows, word + (column + 1) * rows))
                words[begin : begin + 5 * size * (rows - 1) + 1 : 5 * size] = values
        first += size
    return words


def words_of(plan, shape, place, frame):
    """The words of the cells of a PLP that a frame carries, in their order."""
    chain = plan.chains[place]
    words = interleaved(shape.counts[place], chain.cells, chain.plp.interleave, sum(shape.counts[:place]))
    share = len(words) // chain.spread
    turn = frame % plan.frames % chain.spread
    return words[turn * share : (turn + 1) * share]


MAPS = {}


def cell_map(plan, shape, frame):
    """The words of all addresses of a frame of this shape, which passes, as they stand in a record."""
    config = plan.config
    turns = tuple(frame % plan.frames % chain.spread for chain in plan.chains)
    networks = tuple((chain.cells, chain.plp.interleave, chain.spread, chain.kind) for chain in plan.chains)
    key = (config.cells, config.sub_slices, networks, shape.counts, shape.starts, shape.interval, turns)
    if key not in MAPS:
        if len(MAPS) > 100:
            MAPS.clear()
        words = array("I", b"\xff" * (4 * config.cells))
        for place in range(len(plan.chains)):
            own, at = words_of(plan, shape, place, frame), 0
            for start, size in pieces(plan, shape, place):
                words[start : start + size] = own[at : at + size]
                at += size
        words.byteswap()
        MAPS[key] = words.tobytes()
    return MAPS[key]


def wrong_blocks(plan, shape, place, frame, cells):
    """The blocks of a PLP of which a cell that the frame carries does not stand at its address."""
    if cells == cell_map(plan, shape, frame):
        return set()
    there = array("I", cells)
    there.byteswap()
    wrong, at, own = set(), 0, words_of(plan, shape, place, frame)
    before = sum(shape.counts[:place])
    for start, size in pieces(plan, shape, place):
        if own[at : at + size] != there[start : start + size]:
            pairs = zip(own[at : at + size], there[start : start + size])
            wrong |= {word // 32_768 - before for word, other in pairs if word != other}
        at += size
    return wrong
