"""What a receiver gives back of records: each slot's packet, or the canonical null packet."""

from . import ts
from .bits import scramble
from .blocks import read_block
from .cells import wrong_blocks
from .records import readable


class Taken:
    """A block that is taken, of an interleaving frame, with the place of its data field in the string of its run."""

    def __init__(self, m, view, place):
        self.m, self.view, self.place = m, view, place
        self.end = place + len(view.field)
        # Where the first user packet begins in it.
        self.first = None if view.syncd == 65_535 else place + view.syncd // 8


def is_taken(chain, view):
    # TS/GS, ISSYI and NPD.
    return view is not None and (view.matype >> 6, view.matype >> 3 & 1, view.matype >> 2 & 1) == (3, 1, chain.delete)


def blocks_of(plan, chain, numbered, shapes):
    """The blocks of a PLP that are taken, in order, with their interleaving frames; nothing stands for a gap."""
    if not numbered:
        return
    records = dict(numbered)
    for m in range(numbered[0][0] // chain.spread, numbered[-1][0] // chain.spread + 1):
        carrying = range(m * chain.spread, (m + 1) * chain.spread)
        own = [shapes.get(number) for number in carrying]
        if not all(own) or len({shape.counts[chain.place] for shape in own}) > 1:
            yield m, None
            continue
        wrong = set()
        for number in carrying:
            wrong |= wrong_blocks(plan, shapes[number], chain.place, number, records[number].parts[3])
        first = records[carrying[0]]
        for place, block in enumerate(block for plp_id, block in first.parts[2] if plp_id == chain.id):
            view = None if place in wrong else read_block(scramble(block))
            yield m, view if is_taken(chain, view) else None


def runs_of(blocks):
    """The runs of blocks that are taken."""
    run, place = [], 0
    for m, view in blocks:
        if view is None:
            if run:
                yield run
            run, place = [], 0
        else:
            run.append(Taken(m, view, place))
            place = run[-1].end
    if run:
        yield run


def slot_by_iscr(chain, block):
    """The slot of the range of a block whose start is its ISCR."""
    first, last = chain.over((block.m - 1) * chain.epoch), chain.over(block.m * chain.epoch)
    iscr = block.view.issy % 2**22
    return next((slot for slot in range(first, last) if chain.start(slot) % 2**22 == iscr), None)


def is_complete(run, x, length):
    """Whether the user packet at x is whole, and the blocks behind the one in which it begins agree where it ends."""
    if x + length > run[-1].end:
        return False
    for block in run:
        if x < block.place < x + length:
            if not (block.first == x + length or (block.first is None and block.end <= x + length)):
                return False
    return True


def packets_of(chain, run):
    """The user packets of a run that have a slot: the block in which each begins, its place, and its slot."""
    string = b"".join(block.view.field for block in run)
    length, slots, at = chain.up_bytes, {}, 0
    for number, block in enumerate(run):
        if block.first is None:
            continue
        for x in range(block.first, block.end, length):
            if x == block.first and block.view.issy >> 22 == 2:
                slot = slot_by_iscr(chain, block)
            elif x - length in slots:
                slot = slots[x - length] + 1 + (string[x + 187 : x + 188] or b"\0")[0] * chain.delete
            else:
                slot = None
            # Only what can reach into it decides whether it is whole.
            if slot is not None and is_complete(run[number:], x, length):
                slots[x] = slot
                yield block, x, slot, string[x : x + 187]


def readback(plan, chain, numbered):
    """The slot at which the output of a PLP begins, and its packets, from records with their numbers."""
    if not numbered:
        return 0, []
    shapes = {number: readable(plan, number, record) for number, record in numbered}
    there = {}
    for run in runs_of(blocks_of(plan, chain, numbered, shapes)):
        for block, x, slot, up in packets_of(chain, run):
            in_range = chain.over((block.m - 1) * chain.epoch) <= slot < chain.over(block.m * chain.epoch)
            ends = next(other.m for other in run if other.place < x + chain.up_bytes <= other.end)
            last = (ends + 1) * chain.spread - 1
            if in_range and chain.start(slot) + chain.delay > last * plan.ticks:
                there.setdefault(slot, b"\x47" + up)
    first = chain.over((numbered[0][0] - chain.spread) * plan.ticks)
    end = chain.due_by((numbered[-1][0] + 1) * plan.ticks)
    return first, [there.get(slot, ts.NULL) for slot in range(first, end)]
