"""What is made of the frames of T2-MI streams: two streams merged, one PLP replaced, and two streams compared."""

from . import packets
from .blocks import Queue
from .frames import made_frame, packets_of
from .modulator import begins, is_shown


def merged(one, other):
    """The frames of two streams, each from the first that has it, and how many are from each."""
    first = {frame.number: frame for frame in one if is_shown(frame)}
    second = {frame.number: frame for frame in other if is_shown(frame)}
    numbers = sorted(first.keys() | second.keys())
    return [first.get(number) or second[number] for number in numbers], len(first), len(numbers) - len(first)


def swapped(plan, chain, frames, stream):
    """The frames of a stream that are not muted, with the blocks of one PLP made of another input."""
    queue = Queue(chain, stream, frames[-1].number // chain.spread)
    for frame in filter(is_shown, frames):
        own = queue.blocks(frame.number // chain.spread)
        counts = list(frame.shape.counts)
        counts[chain.place] = len(own)
        blocks = []
        for other in plan.chains:
            if other is not chain:
                blocks += [(plp_id, block) for plp_id, block in frame.blocks if plp_id == other.id]
            elif frame.number % chain.spread == 0:
                blocks += [(chain.id, block) for block in own]
        yield made_frame(plan, frame.number, counts, blocks)


def piped(plan, frames, is_whole=True):
    return packets.pipe(plan.config.pid, packets_of(frames), is_whole)


def carried(frames, chain, number):
    """The blocks of a PLP that a frame carries: those of the group in which its interleaving frame begins, muted or not."""
    first = frames.get(begins(chain, number))
    return [packet.block for packet in first.group.right(chain)] if first and first.group else []


def differing(plan, first, second, number):
    """Of each PLP of which a frame does not carry the same in both streams: its identifier, the place of the first
    block that is not the same, and whether both have a block there."""
    for chain in plan.chains:
        one, other = carried(first, chain, number), carried(second, chain, number)
        if one != other:
            both = min(len(one), len(other))
            place = next((place for place in range(both) if one[place] != other[place]), both)
            yield chain.id, place, place < both


def answer(plan, first, second, number):
    """What is said of a frame of which either stream has a record."""
    one, other = first.get(number), second.get(number)
    if one is None or other is None:
        return "only-b" if one is None else "only-a"
    if not is_shown(one) or not is_shown(other):
        return "muted-b" if is_shown(one) else "muted-a" if is_shown(other) else "muted-both"
    if one.post() != other.post():
        return "differs at=l1"
    for plp_id, place, _ in differing(plan, first, second, number):
        return f"differs at=block plp={plp_id} block={place}"
    return "same"


def plp_lines(plan, first, second, number):
    """A line for each PLP in which a frame differs that both streams send."""
    for plp_id, place, has_both in differing(plan, first, second, number):
        where = f"block block={place}" if has_both else "count"
        yield f"frame={number} plp={plp_id} at={where}"


def compared(plan, one, other):
    """What `compare` says of two streams, and the first frame that differs."""
    first, second = ({frame.number: frame for frame in frames} for frames in (one, other))
    numbers = sorted(first.keys() | second.keys())
    answers = [(number, answer(plan, first, second, number)) for number in numbers]
    lines, runs = [], []
    for number, is_what in answers:
        if runs and runs[-1][1] + 1 == number and runs[-1][2] == is_what and not is_what.startswith("differs"):
            runs[-1][1] = number
        else:
            runs.append([number, number, is_what])
    for begin, end, is_what in runs:
        if is_what.startswith("differs"):
            lines.append(f"frame={begin} is={is_what}")
            lines += plp_lines(plan, first, second, begin)
        else:
            lines.append(f"frames={begin}..{end} is={is_what}")
    differing = [number for number, is_what in answers if is_what.startswith("differs")]
    same = sum(is_what == "same" for _, is_what in answers)
    lines.append(f"compared frames={len(answers)} same={same} differ={len(differing)}")
    return lines, differing[0] if differing else None
