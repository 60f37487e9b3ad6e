"""The frames of a run, as a gateway makes them of its inputs, their T2-MI packets, and their records."""

from functools import lru_cache

from . import l1, packets
from .bits import bytes_of, scramble
from .blocks import Queue
from .cells import cell_map, shape_of


class Frame:
    """A frame with its number: the bits of its L1, its blocks, not scrambled, each with its PLP, and its shape."""

    def __init__(self, plan, number, pre, conf, dynamic, blocks):
        self.plan, self.number, self.blocks = plan, number, blocks
        self.pre, self.conf, self.dynamic = pre, conf, dynamic
        self.shape = l1.read_dyn(plan, dynamic)

    def post(self):
        return l1.with_crc(self.conf + self.dynamic)

    def cells(self):
        return cell_map(self.plan, self.shape, self.number)

    def packets(self, count):
        """Its T2-MI packets, of which the first has this number."""
        plan, idx = self.plan, self.number % self.plan.frames
        superframe = self.number // plan.frames
        payloads = []
        if idx == 0:
            moment = plan.emission(self.number)
            payloads.append((packets.STAMP, packets.stamp_payload(plan.bw, *moment, plan.config.utco)))
        payloads.append((packets.CURRENT, packets.current_payload(idx, self.pre, self.conf, self.dynamic)))
        before = None
        for plp_id, block in self.blocks:
            payloads.append((packets.BLOCK, packets.block_payload(idx, plp_id, plp_id != before, block)))
            before = plp_id
        return [packets.spell(kind, count + at, superframe, payload) for at, (kind, payload) in enumerate(payloads)]

    def record(self):
        """Its record, as bytes."""
        post = self.post()
        rest = [pre_bytes(self.pre), len(post).to_bytes(4, "big"), bytes_of(post)]
        rest.append(len(self.blocks).to_bytes(2, "big"))
        for plp_id, block in self.blocks:
            rest += [bytes([plp_id, 0]), len(block).to_bytes(2, "big"), scramble(block)]
        cells = self.cells()
        rest += [(len(cells) // 4).to_bytes(4, "big"), cells]
        return head(self.plan, self.number, 1, sum(map(len, rest))) + b"".join(rest)


@lru_cache(64)
def pre_bytes(pre):
    return bytes_of(l1.with_crc(pre))


def head(plan, number, kind, size):
    seconds, subseconds = plan.emission(number)
    numbers = seconds.to_bytes(8, "big") + subseconds.to_bytes(4, "big") + size.to_bytes(4, "big")
    return b"T2FR" + bytes([kind, 0, 0, 0]) + numbers


def muted_record(plan, number):
    return head(plan, number, 2, 0)


def made_frame(plan, number, counts, blocks):
    """The frame that tells these numbers of blocks."""
    dynamic = l1.dyn_of(plan, number, shape_of(plan, number, counts))
    return Frame(plan, number, l1.pre_of(plan), l1.conf_of(plan), dynamic, blocks)


def frames_of(plan, inputs, count):
    """The first so many frames of a run; an input is a list of packets."""
    pairs = zip(plan.chains, inputs) if count else []
    queues = [Queue(chain, own, (count - 1) // chain.spread) for chain, own in pairs]
    for number in range(count):
        counts, blocks = [], []
        for chain, queue in zip(plan.chains, queues):
            own = queue.blocks(number // chain.spread)
            counts.append(len(own))
            if number % chain.spread == 0:
                blocks += [(chain.id, block) for block in own]
        yield made_frame(plan, number, counts, blocks)


def length(plan, counts):
    """How many frames a run has: the fewest whole superframes in which the delays of so many packets have passed."""
    frames = 0
    while any(frames * plan.ticks < chain.start(count) + chain.delay for chain, count in zip(plan.chains, counts)):
        frames += plan.frames
    return frames


def packets_of(frames):
    """The T2-MI packets of some frames."""
    made = []
    for frame in frames:
        made += frame.packets(len(made))
    return made
