"""A whole network on inputs that are drawn."""

from . import records, ts
from .bits import crc32
from .frames import frames_of, length
from .feeds import piped
from .modulator import is_shown, modulated
from .plan import Plan
from .receiver import readback
from .text import read

NETWORK = b"""t2-gateway 2
bandwidth 8
frame 100000 2 60000
start 700000000 0 5
pid 256
network 1 2 3 474000000
l1 0 6 1 0 1 0 0 1000 6 0 59 0
subslices 5
plp 1 type1 1 1/2 qpsk short 0 3 1 delete 1906000 1
plp 2 type1 1 2/3 16qam short 0 2 2 keep 1500000 1
plp 3 type2 2 3/5 64qam short 0 2 1 delete 1600000 1
"""


class Draws:
    def __init__(self, seed):
        self.x = seed

    def next(self):
        self.x = (self.x * 6364136223846793005 + 1442695040888963407) % 2**64
        return self.x >> 33


def drawn_input(chain, frames, draws):
    packets = []
    for slot in range(chain.over(frames * chain.plan.ticks)):
        if draws.next() % 4 == 0:
            packets.append(ts.NULL)
        else:
            head = b"\x47" + (256 + chain.place).to_bytes(2, "big") + bytes([16 + slot % 16])
            packets.append(head + bytes(draws.next() % 256 for _ in range(184)))
    return packets


def summary(name, frames):
    made = b"".join(frame.record() for frame in frames)
    muted = sum(not is_shown(frame) for frame in frames)
    return f"{name} first={frames[0].number} records={len(frames)} muted={muted}", made


def digest(data):
    return f"crc={crc32(data):08x}"


def lines(seed, frames):
    plan, draws = Plan(read(NETWORK)).fits(), Draws(seed)
    inputs = [drawn_input(chain, frames, draws) for chain in plan.chains]
    count = length(plan, list(map(len, inputs)))
    stream = piped(plan, frames_of(plan, inputs, count))
    units = ts.packets_of(stream)
    yield f"frames={count} units={len(units)} {digest(stream)}"
    left = []
    for place, unit in enumerate(units):
        drawn = draws.next()
        if place > 0 and not (place >= len(units) // 2 and drawn % 64 == 0):
            left.append(unit)
    a, b = modulated(plan, stream), modulated(plan, b"".join(left))
    text, of_a = summary("a", a)
    yield f"{text} {digest(of_a)}"
    text, of_b = summary("b", b)
    shown = {frame.number: frame.record() for frame in a if is_shown(frame)}
    same = sum(is_shown(frame) and shown.get(frame.number) == frame.record() for frame in b)
    yield f"{text} same={same} {digest(of_b)}"
    for chain, own in zip(plan.chains, inputs):
        outputs = [readback(plan, chain, records.placed(plan, data)[0])[1] for data in (of_a, of_b)]
        counts = [sum(not ts.is_null(packet) for packet in packets) for packets in (own, *outputs)]
        yield f"plp={chain.id} packets={counts[0]} a={counts[1]} b={counts[2]} {digest(b''.join(outputs[1]))}"
