#!/usr/bin/env python3
"""Tries the definitions of mending on drawn networks, losses, outages, and packets that no gateway sends.

usage: mend.py [SEED [CASES]]

E1, whatever the bytes are: what a modulator makes of OUT are the frames that were sent, from the first that begins a
superframe on, each under its number, and no others.
E2, of feeds of one run that lost units: each frame that is sent is the run's.
E3, if none of them has an idle unit: each frame is sent of which each packet came, in a group with a number, and so it
is with the frames in which interleaving frames begin that it carries.
E4, if one feed is whole: OUT is the stream of the run.
E2 to E4 ask that feeds can be followed (`is_followed`). In other cases E1 holds, and frames that are not the run's are
counted.
"""

import random
import sys

from vicelotus import packets, ts
from vicelotus.bits import bits_of
from vicelotus.feeds import piped
from vicelotus.frames import Frame, frames_of, length
from vicelotus.mending import between_idle, events, mended, spaced
from vicelotus.modulator import begins, is_shown, modulated
from vicelotus.plan import FRAMES_MOST, Plan
from vicelotus.text import Refused, read

TEXT = """t2-gateway 2
bandwidth 8
frame 200000 {frames} 500000
start 700000000 0 5
pid 256
network 1 2 3 474000000
l1 0 6 1 0 1 0 0 1000 6 0 59 0
subslices 1
{plps}"""
PERIOD = 16


def drawn_plan(draw):
    frames, plps = draw.choice([2, 2, 3, 4, 6]), []
    for place in range(draw.randrange(1, 4)):
        spread = draw.choice([1, 1] + [n for n in range(2, 7) if frames % n == 0])
        blocks = draw.choice([1, 2, 4, 20])
        rate = blocks * (200_000 if spread == 1 else 180_000)
        plps.append(f"plp {place} type1 {place + 1} 1/2 qpsk short 0 {blocks * spread} 1 delete {rate} {spread}\n")
    return Plan(read(TEXT.format(frames=frames, plps="".join(plps)).encode())).fits()


class Run:
    """The frames of a gateway, its stream, and the packets in it, each with its frame."""

    def __init__(self, plan, draw, superframes):
        inputs = []
        for chain in plan.chains:
            count = chain.over(superframes * plan.frames * plan.ticks)
            inputs.append([drawn_packet(draw) for _ in range(count)])
        self.frames = list(frames_of(plan, inputs, length(plan, list(map(len, inputs)))))
        self.stream = piped(plan, self.frames)
        found = packets.accepted(plan.config.pid, self.stream)
        self.place_of = {packet.place: place for place, packet in enumerate(found)}
        self.numbers = [frame.number for frame in self.frames for _ in frame.packets(0)]


def drawn_packet(draw):
    return b"\x47\x01\x00\x10" + draw.randbytes(184) if draw.random() < 0.8 else ts.NULL


class Feed:
    """The units that are left of a run's stream: each has its place there, or is idle."""

    def __init__(self, run, places):
        units, own = ts.packets_of(run.stream), []
        for place in places:
            own.append(IDLE if place is None else units[place])
        self.run, self.places, self.data = run, places, b"".join(own)

    def of_run(self, packet):
        """The place of a packet among those of the run."""
        unit, rest = divmod(packet.place, ts.UNIT)
        return self.run.place_of[self.places[unit] * ts.UNIT + rest]


IDLE = bytes([0x47, 1, 0, 0x20, 183]) + bytes(183)


def damaged(plan, draw, run):
    """Units lost one by one and in bursts, an outage, and idle units."""
    count, places = len(run.stream) // ts.UNIT, []
    rate, burst, idle = draw.choice([0.003, 0.01, 0.03]), 0, draw.choice([0, 0, 0.002])
    begin = draw.randrange(count)
    lost = draw.choice([0, 0, count // 4, count // 2, count * PERIOD * plan.frames // len(run.frames)])
    for place in range(count):
        burst = max(0, burst - 1) or (draw.randrange(1, 6) if draw.random() < rate else 0)
        if not burst and not begin <= place < begin + lost:
            places.append(place)
        if draw.random() < idle:
            places.append(None)
    return Feed(run, places)


def is_followed(plan, feed):
    """Whether a feed lacks nowhere 256 packets within a frame, nor a multiple of 16 superframes to the frame: up to the
    same frame of a superframe, or to the next one without its timestamp. An idle unit between is enough."""
    numbers, period = feed.run.numbers, PERIOD * plan.frames
    for piece in between_idle(plan.config.pid, feed.data):
        own = [(feed.of_run(packet), packet) for packet in piece]
        for (before, _), (place, packet) in zip(own, own[1:]):
            ahead = numbers[place] - numbers[before]
            if ahead == 0 and place - before > 256:
                return False
            if ahead > 1 and (ahead % period == 0 or (ahead % period == 1 and packet.kind != packets.STAMP)):
                return False
    return True


def same(one, other):
    return one.packets(0) == other.packets(0)


def try_out(plan, sent):
    """E1."""
    out = piped(plan, spaced(plan, [own.frame for own in sent]))
    joins = [own.number for own in sent if own.number % plan.frames == 0]
    wanted = {own.number: own.frame for own in sent if joins and own.number >= joins[0]}
    made = modulated(plan, out)
    numbers = range(min(wanted), max(wanted) + 1) if wanted else []
    assert [frame.number for frame in made] == list(numbers), "a modulator counts otherwise"
    for frame in made:
        assert is_shown(frame) == (frame.number in wanted), f"frame {frame.number} is muted, or was not sent"
        assert not is_shown(frame) or same(frame, wanted[frame.number]), f"frame {frame.number} is another one of OUT"
    return out


def try_numbers(plan, feed):
    """A group with a number has packets of this frame alone."""
    for event in events(plan, feed.data):
        if event:
            own = {feed.run.numbers[feed.of_run(packet)] for packet in event[1].packets}
            assert own == {event[0]}, f"a group of frames {own} has number {event[0]}"


def came(plan, run, feeds):
    """The frames of which all came, in groups with numbers, and in the frames in which interleaving frames begin."""
    have, whole = set(), set()
    for feed in feeds:
        for event in events(plan, feed.data):
            have |= {feed.of_run(packet) for packet in event[1].packets}
    lacking = {number for place, number in enumerate(run.numbers) if place not in have}
    for number in range(len(run.frames)):
        if number not in lacking and all(begins(chain, number) in whole | {number} for chain in plan.chains):
            whole.add(number)
    return whole


def try_damage(draw):
    """E1 to E4 of feeds of one run."""
    plan = drawn_plan(draw)
    run = Run(plan, draw, draw.choice([3, 6, 20, 40]))
    feeds = [damaged(plan, draw, run) for _ in range(draw.randrange(1, 4))]
    has_whole = draw.random() < 0.2
    if has_whole:
        feeds.insert(draw.randrange(len(feeds) + 1), Feed(run, range(len(run.stream) // ts.UNIT)))
    sent = mended(plan, [feed.data for feed in feeds])
    out = try_out(plan, sent)
    wrong = [own.number for own in sent if own.number >= len(run.frames) or not same(own.frame, run.frames[own.number])]
    is_clear = all(is_followed(plan, feed) for feed in feeds)
    if is_clear:
        assert not wrong, f"frames {wrong} are others"
        for feed in feeds:
            try_numbers(plan, feed)
        assert not has_whole or out == run.stream, "one feed is whole, and OUT is another stream"
        if all(None not in feed.places for feed in feeds):
            unsent = came(plan, run, feeds) - {own.number for own in sent}
            assert not unsent, f"frames {unsent} came, and are not sent"
    return {
        "run": len(run.frames),
        "sent": len(sent),
        "woven": sum(own.is_woven for own in sent),
        "unclear": not is_clear,
        "wrong": len(wrong),
    }


def changed(draw, data):
    """A packet of which one field or bit is another one."""
    kind, count, superframe = data[0], data[1], data[2] >> 4
    payload = bits_of(data[6:-4], int.from_bytes(data[4:6], "big"))
    change = draw.randrange(4)
    if change == 0:
        count = draw.randrange(256)
    elif change == 1:
        superframe = draw.randrange(16)
    elif change == 2:
        place = draw.randrange(len(payload))
        payload = payload[:place] + str(1 - int(payload[place])) + payload[place + 1 :]
    elif kind == packets.BLOCK:
        payload = payload[: -8 * draw.randrange(1, 3)]
    return packets.spell(kind, count, superframe, payload)


def moved(frame, ahead):
    """The same frame, so many later."""
    return Frame(frame.plan, frame.number + ahead, frame.pre, frame.conf, frame.dynamic, frame.blocks)


def drawn_pieces(plan, draw):
    """Frames of two runs, in pieces, in any order and at other times."""
    runs = [Run(plan, draw, 3) for _ in range(2)]
    first = draw.choice([0, 0, plan.frames * (FRAMES_MOST // plan.frames - draw.choice([1, 2, 20, 42]))])
    pieces = []
    for _ in range(draw.randrange(1, 6)):
        own, ahead = draw.choice(runs).frames, first + plan.frames * draw.choice([0, 0, 0, 1, PERIOD, 40])
        begin = draw.choice([0, draw.randrange(len(own))])
        pieces.append([moved(frame, ahead) for frame in own[begin : begin + draw.randrange(1, 4 * plan.frames)]])
    return pieces


def drawn_mess(plan, draw, pieces):
    """A feed of some of the pieces, with packets that are changed, lost, twice and exchanged."""
    rate, made = draw.choice([0, 0.02, 0.05]), []
    for frame in [frame for piece in pieces if draw.random() < 0.8 for frame in piece]:
        for data in frame.packets(len(made)):
            row = [changed(draw, data) if draw.random() < rate else data]
            made += draw.choice([[], row * 2]) if draw.random() < rate else row
            if draw.random() < rate and len(made) > 1:
                made[-2:] = made[:-3:-1]
    units = ts.packets_of(packets.pipe(plan.config.pid, made))
    lost = draw.choice([0, 0.01])
    return b"".join(unit + IDLE * (draw.random() < rate / 8) for unit in units if draw.random() >= lost)


def try_mess(draw):
    """E1 of any bytes."""
    plan = drawn_plan(draw)
    pieces = drawn_pieces(plan, draw)
    sent = mended(plan, [drawn_mess(plan, draw, pieces) for _ in range(draw.randrange(1, 5))])
    try_out(plan, sent)
    return {"messes": 1, "of-mess": len(sent), "woven-of-mess": sum(own.is_woven for own in sent)}


def main(seed="1", cases="100"):
    sums = {}
    for case in range(int(cases)):
        draw = random.Random(f"{seed} {case}")
        try:
            for name, count in (try_mess if case % 2 else try_damage)(draw).items():
                sums[name] = sums.get(name, 0) + count
        except AssertionError as why:
            sys.exit(f"seed {seed} case {case}: {why}")
        except Refused:
            continue
    print(" ".join(f"{name}={count}" for name, count in sums.items()))


main(*sys.argv[1:])
