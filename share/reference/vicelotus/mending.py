"""One T2-MI stream of one or more feeds of a network, in which no frame stands for another instant."""

from collections import deque

from . import l1, packets, ts
from .frames import Frame
from .modulator import Group, begins, chunks, first_cause, groups_of, need, room, shown
from .plan import FRAMES_MOST

# A superframe of a timestamp alone stands as many superframes behind the one before.
FARTHEST = 14


# ---- the events of a feed


def is_idle(pid, unit):
    """Whether a unit on the PID says that nothing came: it has no payload."""
    view = ts.read(unit)
    return bool(view) and view.pid == pid and not view.error and not view.scrambling and not view.payload


def arrivals(pid, data):
    """What comes with each unit: the packets that end in it, or `None` if it is idle."""
    found = deque(packets.accepted(pid, data))
    for place, unit in enumerate(ts.packets_of(data)):
        while found and found[0].unit == place:
            yield found.popleft()
        if is_idle(pid, unit):
            yield None


def between_idle(pid, data):
    """The packets before the first idle unit, those between it and the next, and so on."""
    pieces = [[]]
    for packet in arrivals(pid, data):
        if packet is None:
            pieces.append([])
        else:
            pieces[-1].append(packet)
    return pieces


def number_of(plan, last, group):
    """The number of a group: that of the frame that its first timestamp names; without a timestamp the next one behind
    the group before. The frame has the group's key, or there is no number."""
    stamps = group.of(packets.STAMP)
    if stamps:
        number = plan.frame_at(stamps[0].seconds, stamps[0].subseconds)
    else:
        number = None if last is None or last + 1 >= FRAMES_MOST else last + 1
    return None if number is None or plan.key(number) != group.key else number


def events(plan, data):
    """The groups of a feed that have numbers, each with its own, and `None` for each idle unit, which ends counting."""
    for place, piece in enumerate(between_idle(plan.config.pid, data)):
        if place:
            yield None
        last = None
        for group in groups_of(plan, piece):
            last = number_of(plan, last, group)
            if last is not None:
                yield last, group


# ---- picking


def picked(feeds, sent):
    """The frames of several feeds of events, in order, each with its groups by the places of their feeds. The least
    number that is next is picked, and each silence that is next gives its feed up for it. One not above the last of
    `sent` is passed over by itself. Who takes what is picked adds the frame that is made of it to `sent`, before it
    asks for more."""
    feeds = [deque(feed) for feed in feeds]
    while any(feeds):
        heads = {place: feed[0] for place, feed in enumerate(feeds) if feed}
        number = min((event[0] for event in heads.values() if event), default=None)
        is_late = number is not None and number < low_of(sent)
        if number is not None and not is_late:
            yield number, {place: event[1] for place, event in heads.items() if event and event[0] == number}
        for feed in feeds:
            if feed and (not is_late if feed[0] is None else feed[0][0] == number):
                feed.popleft()


def low_of(sent):
    """The least number that is picked behind the frames that were sent. A number of which no frame is made does not
    raise it, however far ahead it is."""
    return sent[-1].number + 1 if sent else 0


# ---- the frame of several groups


def signalling(plan, number, groups):
    """The first L1-current of each group in which this is one of the network and of a frame."""
    for group in groups:
        for current in group.of(packets.CURRENT)[:1]:
            pre, conf, dynamic, _ = current.parts
            if l1.is_pre(plan, pre) and l1.is_conf(plan, conf) and l1.agrees(plan, number, l1.read_dyn(plan, dynamic)):
                yield current


def places_of(plan, number, current):
    """The PLP of each place for a block: as many as L1 tells, if an interleaving frame of the PLP begins there."""
    counts = l1.read_dyn(plan, current.parts[2]).counts
    pairs = [(chain, count) for chain, count in zip(plan.chains, counts) if begins(chain, number) == number]
    return [chain for chain, count in pairs for _ in range(count)]


def placed(plan, group, current, chains):
    """The blocks of a group, each at the least place of its PLP, behind that of the block before it, that packet_count
    tells. Place 0 is behind the first L1-current of the group, or else behind the one that was taken."""
    if need(plan, group) > room(plan):
        return
    own = group.of(packets.CURRENT)
    origin, first = (own[0] if own else current).count + 1, 0
    for packet in group.of(packets.BLOCK):
        for place in range(first, len(chains)):
            is_told = (origin + place - packet.count) % 256 == 0
            if is_told and (packet.plp_id, packet.block_bits) == (chains[place].id, chains[place].bits):
                yield place, packet.block
                first = place + 1
                break


def woven(plan, number, groups):
    """The group that several make as a frame, or nothing: those that tell its L1 signalling tell one dynamic part, and
    at each place stands one block, and no other one."""
    currents = list(signalling(plan, number, groups))
    if not currents or any(other.parts[2] != currents[0].parts[2] for other in currents):
        return None
    chains = places_of(plan, number, currents[0])
    if sum(map(chunks, chains)) > room(plan):
        return None
    found = [set() for _ in chains]
    for group in groups:
        for place, block in placed(plan, group, currents[0], chains):
            found[place].add(block)
    if any(len(blocks) != 1 for blocks in found):
        return None
    pre, conf, dynamic, _ = currents[0].parts
    frame = Frame(plan, number, pre, conf, dynamic, [(chain.id, blocks.pop()) for chain, blocks in zip(chains, found)])
    made = Group(plan.key(number))
    made.packets = [packets.read(data) for data in frame.packets(0)]
    return made


# ---- what is sent


class Sent:
    """A frame that is sent, the places of the feeds that have it whole, and whether it was woven of several groups."""

    def __init__(self, frame, wholes, is_woven):
        self.frame, self.number, self.wholes, self.is_woven = frame, frame.number, wholes, is_woven


def candidates(plan, number, groups):
    """The groups that may be a frame, and last the one that all of them make."""
    for group in groups:
        yield group, False
    made = woven(plan, number, groups)
    if made:
        yield made, True


def mended(plan, inputs):
    """The frames that are sent: of each number the first candidate that passes behind those that were sent before."""
    past, sent = {}, []
    for number, found in picked([events(plan, data) for data in inputs], sent):
        wholes = [place for place, group in found.items() if not first_cause(plan, group, number, past)]
        for group, is_woven in candidates(plan, number, list(found.values())):
            if not first_cause(plan, group, number, past):
                past[number] = group
                sent.append(Sent(shown(plan, group, number), wholes, is_woven))
                break
    return sent


class Spacer:
    """A superframe of which a timestamp alone is sent, so that a modulator counts on."""

    def __init__(self, plan, superframe):
        self.plan, self.superframe = plan, superframe

    def packets(self, count):
        moment = self.plan.emission(self.superframe * self.plan.frames)
        payload = packets.stamp_payload(self.plan.bw, *moment, self.plan.config.utco)
        return [packets.spell(packets.STAMP, count, self.superframe, payload)]


def spaced(plan, frames):
    """The frames, with spacers where 15 superframes or more are from one to the next."""
    last = None
    for frame in frames:
        superframe = frame.number // plan.frames
        while last is not None and superframe - last > FARTHEST:
            last += FARTHEST
            yield Spacer(plan, last)
        last = superframe
        yield frame


def missing(sent):
    """How many frames lack between those that are sent."""
    return sent[-1].number - sent[0].number + 1 - len(sent)
