"""What a modulator makes of any received bytes: groups of packets, their numbers, and the tests of each."""

from . import l1, packets
from .cells import passes
from .frames import Frame, muted_record


class Group:
    """A longest run of packets with one key."""

    def __init__(self, key):
        self.key, self.packets = key, []

    def of(self, kind):
        return [packet for packet in self.packets if packet.kind == kind]

    def right(self, chain):
        """The blocks of a PLP that have its length."""
        return [p for p in self.of(packets.BLOCK) if p.plp_id == chain.id and p.block_bits == chain.bits]

    def of_plp(self, chain):
        return [p for p in self.of(packets.BLOCK) if p.plp_id == chain.id]


def groups_of(plan, found):
    groups, before = [], None
    for packet in found:
        if packet.kind == packets.STAMP:
            key = before.key if before and before.key[0] == packet.superframe else (packet.superframe, 0)
        elif packet.kind in (packets.BLOCK, packets.CURRENT) and packet.frame_idx < plan.frames:
            key = (packet.superframe, packet.frame_idx)
        else:
            continue
        if before is None or before.key != key:
            before = Group(key)
            groups.append(before)
        before.packets.append(packet)
    return groups


def chunks(chain):
    """The chunks of 256 bytes that a block of a PLP needs."""
    return -(-(chain.bits // 8) // 256)


def need(plan, group):
    """Those that the blocks of a group need."""
    return sum(len(group.right(chain)) * chunks(chain) for chain in plan.chains)


def room(plan):
    """Those that there are for a group."""
    return 7 * plan.spread_max * plan.config.cells // 2_025


class Cause:
    """Why a frame is muted."""

    def __init__(self, name, **numbers):
        self.name, self.numbers = name, numbers


def begins(chain, number):
    """The frame in which the interleaving frame begins that a frame carries."""
    return number - number % chain.spread


def pool_cause(plan, group, number, numbered):
    spare = room(plan)
    carried = {begins(chain, number) for chain in plan.chains} | {number}
    for place in sorted(carried):
        own = group if place == number else numbered.get(place)
        if own and need(plan, own) > spare:
            return Cause("PoolFull", need=need(plan, own), spare=spare)
    return None


def is_complete(plan, group, number, numbered, shape):
    """Whether each interleaving frame that the frame carries has as many blocks as it tells, and each its length."""
    known = {chain.id: chain for chain in plan.chains}
    for packet in group.of(packets.BLOCK):
        if packet.plp_id not in known or packet.block_bits != known[packet.plp_id].bits:
            return False
    for chain, count in zip(plan.chains, shape.counts):
        own = group.of_plp(chain)
        if begins(chain, number) == number:
            if len(own) != count:
                return False
            continue
        first = numbered.get(begins(chain, number))
        there = first.of_plp(chain) if first else []
        right = first.right(chain) if first else []
        if own or len(right) != count or len(there) != len(right):
            return False
    return True


def first_cause(plan, group, number, numbered):
    """The cause of the first test that fails of a group as frame `number`, or nothing."""
    currents, stamps = group.of(packets.CURRENT), group.of(packets.STAMP)
    idx = number % plan.frames
    full = pool_cause(plan, group, number, numbered)
    if full:
        return full
    if not currents or (idx == 0 and not stamps):
        return Cause("PacketMissing")
    pre, conf, dynamic, _ = currents[0].parts
    shape = l1.read_dyn(plan, dynamic)
    is_one = all(other.parts == currents[0].parts for other in currents)
    if not (is_one and l1.is_pre(plan, pre) and l1.is_conf(plan, conf) and l1.agrees(plan, number, shape)):
        return Cause("L1Refused")
    if idx == 0:
        for stamp in stamps:
            if stamp.bw != plan.bw or (stamp.seconds, stamp.subseconds) != plan.emission(number):
                return Cause("TimeDisagrees", stamp=stamp, counted=plan.emission(number))
    if not is_complete(plan, group, number, numbered, shape):
        return Cause("PacketMissing")
    if not passes(plan, shape):
        return Cause("MapRefused")
    return None


def shown(plan, group, number):
    """The frame that a group shows that passes."""
    dynamic = group.of(packets.CURRENT)[0].parts[2]
    blocks = [(chain.id, packet.block) for chain in plan.chains for packet in group.of_plp(chain)]
    return Frame(plan, number, l1.pre_of(plan), l1.conf_of(plan), dynamic, blocks)


def join_number(plan, group):
    """The number that the first timestamp of a group names, if the group passes as that frame."""
    stamps = group.of(packets.STAMP)
    if group.key[1] or not stamps:
        return None
    number = plan.frame_at(stamps[0].seconds, stamps[0].subseconds)
    if number is None or plan.key(number) != group.key or first_cause(plan, group, number, {}):
        return None
    return number


def next_number(plan, before, key):
    """The least number behind another one whose frame has a key."""
    number = before + 1
    superframe = number // plan.frames + (number % plan.frames > key[1])
    superframe += (key[0] - superframe) % 16
    return superframe * plan.frames + key[1]


class Muted:
    group = None

    def __init__(self, plan, number, cause):
        self.plan, self.number, self.cause = plan, number, cause

    def record(self):
        return muted_record(self.plan, self.number)


def modulated(plan, data):
    """A frame, or a muted one, for each number from the join to the last group."""
    numbered, made = {}, []
    for group in groups_of(plan, packets.accepted(plan.config.pid, data)):
        if not made:
            number = join_number(plan, group)
            if number is None:
                continue
        else:
            number = next_number(plan, made[-1].number, group.key)
            made += [Muted(plan, gap, Cause("Gap")) for gap in range(made[-1].number + 1, number)]
        numbered[number] = group
        cause = first_cause(plan, group, number, numbered)
        made.append(Muted(plan, number, cause) if cause else shown(plan, group, number))
        made[-1].group = group
    return made


def is_shown(frame):
    return isinstance(frame, Frame)
