"""Packets that a group of PLPs has in common: streams split into a common one and the rest, and put together again."""

from . import ts
from .text import common_of


def split(plan, inputs):
    """The streams of all PLPs, from the inputs of those that are not common."""
    given = iter(inputs)
    own = {chain.id: None if chain.kind == "common" else list(next(given)) for chain in plan.chains}
    for common in plan.chains:
        if common.kind != "common":
            continue
        group = [own[chain.id] for chain in plan.chains if chain.plp.group == common.plp.group and chain is not common]
        stream = []
        for slot in range(max(map(len, group))):
            packets = {packets[slot] if slot < len(packets) else None for packets in group}
            packet = packets.pop() if len(packets) == 1 else None
            if packet is None or ts.is_null(packet):
                stream.append(ts.NULL)
                continue
            stream.append(packet)
            for packets in group:
                packets[slot] = ts.NULL
        own[common.id] = stream
    return [own[chain.id] for chain in plan.chains]


def join(common, own):
    """In each slot the packet of its own that is not null, else the common one."""
    pairs = zip(own, common, strict=True)
    return [one if not ts.is_null(one) else ts.NULL if ts.is_null(other) else other for one, other in pairs]


def common_chain(plan, chain):
    common = common_of(plan.config, chain.plp.group)
    return plan.chain_of(common.id) if common and common.id != chain.id else None


def met_at(plan, chain, packet):
    """The frame for which a packet of an input is wanted."""
    frame = 0
    while packet >= chain.over(frame * plan.ticks):
        frame += 1
    return frame


def first_bad(plan, chains, inputs, is_split):
    """The first bad packet in the order in which inputs are read: the frame that wants it, its input, and its number."""
    bad = []
    for place, (chain, data) in enumerate(zip(chains, inputs)):
        packet = ts.first_bad(data)
        if packet is None:
            continue
        group = chain.place
        if is_split and common_chain(plan, chain):
            group = min(c.place for c in plan.chains if c.plp.group == chain.plp.group)
        order = (group, packet) if is_split else ()
        bad.append((met_at(plan, chain, packet), *order, place, packet))
    first = min(bad, default=None)
    return first and (first[0], first[-2], first[-1])
