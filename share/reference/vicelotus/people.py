"""What people are told of a run. The sentences are those of the program; what stands in them is counted here."""

from . import commands, l1, packets, records, shared, ts
from .bits import bits_of, crc8, scramble
from .feeds import answer, carried
from .mending import mended
from .modulator import is_shown, modulated
from .plan import Plan
from .text import read

NONE_CAME = "no frame came from it: "
DELETED = "; these are deleted, but for each one that 255 deleted ones precede"
NULLS_STAND = "counted from 0; null packets stand in OUT for what they carried"
CAUSES = {
    "Gap": "are not in the stream",
    "PacketMissing": "lack a packet, or have one too many",
    "L1Refused": "have another L1 signalling than the configuration's",
    "MapRefused": "have cells that do not stand apart",
    "PoolFull": "have more baseband frames than there is room for",
    "TimeDisagrees": "have a timestamp of another moment or bandwidth",
}
WHOLE = (
    "its units are whole, and their counters fit: bytes in them were damaged, 16 of them or a multiple were lost, or it was so "
    "before it became units"
)
NO_PACKETS = (
    "; packets of 192 or 204 bytes, bytes lost, or no transport stream: share/cut/cut.py in front makes whole packets"
)
OTHER_MOMENTS = (
    "timestamps are of other moments: if 16 superframes or more were lost in a row, or units came twice or out of order, "
    "frames behind that stand at wrong moments; "
    "give what came behind it to another run"
)
ENDS_MUTED = (
    "the end of OUT is muted: if 16 superframes or more were lost in a row, give what came behind the loss to another run"
)


def other_moments(name, frames):
    """What is told of a feed that is counted at wrong moments."""
    if sum(not is_shown(frame) and frame.cause.name == "TimeDisagrees" for frame in frames) > 1:
        yield f"{name}: {OTHER_MOMENTS}, or put `mend` in front"


def in_runs(numbers):
    """Numbers as runs, of which the first four are told."""
    runs = []
    for number in numbers:
        if runs and runs[-1][1] + 1 == number:
            runs[-1][1] = number
        else:
            runs.append([number, number])
    told = ", ".join(str(first) if first == last else f"{first} to {last}" for first, last in runs[:4])
    return told + (f" and {len(runs) - 4} more runs up to {runs[-1][1]}" if len(runs) > 4 else "")


class Units:
    """The units of a T2-MI stream, by their first four bytes, and those that are passed over, by their places; of a feed
    those that are idle apart."""

    def __init__(self, name, data, pid, is_feed=False):
        self.name, self.pid, self.count, self.rest = name, pid, len(data) // ts.UNIT, len(data) % ts.UNIT
        self.no_sync, self.other, self.unread, self.jumps, self.slip = [], [], [], [], None
        self.idle = []
        due = None
        for place in range(0, self.count * ts.UNIT, ts.UNIT):
            sync, second, third, fourth = data[place : place + 4]
            if sync != 0x47:
                if self.slip is None and len(self.no_sync) < 8:
                    self.look_behind(data, place)
                self.no_sync.append(place)
            elif pid is not None and second % 32 * 256 + third != pid:
                self.other.append(place)
            elif pid is not None and (second >> 7 or fourth >> 6 or not fourth & 0x10):
                is_idle = is_feed and not second >> 7 and fourth >> 4 == 2
                (self.idle if is_idle else self.unread).append(place)
            elif pid is not None:
                if due not in (None, fourth % 16):
                    self.jumps.append(place)
                due = (fourth + 1) % 16

    def look_behind(self, data, place):
        """Whether three units begin elsewhere behind a place, 188 bytes apart."""
        for distance in range(1, ts.UNIT):
            starts = [data[place + distance + k * ts.UNIT : place + distance + k * ts.UNIT + 1] for k in range(3)]
            if starts == [b"\x47"] * 3:
                self.slip = (place, distance)
                return

    def is_clean(self):
        return not (self.rest or self.no_sync or self.unread or self.idle or self.jumps)

    def has_none(self):
        """Whether no unit on the PID can carry T2-MI."""
        return len(self.unread) + len(self.idle) >= self.on_pid()

    def whole(self):
        if self.pid is not None and self.is_clean():
            yield f"{self.name}: {WHOLE}"

    def on_pid(self):
        return self.count - len(self.no_sync) - len(self.other)

    def lacks_sync(self):
        return len(self.no_sync) > self.count // 2

    def why_none(self):
        if self.count == 0:
            return "it has no unit of 188 bytes"
        if self.lacks_sync():
            return "most of its units do not begin with 0x47"
        if self.pid is None:
            return "CONFIG is not read twice, so it is not known which units are on its PID; `show t2mi` tells which PIDs come"
        if self.on_pid() == 0:
            return "none of its units is on the PID of CONFIG; `show t2mi` tells which PIDs come"
        if len(self.idle) == self.on_pid():
            return "all its units on the PID are idle: the feed was silent; see the link"
        if len(self.unread) + len(self.idle) == self.on_pid():
            return "all units on the PID are marked as wrong or scrambled, or have no payload"
        return "units come on the PID: their L1 or timestamps are not those of CONFIG, or no first frame of a superframe came whole"

    def damage(self):
        if self.is_clean():
            return
        line = f"{self.name}: {self.count} units"
        if self.rest:
            line += f"; the last one is cut off behind {self.rest} bytes"
        tallies = [("not beginning with 0x47", self.no_sync), ("of other PIDs", self.other)]
        tallies.append(("marked as wrong or scrambled, or empty", self.unread))
        tallies += [("idle", self.idle), ("jumps of the continuity counter", self.jumps)]
        for what, places in tallies:
            if places:
                line += f"; {what}: {len(places)}, first at byte {places[0]}"
            if what.startswith("not") and self.slip:
                line += (
                    f"; at byte {self.slip[0]} no unit begins, and one does {self.slip[1]} bytes on: bytes were lost or added before; "
                    "share/cut/cut.py in front goes on there"
                )
            elif what.startswith("not") and self.lacks_sync():
                line += NO_PACKETS
        yield line


def of_packets(name, data, chain):
    """What is told of an input of a gateway."""
    own = ts.packets_of(data)
    if not own:
        return f"{name}: it has no packet; null packets stand for it"
    nulls = sum(map(ts.is_null, own))
    deleted = DELETED if chain and nulls and chain.delete else ""
    return f"{name}: packets: {len(own)}, null packets among them: {nulls}{deleted}"


def of_gateway(plan, desk, out, names, is_split):
    chains = [chain for chain in plan.chains if not (is_split and chain.kind == "common")]
    for name, chain in zip(names, chains):
        yield of_packets(name, desk.files[name], chain)
    found = packets.accepted(plan.config.pid, desk.files[out])
    frames = sum(packet.kind == packets.CURRENT for packet in found)
    for chain in plan.chains:
        sent = sum(packet.kind == packets.BLOCK and packet.plp_id == chain.id for packet in found)
        room = -(-frames // chain.spread) * chain.most
        yield f"PLP {chain.id}: blocks sent: {sent}, of {room} that {frames} frames have room for"


def which(numbers):
    """Which frames they are, by their numbers."""
    if len(numbers) == 1:
        return f"1: frame {numbers[0]} of CONFIG"
    return f"{len(numbers)}: the first is frame {numbers[0]} of CONFIG, the last frame {numbers[-1]}"


def of_these(numbers, what):
    """What is told of some of the frames that were told before, by their numbers."""
    if numbers:
        count, told = which(numbers).split(":", 1)
        yield f"of these {count} {what}:{told}"


def whole_frames(name, own, alone, sent, what):
    """What is told of the frames that a feed had whole, by their numbers, and of those that no other had whole."""
    line = f"{name}: frames that it had whole: {len(own)}, of {sent} that were sent"
    yield line + (f"; the last is frame {own[-1]} of CONFIG" if own else "")
    yield from of_these(alone, what)


def of_modulate(plan, desk, name):
    units = Units(name, desk.files[name], plan.config.pid)
    yield from units.damage()
    frames = modulated(plan, desk.files[name])
    muted = [place for place, frame in enumerate(frames) if not is_shown(frame)]
    if not muted:
        return
    yield f"muted frames: {len(muted)} of {len(frames)}, records {in_runs(muted)}, counted from 0 as `show frames` does"
    numbers = {cause: [f.number for f in frames if not is_shown(f) and f.cause.name == cause] for cause in CAUSES}
    for cause, own in numbers.items():
        yield from of_these(own, CAUSES[cause])
    is_last = not is_shown(frames[-1]) and frames[-1].cause.name == "PacketMissing"
    if is_last and (len(frames) == 1 or is_shown(frames[-2])):
        yield f"{name}: it ends inside frame {frames[-1].number} of CONFIG, or a packet of that frame was lost"
    else:
        is_last = False
    if len(muted) > 1 or not is_last:
        yield from units.whole()
    at_end = 0
    while at_end < len(frames) and not is_shown(frames[-1 - at_end]):
        at_end += 1
    if len(numbers["TimeDisagrees"]) > 1:
        yield OTHER_MOMENTS
    elif at_end >= 16 * plan.frames:
        yield ENDS_MUTED


def is_network(plan, record):
    """Whether the L1 of a record is that of the network, in any of its frames."""
    pre, (post, count), _, _ = record.parts
    conf = 102 + 89 * len(plan.chains)
    return records.has_plan_l1(plan, pre, post, count) and l1.is_conf(plan, bits_of(post, count)[:conf])


def has_header(block):
    front = scramble(block[:10])
    return crc8(front[:9]) ^ 1 == front[9]


def of_receive(plan, desk, name, plp_id, is_joined):
    found, _ = records.all_of(desk.files[name])
    common = shared.common_chain(plan, plan.chain_of(plp_id)) if is_joined else None
    followed = {plp_id} | ({common.id} if common else set())
    muted = [place for place, record in enumerate(found) if record.kind == 2]
    foreign = [place for place, record in enumerate(found) if record.kind == 1 and not is_network(plan, record)]
    blocks = [
        place
        for place, record in enumerate(found)
        if record.kind == 1 and place not in foreign
        for own, block in record.parts[2]
        if own in followed and len(block) >= 10 and not has_header(block)
    ]
    count = len(found)
    if not found:
        yield f"{name}: it has no record; OUT is empty"
    if muted:
        yield f"{name}: muted frames: {len(muted)} of {count}, records {in_runs(muted)}, {NULLS_STAND}"
    if foreign:
        line = f"{name}: frames whose L1 is not that of CONFIG: {len(foreign)} of {count}"
        yield f"{line}, records {in_runs(foreign)}, {NULLS_STAND}; see that CONFIG is that of the network"
    if blocks:
        places = in_runs(sorted(set(blocks)))
        yield f"{name}: blocks whose header is damaged: {len(blocks)}, in records {places}, {NULLS_STAND}"


def of_merge(plan, desk, one, other):
    pair = [Units(name, desk.files[name], plan.config.pid) for name in (one, other)]
    for units in pair:
        yield from units.damage()
    feeds = [modulated(plan, desk.files[name]) for name in (one, other)]
    for units, frames in zip(pair, feeds):
        yield from other_moments(units.name, frames)
    first, second = ({frame.number for frame in frames if is_shown(frame)} for frames in feeds)
    for units, own, others in zip(pair, (first, second), (second, first)):
        if own:
            yield from whole_frames(
                units.name, sorted(own), sorted(own - others), len(first | second), "the other had not whole"
            )
        else:
            yield f"{units.name}: {NONE_CAME}{units.why_none()}"
    if second and second <= first:
        yield f"{other}: no frame was taken from it: {one} had each of the {len(second)} that it had whole"
    neither = sorted({frame.number for frames in feeds for frame in frames} - first - second)
    if neither:
        yield f"frames that neither had whole: {which(neither)}"


def of_compare(plan, desk, one, other):
    pair = [Units(name, desk.files[name], plan.config.pid) for name in (one, other)]
    for units in pair:
        yield from units.damage()
    feeds = [modulated(plan, desk.files[name]) for name in (one, other)]
    for units, frames in zip(pair, feeds):
        yield from other_moments(units.name, frames)
    for units, own, others in zip(pair, feeds, feeds[::-1]):
        met = {frame.number for frame in others}
        if any(not is_shown(frame) and frame.number in met for frame in own):
            yield from units.whole()
    for units, frames in zip(pair, feeds):
        if not frames:
            yield f"{units.name}: {NONE_CAME}{units.why_none()}"
    yield from of_differing(plan, *feeds)


def of_differing(plan, one, other):
    first, second = ({frame.number: frame for frame in frames} for frames in (one, other))
    answers = {number: answer(plan, first, second, number) for number in first.keys() & second.keys()}
    differ = [number for number, is_what in answers.items() if is_what.startswith("differs")]
    for chain in plan.chains:
        count = sum(carried(first, chain, number) != carried(second, chain, number) for number in differ)
        if count:
            yield f"PLP {chain.id} differs in {count} of the {len(differ)} frames that differ"


def of_mend(plan, desk, names):
    feeds = [Units(name, desk.files[name], plan.config.pid, is_feed=True) for name in names]
    for units in feeds:
        yield from units.damage()
    sent = mended(plan, [desk.files[name] for name in names])
    for place, units in enumerate(feeds):
        if units.has_none():
            yield f"{units.name}: {NONE_CAME}{units.why_none()}"
            continue
        own = [frame for frame in sent if place in frame.wholes]
        alone = [frame.number for frame in own if len(frame.wholes) == 1 and len(names) > 1]
        numbers = [frame.number for frame in own]
        yield from whole_frames(units.name, numbers, alone, len(sent), "no other IN had whole")
    gaps = [range(one.number + 1, other.number) for one, other in zip(sent, sent[1:]) if one.number + 1 < other.number]
    count = sum(map(len, gaps))
    if count == 1:
        yield f"frames that were not sent: 1: frame {gaps[0][0]} of CONFIG"
    elif gaps:
        yield f"frames that were not sent: {count}: the first is frame {gaps[0][0]} of CONFIG, the last frame {gaps[-1][-1]}"


def of_swap(plan, desk, plp_id, t2mi, name):
    yield from Units(t2mi, desk.files[t2mi], plan.config.pid).damage()
    yield from other_moments(t2mi, modulated(plan, desk.files[t2mi]))
    chain, own = plan.chain_of(plp_id), ts.packets_of(desk.files[name])
    if not own:
        yield f"{name}: it has no packet; null packets stand for it"
    elif " unsent=0 " in "".join(desk.said):
        frame = shared.met_at(plan, chain, len(own))
        frame += -frame % chain.spread
        yield f"{name}: its packets end before frame {frame} of CONFIG; null packets stand for it from there on, if OUT goes on so far"


def of_no_superframe(plan, desk, names, are_feeds):
    """Why no superframe was found."""
    every = [Units(name, desk.files[name], plan.config.pid, are_feeds) for name in names]
    for units in every:
        yield f"{units.name}: {units.why_none()}"
    for units in every:
        yield from units.damage()


def told(words, desk, outcome):
    match words:
        case ["gateway", config, out, *names]:
            does, arguments, streams = of_gateway, [out, names, False], []
        case ["common", "gateway", config, out, *names]:
            does, arguments, streams = of_gateway, [out, names, True], []
        case ["modulate", config, name, _]:
            does, arguments, streams = of_modulate, [name], [name]
        case ["receive", config, plp, name, _]:
            does, arguments, streams = of_receive, [name, int(plp), False], []
        case ["common", "receive", config, plp, name, _]:
            does, arguments, streams = of_receive, [name, int(plp), True], []
        case ["merge", config, one, other, _]:
            does, arguments, streams = of_merge, [one, other], [one, other]
        case ["compare", config, one, other]:
            does, arguments, streams = of_compare, [one, other], [one, other]
        case ["mend", config, _, *names]:
            does, arguments, streams = of_mend, [names], names
        case ["swap", config, plp, t2mi, name, _]:
            does, arguments, streams = of_swap, [int(plp), t2mi, name], [t2mi]
        case _:
            return
    if outcome == "Done" or outcome.startswith("Differs"):
        yield from does(Plan(read(desk.files[config])), desk, *arguments)
    elif outcome == "NoSuperframe":
        yield from of_no_superframe(Plan(read(desk.files[config])), desk, streams, does is of_mend)


def shown(text):
    """A text of which no character steers a terminal."""
    return "".join(f"\\u{{{ord(c):x}}}" if ord(c) < 32 or 127 <= ord(c) < 160 else c for c in text)


def watched(words, desk):
    """Runs a command: its status and its outcome, and what people are told."""
    status, outcome = commands.run(words, desk)
    return (status, outcome), "".join(shown(line) + "\n" for line in told(words, desk, outcome))
