"""The commands: what the words say, what is read and written, and how a run ends."""

from . import packets, records, shared, text, trial, ts
from .desk import read_fault
from .feeds import compared, merged, piped, swapped
from .frames import frames_of, length
from .mending import mended, missing, spaced
from .modulator import is_shown, modulated
from .plan import FRAMES_MOST, Plan
from .receiver import readback
from .text import Refused

FILE_MOST, FEEDS_MOST = 2**40, 8


def usage():
    return Refused(2, "Usage", "refused: usage")


def decimal(word, least, most):
    if not (word.isascii() and word.isdigit()) or (word[0] == "0" and word != "0") or not least <= int(word) <= most:
        raise usage()
    return int(word)


def plan_of(desk, name):
    return Plan(text.read(desk.open(name))).fits()


def units(stream):
    return len(stream) // ts.UNIT


def show_config(desk, name):
    config = text.read(desk.open(name))
    Plan(config)
    desk.say(text.write(config))


def show_plan(desk, name):
    for line in plan_of(desk, name).lines():
        desk.say(line + "\n")


def gateway(desk, config, out, names, is_split):
    plan = plan_of(desk, config)
    chains = [chain for chain in plan.chains if not (is_split and chain.kind == "common")]
    if len(names) != len(chains):
        raise Refused(2, f"WrongInputs {{ plps: {len(chains)}, inputs: {len(names)} }}", "refused: usage")
    inputs = [desk.open(name) for name in names]
    bad = shared.first_bad(plan, chains, inputs, is_split)
    streams = [ts.packets_of(data[: first_good(data)]) for data in inputs]
    if is_split:
        streams = shared.split(plan, streams)
    count = bad[0] if bad else length(plan, list(map(len, streams)))
    stream = piped(plan, frames_of(plan, streams, count), is_whole=not bad)
    desk.files[out] = stream
    if bad:
        raise input_refused(bad[1], bad[2])
    desk.say(f"frames={count} units={units(stream)}\n")


def first_good(data):
    """The bytes before the first bad packet of an input."""
    bad = ts.first_bad(data)
    return len(data) if bad is None else bad * ts.UNIT


def input_refused(place, packet):
    return Refused(5, f"InputRefused {{ input: {place}, packet: {packet} }}", f"refused: input {place} packet {packet}")


def no_superframe():
    return Refused(6, "NoSuperframe", "refused: no superframe")


def modulate(desk, config, name, out):
    plan = plan_of(desk, config)
    data = desk.open(name)
    desk.files[out] = b""
    made = modulated(plan, data)
    if not made:
        raise no_superframe()
    desk.files[out] = b"".join(frame.record() for frame in made if frame.number < FRAMES_MOST)
    if made[-1].number >= FRAMES_MOST:
        raise Refused(9, f"TooLong {{ count: {FRAMES_MOST} }}", f"refused: too long {FRAMES_MOST}")
    muted = sum(not is_shown(frame) for frame in made)
    desk.say(f"first={made[0].number} records={len(made)} muted={muted}\n")


def chain_of(plan, plp_id, takes_common):
    chain = plan.chain_of(plp_id)
    if chain is None or (chain.kind == "common" and not takes_common):
        raise Refused(8, f"UnknownPlp {{ plp_id: {plp_id} }}", f"refused: plp {plp_id}")
    return chain


def receive(desk, config, plp_id, name, out, is_joined):
    plan = plan_of(desk, config)
    chain = chain_of(plan, plp_id, not is_joined)
    data = desk.open(name)
    numbered, refusal = records.placed(plan, data)
    first, output = readback(plan, chain, numbered)
    common = shared.common_chain(plan, chain) if is_joined else None
    if common:
        output = shared.join(readback(plan, common, numbered)[1], output)
    desk.files[out] = b"".join(output)
    if refusal:
        raise refusal
    desk.say(f"first={first} slots={len(output)}\n")


def merge(desk, config, one, other, out):
    plan = plan_of(desk, config)
    feeds = [modulated(plan, data) for data in [desk.open(one), desk.open(other)]]
    desk.files[out] = b""
    if not any(feeds):
        raise no_superframe()
    frames, from_one, from_other = merged(*feeds)
    desk.files[out] = piped(plan, frames)
    desk.say(f"merged frames={len(frames)} a={from_one} b={from_other} units={units(desk.files[out])}\n")


def mend(desk, config, out, names):
    plan = plan_of(desk, config)
    sent = mended(plan, [desk.open(name) for name in names])
    desk.files[out] = b""
    if not sent:
        raise no_superframe()
    desk.files[out] = piped(plan, spaced(plan, [own.frame for own in sent]))
    woven = sum(own.is_woven for own in sent)
    desk.say(f"mended frames={len(sent)} woven={woven} missing={missing(sent)} units={units(desk.files[out])}\n")


def swap(desk, config, plp_id, t2mi, name, out):
    plan = plan_of(desk, config)
    chain = chain_of(plan, plp_id, True)
    stream, data = desk.open(t2mi), desk.open(name)
    desk.files[out] = b""
    frames = modulated(plan, stream)
    if not frames:
        raise no_superframe()
    bad = ts.first_bad(data)
    own = ts.packets_of(data[: first_good(data)])
    if bad is not None:
        wanted = shared.met_at(plan, chain, bad)
        before = [frame for frame in frames if frame.number < wanted]
        desk.files[out] = piped(plan, swapped(plan, chain, before, own), is_whole=False) if before else b""
        raise input_refused(0, bad)
    sent = list(swapped(plan, chain, frames, own))
    desk.files[out] = piped(plan, sent)
    unsent = max(0, len(own) - chain.over(frames[-1].number * plan.ticks))
    desk.say(f"frames={len(sent)} muted={len(frames) - len(sent)} unsent={unsent} units={units(desk.files[out])}\n")


def compare(desk, config, one, other):
    plan = plan_of(desk, config)
    feeds = [modulated(plan, data) for data in [desk.open(one), desk.open(other)]]
    if not any(feeds):
        raise no_superframe()
    lines, differs = compared(plan, *feeds)
    for line in lines:
        desk.say(line + "\n")
    if differs is not None:
        raise Refused(12, f"Differs {{ frame: {differs} }}", f"refused: frame {differs} differs")


def show_packets(desk, name):
    data = desk.open(name)
    at, count = 0, 0
    # A second read that fails is that of the bytes behind the first ones.
    more_fails = 2 in desk.failing.get("read", [])
    while at < len(data):
        packet = packets.read(data[at : at + 8_202])
        if not isinstance(packet, packets.Packet):
            if more_fails and packet == 1:
                raise read_fault()
            why = packets.PACKET_WHYS[packet]
            raise Refused(10, f"PacketRefused {{ at: {at}, why: {why} }}", f"refused: packet at {at} why {packet}")
        desk.say(packet.line("offset", at) + "\n")
        at += len(packet.bytes)
        count += 1
    desk.say(f"packets={count}\n")


def show_t2mi(desk, name):
    data = desk.open(name)
    views = (ts.read(unit) for unit in ts.packets_of(data))
    pid = next((view.pid for view in views if view and view.payload and view.pid != 0x1FFF), None)
    found = [] if pid is None else packets.accepted(pid, data)
    for packet in found:
        desk.say(packet.line("place", packet.place) + "\n")
    desk.say(f"packets={len(found)}\n")


def show_frames(desk, name):
    found, refusal = records.all_of(desk.open(name))
    for line in records.lines(found):
        desk.say(line + "\n")
    if refusal:
        raise refusal
    desk.say(f"records={len(found)}\n")


def show_trial(desk, seed, frames):
    for line in trial.lines(seed, frames):
        desk.say(line + "\n")


def command(desk, words):
    """What the words ask for: what does it, by what, the name of OUT, and the names of the files that are read."""
    if "" in words:
        raise usage()
    match words:
        case ["plan", name]:
            return show_plan, [desk, name], None, [name]
        case ["gateway", config, out, *names]:
            return gateway, [desk, config, out, names, False], out, [config, *names]
        case ["common", "gateway", config, out, *names]:
            return gateway, [desk, config, out, names, True], out, [config, *names]
        case ["modulate", config, name, out]:
            return modulate, [desk, config, name, out], out, [config, name]
        case ["receive", config, plp, name, out]:
            return receive, [desk, config, decimal(plp, 0, 255), name, out, False], out, [config, name]
        case ["common", "receive", config, plp, name, out]:
            return receive, [desk, config, decimal(plp, 0, 255), name, out, True], out, [config, name]
        case ["merge", config, one, other, out]:
            return merge, [desk, config, one, other, out], out, [config, one, other]
        case ["mend", config, out, *names] if 1 <= len(names) <= FEEDS_MOST:
            return mend, [desk, config, out, names], out, [config, *names]
        case ["swap", config, plp, t2mi, name, out]:
            return swap, [desk, config, decimal(plp, 0, 255), t2mi, name, out], out, [config, t2mi, name]
        case ["compare", config, one, other]:
            return compare, [desk, config, one, other], None, [config, one, other]
        case ["show", "packets", name]:
            return show_packets, [desk, name], None, [name]
        case ["show", "t2mi", name]:
            return show_t2mi, [desk, name], None, [name]
        case ["show", "config", name]:
            return show_config, [desk, name], None, [name]
        case ["show", "frames", name]:
            return show_frames, [desk, name], None, [name]
        case ["trial", seed, frames]:
            return show_trial, [desk, decimal(seed, 0, 2**64 - 1), decimal(frames, 6, 64)], None, []
    raise usage()


def run(words, desk):
    """Runs a command, and tells its status and its outcome."""
    try:
        does, arguments, out, names = command(desk, words)
        if out in names:
            raise usage()
        does(*arguments)
    except Refused as refusal:
        desk.say_last(refusal.line + "\n")
        return refusal.status, refusal.outcome
    return 0, "Done"
