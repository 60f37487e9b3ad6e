#!/usr/bin/env python3
"""Transport packets between UDP and a pipe, bare or in RTP (ETSI TS 102 034, clause 7.1).

    udp.py in [ADDRESS:]PORT.. > OUT    writes what comes on these ports; with RTP each datagram once, in its order
    udp.py out HOST:PORT.. < IN         sends what comes, to each of these
"""
import argparse
import ipaddress
import math
import os
import random
import select
import socket
import sys
import time

SIZE = 188
SYNC = 0x47
DATAGRAM = 7 * SIZE  # seven packets fit an Ethernet frame
RTP_HEADER = 12
RTP_TS = 33  # the payload type of transport packets, RFC 3551
RTP_CLOCK = 90_000
NUMBERS = 1 << 16  # of datagrams, in RTP
JUMP = 1000  # datagrams; behind a greater jump of the number the sender began anew
START = 8  # datagrams that are waited for before the first one is known
BUFFER = 1 << 22
SILENCE = 0.1  # seconds; as long as no datagram comes
IDLE_AFTER = 0.3  # seconds of silence before the first idle unit: one within a frame costs that frame
IDLE_RATE = 10  # idle units a second in a silence, as long as it is not known how many frames there are
LULL = 0.01  # seconds; then what came of a datagram is sent
LONGEST = 10  # seconds from one timestamp to the next; behind more the clock begins anew


def tell(*words):
    print("udp.py:", *words, file=sys.stderr, flush=True)


# ---- in

def rtp_payload(datagram):
    """The number of an RTP datagram and what it carries; None if it is bare packets (RFC 3550, clause 5.1)."""
    if len(datagram) < RTP_HEADER or datagram[0] >> 6 != 2 or datagram[1] & 0x7F != RTP_TS:
        return None
    begin = RTP_HEADER + 4 * (datagram[0] & 15)
    if datagram[0] & 0x10:  # an extension: its words are counted behind its first four bytes
        begin += 4 + 4 * int.from_bytes(datagram[begin + 2:begin + 4], "big")
    end = len(datagram) - (datagram[-1] if datagram[0] & 0x20 else 0)
    return int.from_bytes(datagram[2:4], "big"), datagram[begin:end]


def ahead_of(number, other):
    """How far one number of RTP is ahead of another, by the shorter way."""
    return (number - other + NUMBERS // 2) % NUMBERS - NUMBERS // 2


class Order:
    """RTP datagrams in the order of their numbers, each once: one that lacks is waited for, until so many came behind it."""

    def __init__(self, window):
        self.window, self.next, self.held = window, None, {}
        self.lost = self.again = 0

    def push(self, number, payload):
        """What is in order with this one."""
        ahead = 0 if self.next is None else ahead_of(number, self.next)
        ready = b""
        if abs(ahead) > JUMP:
            ready, self.next, ahead = self.rest(), None, 0
        if ahead < 0 or number in self.held:
            self.again += 1
            return ready
        self.held[number] = payload
        if self.next is None and len(self.held) > min(self.window, START):
            self.begin()
        ready += self.front()
        while len(self.held) > self.window:
            ready += self.skip()
        return ready

    def begin(self):
        """The first of those that came is the first of all."""
        some = next(iter(self.held))
        self.next = min(self.held, key=lambda number: ahead_of(number, some))

    def front(self):
        ready = b""
        while self.next in self.held:
            ready += self.held.pop(self.next)
            self.next = (self.next + 1) % NUMBERS
        return ready

    def skip(self):
        """Passes over those that lack, up to the next one that came."""
        gap = min(ahead_of(number, self.next) for number in self.held)
        self.lost += gap
        self.next = (self.next + gap) % NUMBERS
        return self.front()

    def rest(self):
        """All that waits."""
        if self.held and self.next is None:
            self.begin()
        ready = b""
        while self.held:
            ready += self.skip()
        return ready


class Idle:
    """Units without payload on a PID, which say that nothing came (ISO/IEC 13818-1, clause 2.4.3.3: the counter stays)."""

    def __init__(self, pid):
        self.pid, self.counter = pid, 0

    def see(self, packets):
        for at in range(0, len(packets) - SIZE + 1, SIZE):
            if (packets[at + 1] & 0x1F) << 8 | packets[at + 2] == self.pid:
                self.counter = packets[at + 3] & 15

    def units(self, count):
        head = bytes([SYNC, self.pid >> 8, self.pid & 255, 0x20 | self.counter, SIZE - 5, 0])
        return (head + b"\xff" * (SIZE - len(head))) * count


def listen(place):
    host, _, port = place.rpartition(":")
    bridge = socket.socket(socket.AF_INET, socket.SOCK_DGRAM)
    bridge.setsockopt(socket.SOL_SOCKET, socket.SO_REUSEADDR, 1)
    bridge.setsockopt(socket.SOL_SOCKET, socket.SO_RCVBUF, BUFFER)
    given = bridge.getsockopt(socket.SOL_SOCKET, socket.SO_RCVBUF) // 2  # Linux tells twice what it gives
    if given < BUFFER:
        tell(f"the system gives a buffer of {given} bytes, not {BUFFER}, so bursts may be lost:"
             f" sysctl -w net.core.rmem_max={BUFFER}")
    bridge.bind((host, int(port)))
    address = socket.gethostbyname(host)
    if ipaddress.ip_address(address).is_multicast:
        bridge.setsockopt(socket.IPPROTO_IP, socket.IP_ADD_MEMBERSHIP, socket.inet_aton(address) + bytes(4))
    return bridge


def write(bytes_):
    sys.stdout.buffer.write(bytes_)
    sys.stdout.buffer.flush()


def take(datagram, order):
    """The packets that can be handed on by a datagram."""
    carried = rtp_payload(datagram)
    packets = carried[1] if carried else datagram
    if len(packets) % SIZE or any(packets[at] != SYNC for at in range(0, len(packets), SIZE)):
        tell(f"a datagram of {len(datagram)} bytes is not of whole transport packets: passed over")
        return b""
    return order.push(*carried) if carried else packets


def read_in(places, options):
    bridges = [listen(place) for place in places]
    order = Order(options.window)
    idle = None if options.idle is None else Idle(options.idle)
    frame = None if options.idle is None else FrameTime(options.idle)
    last, silent, datagrams, units, pause = time.monotonic(), False, 0, 0, SILENCE
    try:
        while True:
            ready, _, _ = select.select(bridges, [], [], pause)
            now = time.monotonic()
            for bridge in ready:
                packets = take(bridge.recv(65536), order)
                datagrams += 1
                if idle:
                    idle.see(packets)
                    frame.see(packets)
                write(packets)
            if ready:
                if silent:
                    tell(f"it goes on, {now - last:.1f} s later")
                last, silent, units, pause = now, False, 0, SILENCE
                continue
            write(order.rest())
            if not silent and datagrams and now - last >= 1:
                silent = True
                tell("nothing comes")
            if options.timeout is not None and now - last >= options.timeout:
                tell(f"nothing came in {options.timeout:g} s: the end")
                return
            if idle and now - last >= options.idle_after:
                # One for each frame that the silence has lasted: mend gives the feed up for one frame by each.
                seconds = 1 / options.idle_rate if options.idle_rate else frame.seconds or 1 / IDLE_RATE
                due = int((now - last) / seconds)
                write(idle.units(due - units))
                units, pause = due, max(last + (due + 1) * seconds - time.monotonic(), 0)
    finally:
        tell(f"datagrams={datagrams} lost={order.lost} again={order.again}")


# ---- out

# T2-MI packets by their packet_type (ETSI TS 102 773, clause 5.1)
L1_CURRENT, TIMESTAMP = 0x10, 0x20


class Packets:
    """The T2-MI packets of a stream on a PID (ETSI TS 102 773, clauses 5.1 and 6.1)."""

    def __init__(self, pid):
        self.pid, self.counter, self.bytes, self.synced, self.losses = pid, None, b"", False, 0

    def see(self, unit):
        """Those that end in this unit. Behind one that lacks, they begin where a pointer_field tells."""
        if (unit[1] & 0x1F) << 8 | unit[2] != self.pid or not unit[3] & 0x10:
            return []
        begin = 4 + (1 + unit[4] if unit[3] & 0x20 else 0)
        if begin >= SIZE:
            return []
        if self.counter not in (None, unit[3] - 1 & 15):
            self.bytes, self.synced, self.losses = b"", False, self.losses + 1
        self.counter = unit[3] & 15
        if not unit[1] & 0x40:
            self.bytes += unit[begin:] if self.synced else b""
        elif self.synced:
            self.bytes += unit[begin + 1:]
        else:
            self.bytes, self.synced = unit[begin + 1 + unit[begin]:], True
        return list(self.whole())

    def whole(self):
        while len(self.bytes) >= 6:
            bits = int.from_bytes(self.bytes[4:6], "big")
            end = 6 + (bits + 7) // 8 + 4
            if len(self.bytes) < end:
                break
            yield self.bytes[:end]
            self.bytes = self.bytes[end:]


# bw: the subseconds of a second (clause 5.2.7)
SUBSECONDS = {0: 131_000_000, 1: 40_000_000, 2: 48_000_000, 3: 56_000_000, 4: 64_000_000, 5: 80_000_000}


def time_of(packet):
    """The emission time in seconds that a packet tells, if it is a timestamp (clause 5.2.7)."""
    if packet[0] != TIMESTAMP:
        return None
    fields = int.from_bytes(packet[6:17], "big")  # rfu 4, bw 4, seconds 40, subseconds 27, utco 13
    seconds, subseconds = fields >> 40 & (1 << 40) - 1, fields >> 13 & (1 << 27) - 1
    a_second = SUBSECONDS.get(packet[6] & 15)
    return seconds + subseconds / a_second if a_second and 0 < seconds < (1 << 40) - 1 else None


class FrameTime:
    """How long a frame takes: from one timestamp to the next, by the L1-current packets between them, one a frame."""

    def __init__(self, pid):
        self.packets, self.last, self.frames, self.losses, self.seconds = Packets(pid), None, 0, 0, None

    def see(self, packets):
        for at in range(0, len(packets) - SIZE + 1, SIZE):
            for packet in self.packets.see(packets[at:at + SIZE]):
                self.note(packet)

    def note(self, packet):
        if packet[0] == L1_CURRENT:
            self.frames += 1
        now = time_of(packet)
        if now is None:
            return
        whole = self.last is not None and self.losses == self.packets.losses
        if whole and self.frames and 0 < now - self.last <= LONGEST:
            self.seconds = (now - self.last) / self.frames
        self.last, self.frames, self.losses = now, 0, self.packets.losses


def packets_from(pipe):
    """Whole packets as they come, at most a datagram's; with a lull in them what is there."""
    waiting, ended = b"", False
    while not ended:
        ready = select.select([pipe], [], [], LULL if len(waiting) >= SIZE else None)[0]
        if ready:
            bytes_ = os.read(pipe, 1 << 16)
            ended = not bytes_
            waiting += bytes_
        while len(waiting) >= DATAGRAM:
            yield waiting[:DATAGRAM]
            waiting = waiting[DATAGRAM:]
        if (not ready or ended) and len(waiting) >= SIZE:
            whole = len(waiting) // SIZE * SIZE
            yield waiting[:whole]
            waiting = waiting[whole:]


def at_rate(datagrams, rate):
    """Each datagram with its time: as many bits a second as are told, or fewer if they come later."""
    due = time.monotonic()
    for datagram in datagrams:
        due = max(due, time.monotonic() - SILENCE)
        yield due, datagram
        due += len(datagram) * 8 / rate


def spread(datagrams, begin, seconds):
    for number, datagram in enumerate(datagrams):
        yield begin + seconds * number / len(datagrams), datagram


def by_timestamps(datagrams, pid):
    """Each datagram with its time: those of a superframe spread over it, one superframe later than they come."""
    stream, waiting, last, due, seconds = Packets(pid), [], None, time.monotonic(), 0
    for datagram in datagrams:
        units = (datagram[at:at + SIZE] for at in range(0, len(datagram), SIZE))
        told = [t for unit in units for t in map(time_of, stream.see(unit)) if t is not None]
        if told:
            seconds = told[-1] - last if last is not None else 0
            if not 0 <= seconds <= LONGEST:
                tell(f"from one timestamp to the next it is {seconds:g} s: the clock begins anew")
                seconds = 0
            due = max(due, time.monotonic() - SILENCE)
            yield from spread(waiting, due, seconds)
            waiting, last, due = [], told[-1], due + seconds
        waiting.append(datagram)
    yield from spread(waiting, due, seconds)


def rtp_header(number, source):
    clock = int(time.monotonic() * RTP_CLOCK) % (1 << 32)
    return bytes([0x80, RTP_TS]) + number.to_bytes(2, "big") + clock.to_bytes(4, "big") + source.to_bytes(4, "big")


def send_out(places, options):
    ends = [(host, int(port)) for host, _, port in (place.rpartition(":") for place in places)]
    bridge = socket.socket(socket.AF_INET, socket.SOCK_DGRAM)
    bridge.setsockopt(socket.IPPROTO_IP, socket.IP_MULTICAST_TTL, options.ttl)
    datagrams = packets_from(sys.stdin.fileno())
    if options.rate:
        timed = at_rate(datagrams, options.rate)
    elif options.pace is not None:
        timed = by_timestamps(datagrams, options.pace)
    else:
        timed = ((0, datagram) for datagram in datagrams)
    number, source = random.randrange(NUMBERS), random.randrange(1 << 32)
    for due, datagram in timed:
        time.sleep(max(0.0, due - time.monotonic()))
        head = rtp_header(number, source) if options.rtp else b""
        for end in ends:
            bridge.sendto(head + datagram, end)
        number = (number + 1) % NUMBERS


# ---- words

def pid(word):
    number = int(word, 0)
    if not 0 <= number < 1 << 13:
        raise ValueError
    return number


def rate(word):
    number = float(word)
    if not 0 < number < math.inf:
        raise ValueError
    return number


def main():
    words = argparse.ArgumentParser(description=__doc__, formatter_class=argparse.RawDescriptionHelpFormatter)
    ways = words.add_subparsers(dest="way", required=True)
    into = ways.add_parser("in", help="from UDP to standard output")
    into.add_argument("place", nargs="+", help="[ADDRESS:]PORT; of an address of this machine, or of a multicast group")
    into.add_argument("--timeout", type=float, help="seconds of silence after which it ends")
    into.add_argument("--idle", type=pid, metavar="PID", help="says silence by units without payload on the PID")
    into.add_argument("--idle-after", type=rate, default=IDLE_AFTER, metavar="S",
                      help=f"seconds of silence before the first of them ({IDLE_AFTER})")
    into.add_argument("--idle-rate", type=rate, metavar="N",
                      help=f"such units a second (as many as the stream has frames; {IDLE_RATE} before that is known)")
    into.add_argument("--window", type=int, default=64, help="datagrams for which one that lacks is waited for, in RTP (64)")
    out = ways.add_parser("out", help="from standard input to UDP")
    out.add_argument("place", nargs="+", help="HOST:PORT")
    out.add_argument("--rtp", action="store_true", help="in RTP")
    pace = out.add_mutually_exclusive_group()
    pace.add_argument("--rate", type=rate, help="bits a second at which it is sent")
    pace.add_argument("--pace", type=pid, metavar="PID", help="as fast as the T2-MI timestamps on the PID tell, a superframe later")
    out.add_argument("--ttl", type=int, default=1, help="of datagrams to a multicast group (1)")
    options = words.parse_args()
    for place in options.place:
        host, _, port = place.rpartition(":")
        if not port.isdecimal() or int(port) > 65535 or (options.way == "out" and not host):
            words.error(f"{place} is no {'HOST:PORT' if options.way == 'out' else '[ADDRESS:]PORT'}")
    (read_in if options.way == "in" else send_out)(options.place, options)


try:
    main()
except (KeyboardInterrupt, BrokenPipeError):
    sys.stderr.flush()
    os._exit(0)  # who read has gone: nothing is left to be written
except OSError as error:
    sys.exit(f"udp.py: {error.strerror or error}")
