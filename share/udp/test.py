#!/usr/bin/env python3
"""Tries the bridge over loopback, and tells what came; with `--ffmpeg` also beside ffmpeg.

    test.py [--ffmpeg]
"""
import os
import random
import socket
import subprocess
import sys
import tempfile
import threading
import time

HERE = os.path.dirname(os.path.abspath(__file__))
BRIDGE = [sys.executable, f"{HERE}/udp.py"]
SIZE = 188
DATAGRAM = 7 * SIZE
PORT = 47000
PID = 256


def packets(count, pid=PID):
    """Packets that tell their number."""
    return b"".join(bytes([0x47, pid >> 8, pid & 255, 0x10 | k & 15]) + k.to_bytes(4, "big") * 46 for k in range(count))


def start_in(*words):
    """The bridge from a port into a file."""
    file = tempfile.NamedTemporaryFile()
    bridge = subprocess.Popen([*BRIDGE, "in", str(PORT), *words], stdout=file, stderr=subprocess.PIPE, text=True)
    time.sleep(0.5)
    return bridge, file


def end_in(bridge, file):
    said = bridge.communicate()[1]
    with open(file.name, "rb") as it:
        return it.read(), said


def send(stream, *words, to=f"127.0.0.1:{PORT}"):
    begin = time.monotonic()
    subprocess.run([*BRIDGE, "out", to, *words], input=stream, check=True)
    return time.monotonic() - begin


def rtp(number, payload):
    return bytes([0x80, 33]) + (number % 65536).to_bytes(2, "big") + bytes(8) + payload


def row(name, holds, what=""):
    print(f"{'ok' if holds else 'FAILED'}: {name}{': ' if what else ''}{what}", flush=True)
    return holds


def bare():
    into = start_in("--timeout", "1")
    stream = packets(7000)
    send(stream, "--rate", "50e6")
    came, said = end_in(*into)
    return row("bare packets", came == stream and "datagrams=1000 lost=0 again=0" in said)


def in_rtp():
    into = start_in("--timeout", "1")
    stream = packets(7000)
    send(stream, "--rtp", "--rate", "50e6")
    came, said = end_in(*into)
    return row("in RTP", came == stream and "datagrams=1000 lost=0 again=0" in said)


def disordered():
    """Datagrams turned within a window, doubled, lost, with a number that passes 65,535, and a sender that begins anew."""
    drawn = random.Random(1)
    stream = packets(1400)
    pieces = [stream[at:at + DATAGRAM] for at in range(0, len(stream), DATAGRAM)]
    numbers = sorted(range(200), key=lambda k: k + drawn.randrange(8))
    lost = {50, 120, 121}
    into = start_in("--timeout", "1", "--window", "16")
    sender = socket.socket(socket.AF_INET, socket.SOCK_DGRAM)
    for k in numbers:
        for _ in range(2 if k % 10 == 0 else 1):
            if k not in lost:
                sender.sendto(rtp(65_500 + k, pieces[k]), ("127.0.0.1", PORT))
        time.sleep(0.0005)
    for k in range(3):
        sender.sendto(rtp(20_000 + k, pieces[k]), ("127.0.0.1", PORT))
    came, said = end_in(*into)
    wanted = b"".join(piece for k, piece in enumerate(pieces) if k not in lost) + b"".join(pieces[:3])
    return row("turned, doubled, lost", came == wanted and "lost=3 again=18" in said, said.splitlines()[-1])


def two_sources():
    """One RTP stream over two ports, each of which loses what the other has."""
    stream = packets(1400)
    into = start_in(str(PORT + 1), "--timeout", "1")
    sender = socket.socket(socket.AF_INET, socket.SOCK_DGRAM)
    for k in range(200):
        for port in (PORT, PORT + 1):
            if k % 3 != port - PORT:
                sender.sendto(rtp(k, stream[k * DATAGRAM:(k + 1) * DATAGRAM]), ("127.0.0.1", port))
        time.sleep(0.0005)
    came, said = end_in(*into)
    return row("two sources", came == stream and "lost=0" in said, said.splitlines()[-1])


def silent():
    """A feed that falls silent twice: then idle units, one a tenth of a second, with the counter of the unit before."""
    into = start_in("--timeout", "2", "--idle", str(PID))
    stream = packets(70)
    send(stream[:35 * SIZE])
    time.sleep(1)
    send(stream[35 * SIZE:])
    came, said = end_in(*into)
    units = [came[at:at + SIZE] for at in range(0, len(came), SIZE)]
    idle = [unit for unit in units if unit[3] & 0x30 == 0x20]
    first = units.index(stream[:SIZE])
    middle = [unit for unit in units[first:] if unit in idle]
    whole = b"".join(unit for unit in units if unit not in idle) == stream
    counters = middle and middle[0][3] & 15 == 34 & 15
    return row("idle units", whole and 8 <= len(middle) and counters and "it goes on" in said, f"{len(middle)} behind the first")


def at_rate():
    stream = packets(7000)
    seconds = send(stream, "--rate", "10e6")
    wanted = len(stream) * 8 / 10e6
    return row("at a rate", 0 <= seconds - wanted < 1, f"{wanted:.2f} s wanted, {seconds:.2f} s")


def t2mi(superframes, ticks):
    """A T2-MI stream of one timestamp and some filling a superframe, on the grid of 8 MHz."""
    units, counter = [], 0
    for k in range(superframes):
        time_ = 700_000_000 * 64_000_000 + k * ticks
        fields = (4 << 80) | (time_ // 64_000_000) << 40 | (time_ % 64_000_000) << 13 | 5
        packet = bytes([0x20, 0, k % 16 << 4, 0]) + (88).to_bytes(2, "big") + fields.to_bytes(11, "big") + bytes(4)
        filling = bytes([0x42, 1, k % 16 << 4, 0]) + (8 * 18000).to_bytes(2, "big") + bytes(18000) + bytes(4) if 8 * 18000 < 65536 else b""
        body = packet + filling + bytes([0x42, 1, k % 16 << 4, 0]) + (8 * 8000).to_bytes(2, "big") + bytes(8000 + 4)
        head, body = body[:183], body[183:]
        units.append(bytes([0x47, 0x40 | PID >> 8, PID & 255, 0x10 | counter % 16, 0]) + head)
        counter += 1
        while len(body) >= 184:
            units.append(bytes([0x47, PID >> 8, PID & 255, 0x10 | counter % 16]) + body[:184])
            body, counter = body[184:], counter + 1
        room = 183 - len(body)
        stuffing = bytes([room]) + (b"\0" + b"\xff" * (room - 1) if room else b"")
        units.append(bytes([0x47, PID >> 8, PID & 255, 0x30 | counter % 16]) + stuffing + body)
        counter += 1
    return b"".join(units)


def paced():
    """Superframes of 0.4 s: the first goes when the second begins, and each is spread over its time."""
    stream = t2mi(6, 25_600_000)
    seconds = send(stream, "--pace", str(PID))
    return row("paced by timestamps", -0.1 < seconds - 6 * 0.4 < 1, f"2.40 s wanted, {seconds:.2f} s")


def relay(port, to, count, drawn):
    """A link that loses 1 % of so many datagrams, doubles 1 %, and lets 10 % come up to five later."""
    link = socket.socket(socket.AF_INET, socket.SOCK_DGRAM)
    link.setsockopt(socket.SOL_SOCKET, socket.SO_RCVBUF, 1 << 22)
    link.bind(("", port))
    late = []
    for k in range(count):
        datagram = link.recv(2048)
        late.append((k + (drawn.randrange(5) if drawn.random() < 0.1 else 0), datagram))
        for _, ready in sorted(it for it in late if it[0] <= k):
            for _ in range(0 if drawn.random() < 0.01 else 2 if drawn.random() < 0.01 else 1):
                link.sendto(ready, ("127.0.0.1", to))
        late = [it for it in late if it[0] > k]


def over_a_link():
    stream = packets(35_000)
    into = start_in("--timeout", "2")
    link = threading.Thread(target=relay, args=(PORT + 1, PORT, 5_000, random.Random(2)), daemon=True)
    link.start()
    time.sleep(0.2)
    send(stream, "--rtp", "--rate", "40e6", to=f"127.0.0.1:{PORT + 1}")
    came, said = end_in(*into)
    numbers = [int.from_bytes(came[at + 4:at + 8], "big") for at in range(0, len(came), SIZE)]
    ordered = all(a < b for a, b in zip(numbers, numbers[1:]))
    lost = int(said.split("lost=")[1].split()[0])
    # behind the last one that came nothing is known to be lost
    return row("over a link", ordered and 35 <= lost <= 65 and abs(len(numbers) - 7 * (5_000 - lost)) <= 70, said.splitlines()[-1])


def jumps(stream):
    """How many packets with payload do not have the counter behind the one before on their PID."""
    counters, count = {}, 0
    for at in range(0, len(stream), SIZE):
        pid, control = (stream[at + 1] & 31) << 8 | stream[at + 2], stream[at + 3]
        if control & 0x10 and pid != 8191:
            count += counters.get(pid, control - 1) + 1 & 15 != control & 15
            counters[pid] = control & 15
    return count


def beside_ffmpeg():
    """What ffmpeg sends in RTP."""
    into = start_in("--timeout", "2")
    subprocess.run(["ffmpeg", "-loglevel", "error", "-re", "-f", "lavfi", "-i", "testsrc=size=352x288:rate=25", "-t", "4", "-c:v",
                    "mpeg2video", "-b:v", "1200k", "-f", "rtp_mpegts", f"rtp://127.0.0.1:{PORT}"], check=True)
    came, said = end_in(*into)
    return row("beside ffmpeg", len(came) > 188_000 and not jumps(came) and "lost=0" in said, said.splitlines()[-1])


def main(words):
    if words not in ([], ["--ffmpeg"]):
        sys.exit(__doc__)
    tests = [bare, in_rtp, disordered, two_sources, over_a_link, silent, at_rate, paced]
    tests += [beside_ffmpeg] * ("--ffmpeg" in words)
    if not all([test() for test in tests]):
        sys.exit(1)


main(sys.argv[1:])
