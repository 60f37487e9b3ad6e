#!/usr/bin/env python3
"""Runs live chains in which something goes wrong, and tells how many packets came back in their slots (docs/RUNNING.md).

    chain.py PROGRAM [SECONDS]      PROGRAM is the one that `./install` leaves; each chain is fed for so many seconds (10)
"""
import os
import random
import socket
import subprocess
import sys
import tempfile
import threading
import time

TOP = os.path.join(os.path.dirname(os.path.abspath(__file__)), "../..")
UDP = os.path.join(TOP, "share/udp/udp.py")
START = os.path.join(TOP, "share/start/start.py")
SMALL = os.path.join(TOP, "crates/site_cli/data/small.txt")
SIZE = 188
RATE = 2_000_000  # of the PLP of small.txt
PID = "256"
IDLE = ("--idle", PID)
PORT = 48000


def packets(count):
    """Packets that tell their number."""
    return [b"\x47\x01\x00" + bytes([0x10 | k & 15]) + k.to_bytes(4, "big") * 46 for k in range(count)]


class Chain:
    """Processes in a folder of their own, which FIFOs and UDP join; they end when the feed does."""

    def __init__(self, program, config=SMALL):
        self.program, self.config = program, config
        self.folder = tempfile.TemporaryDirectory()
        self.running = []

    def at(self, name):
        return os.path.join(self.folder.name, name)

    def fifo(self, name):
        if not os.path.exists(self.at(name)):
            os.mkfifo(self.at(name))
        return self.at(name)

    def start(self, words, into=None, out=None):
        """Opens its standard input and output behind the fork, where a FIFO waits for its other end."""
        command = ["/bin/sh", "-c", 'exec "$@"' + (f" < {into}" if into else "") + (f" > {out}" if out else ""), "sh", *words]
        self.running.append(subprocess.Popen(command, stderr=subprocess.DEVNULL, stdout=None if out else subprocess.DEVNULL))

    def command(self, *words):
        self.start([self.program, *words])

    def gateway(self, out="s"):
        self.command("gateway", self.config, self.fifo(out), self.fifo("a"))

    def site(self, name="s"):
        """A modulator and a receiver of the stream of this name."""
        self.command("modulate", self.config, self.fifo(name), self.fifo("r"))
        self.command("receive", self.config, "0", self.fifo("r"), self.fifo("b"))

    def send(self, name, *ports):
        self.start([sys.executable, UDP, "out", "--rtp", "--pace", PID, *(f"127.0.0.1:{port}" for port in ports)], into=self.fifo(name))

    def take(self, name, port, *options):
        self.start([sys.executable, UDP, "in", str(port), "--timeout", "4", *options], out=self.fifo(name))

    def end(self):
        for process in self.running:
            process.wait(timeout=60)


def feed(name, sent, pauses=()):
    """Writes packets at their rate, and stands still where a pause is told: at which packet, and for how many seconds."""
    with open(name, "wb", buffering=0) as pipe:
        begin, pauses = time.monotonic(), dict(pauses)
        for number, packet in enumerate(sent):
            if number in pauses:
                time.sleep(pauses[number])
                begin += pauses[number]
            time.sleep(max(0.0, begin + number * SIZE * 8 / RATE - time.monotonic()))
            pipe.write(packet)


def came(name, sent):
    """How many of the packets come out of a chain."""
    wanted = set(sent)
    with open(name, "rb") as pipe:
        while packet := pipe.read(SIZE):
            wanted.discard(packet)
    return len(sent) - len(wanted)


def lossy(port, to, draw, gone):
    """A link that loses a datagram in a hundred, and all of those seconds from the first one on."""
    link = socket.socket(socket.AF_INET, socket.SOCK_DGRAM)
    link.setsockopt(socket.SOL_SOCKET, socket.SO_RCVBUF, 1 << 22)
    link.bind(("127.0.0.1", port))
    link.settimeout(5)
    begin = None
    try:
        while datagram := link.recv(2048):
            begin = begin or time.monotonic()
            if draw.random() >= 0.01 and not gone[0] <= time.monotonic() - begin < gone[1]:
                link.sendto(datagram, ("127.0.0.1", to))
    except TimeoutError:
        link.close()


def run(chain, sent, pauses=()):
    feeder = threading.Thread(target=feed, args=(chain.fifo("a"), sent, pauses), daemon=True)
    feeder.start()
    count = came(chain.fifo("b"), sent)
    chain.end()
    return count


def link(port, to, seed, gone=(0, 0)):
    threading.Thread(target=lossy, args=(port, to, random.Random(seed), gone), daemon=True).start()


def all_well(program, sent, port, pauses=()):
    chain = Chain(program)
    chain.gateway()
    chain.site()
    return run(chain, sent, pauses)


def still(seconds):
    return lambda program, sent, port: all_well(program, sent, port, [(len(sent) // 2, seconds)])


def one_link(program, sent, port):
    chain = Chain(program)
    link(port, port + 1, 1)
    chain.gateway()
    chain.send("s", port)
    chain.take("t", port + 1)
    chain.site("t")
    return run(chain, sent)


def merged(chain):
    chain.command("merge", chain.config, chain.fifo("u"), chain.fifo("v"), chain.fifo("t"))


def mended(chain):
    chain.command("mend", chain.config, chain.fifo("t"), chain.fifo("u"), chain.fifo("v"))


def two_links(join, *options, gone=(0, 0)):
    """Two links that each lose their own, and what makes one stream of both; the first of them may be gone for a while."""
    def play(program, sent, port):
        chain = Chain(program)
        for place, name in enumerate("uv"):
            link(port + 2 * place, port + 2 * place + 1, 2 + place, (0, 0) if place else gone)
            chain.take(name, port + 2 * place + 1, *options)
        chain.gateway()
        chain.send("s", port, port + 2)
        join(chain)
        chain.site("t")
        return run(chain, sent)
    return play


def again(program, sent, port):
    """The gateway ends in the midst, and another one goes on with a new start; so does the site."""
    half = len(sent) // 2
    first = all_well(program, sent[:half], port)
    with tempfile.NamedTemporaryFile("w", suffix=".txt") as config:
        told = subprocess.run([sys.executable, START, "--again", SMALL], capture_output=True, text=True, check=True)
        config.write(told.stdout)
        config.flush()
        chain = Chain(program, config.name)
        chain.gateway()
        chain.site()
        return first + run(chain, sent[half:])


def late(program, sent, port):
    """The site is there half the time later."""
    chain = Chain(program)
    chain.gateway()
    chain.send("s", port)
    threading.Timer(len(sent) * SIZE * 8 / RATE / 2, lambda: (chain.take("t", port), chain.site("t"))).start()
    return run(chain, sent)


ROWS = [
    ("all is well", all_well),
    ("the feed stands still for 3 s", still(3)),
    ("the feed stands still for 15 s", still(15)),
    ("a link loses 1 % of its datagrams", one_link),
    ("two such links, merged", two_links(merged)),
    ("two such links, mended", two_links(mended, *IDLE)),
    ("two such links, one of them gone for 3 s, mended", two_links(mended, *IDLE, gone=(3, 6))),
    ("the gateway is started again", again),
    ("the site joins half the time later", late),
]


def main(program, seconds="10"):
    sent = packets(int(seconds) * RATE // (8 * SIZE))
    counts = [None] * len(ROWS)

    def play(place):
        counts[place] = ROWS[place][1](os.path.abspath(program), sent, PORT + 10 * place)

    threads = [threading.Thread(target=play, args=(place,)) for place in range(len(ROWS))]
    for thread in threads:
        thread.start()
    for thread, (name, _), place in zip(threads, ROWS, range(len(ROWS))):
        thread.join()
        print(f"{name}: {counts[place]} of {len(sent)} packets came back", flush=True)


if len(sys.argv) not in (2, 3):
    sys.exit(__doc__)
main(*sys.argv[1:])
