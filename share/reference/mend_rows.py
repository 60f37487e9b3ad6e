#!/usr/bin/env python3
"""Worked runs of `mend`, as rows of a script: feeds that lost units and whole superframes, that stand out of order, and
that fall silent.

usage: mend_rows.py [rows]

Plays them by the rules alone, and writes what comes of each as `script.py` does; at the end, on standard error, those
in which a law fails. With the word `rows` it writes the rows, as they stand in a script. They show:

losses     0.6 % of the units lost on each of two feeds, in bursts, and no packet on both: OUT is the whole stream. One
           feed alone, and `merge` of both, have fewer frames.
outages    16, 17 and 300 superframes lost on one feed, while the other is whole: OUT is the whole stream, in either
           order of the feeds. Lost on both at once: each frame that is sent is the whole stream's (`compare` says
           differ=0), and it goes on with the next timestamp; also if the outage begins and ends within frames.
limits     what mend cannot know: to the frame 16 superframes were lost, and the next timestamp too, or none since the
           frame with the same superframe_idx and frame_idx; an idle unit there is enough. And that feeds are of two
           streams with two inputs, if no block of a frame came on both.
order      a superframe twice, two superframes exchanged, a stream that begins again: no frame twice or at a wrong
           instant.
gateways   two gateways of one CONFIG are feeds of one stream; if their inputs differ, no frame is made of both.
silence    idle units: they change nothing if another feed is whole; within a frame of the only feed they end it.
words      one to eight feeds, of which OUT is none, however few bytes move; no frame at all.
"""

import random
import sys

from script import Player
from vicelotus import packets, ts

NETWORK = """t2-gateway 2
bandwidth 8
frame 100000 2 600000
start 700000000 0 5
pid 256
network 1 2 3 474000000
l1 0 6 1 0 1 0 0 1000 6 0 59 0
subslices 1"""
# Two PLPs, one of them over two frames; and the least network, for long outages.
TWO = "plp 0 type1 1 1/2 qpsk short 0 50 1 delete 30000000 1", "plp 1 type1 2 1/2 qpsk short 0 40 1 delete 12000000 2"
TINY = ("plp 0 type1 1 1/2 qpsk short 0 1 1 delete 500000 1",)
PAIR = ("plp 0 type1 1 1/2 qpsk short 0 2 1 delete 1200000 1",)
PID = 256


class Rows:
    """Rows that are played as they are written, and those in which a law failed."""

    def __init__(self):
        self.player, self.lines, self.page, self.failed, self.name = Player(), [], [], [], None

    def line(self, line):
        self.lines.append(line)
        self.page.append(self.player.answer(line))

    def begin(self, name, *lines):
        self.name = name
        self.line(f"# {name}")
        self.line("new")
        for line in lines:
            self.line(line)

    def begin_tiny(self, name, *lines):
        """A row with the least network and its whole stream."""
        self.begin(name, "file c @TINY", "file s @WHOLE", *lines)

    def config(self, name, plps):
        for line in [*NETWORK.splitlines(), *plps]:
            self.line(f"text {name} {line}")

    def file(self, name, pieces):
        self.line(" ".join(["file", name, *pieces]))

    def run(self, words):
        """The last line that a run says."""
        self.line(f"run {words}")
        return "".join(self.player.desk.said).splitlines()[-1]

    def bytes(self, name):
        return self.player.bytes(name)

    def law(self, holds):
        if not holds:
            self.failed.append(self.name)

    def is_stream(self, name="o"):
        """OUT is the whole stream."""
        self.line(f"same {name} s")
        self.law(self.bytes(name) == self.bytes("s"))

    def is_of_stream(self):
        """Each frame of OUT is the whole stream's."""
        self.law(self.run("compare c o s").endswith(" differ=0"))


def span(begin, end=None):
    """The units of the whole stream from one on, up to another."""
    return f"@s:{begin}u" if end is None else f"@s:{begin}u:{end}u"


def without(parts, count):
    """The units of the whole stream but for some parts of it."""
    begins = [0] + [end for _, end in parts]
    ends = [begin for begin, _ in parts] + [count]
    return [span(begin, end) for begin, end in zip(begins, ends) if begin < end]


def starts_of(stream):
    """The unit in which each superframe begins."""
    return [packet.place // ts.UNIT for packet in packets.accepted(PID, stream) if packet.kind == packets.STAMP]


def bursts(draw, count, rate, spared):
    """Bursts of lost units, as many of all as the rate tells, none near to another one or to those that are spared."""
    parts, lost = [], 0
    while lost < count * rate:
        begin, size = draw.randrange(count), draw.randrange(1, 6)
        if all(begin + size + 12 < other or end + 12 < begin for other, end in parts + spared):
            parts.append((begin, begin + size))
            lost += size
    return sorted(parts)


def losses(rows):
    rows.line("## mend, losses")
    rows.begin("0.6 % of the units are lost on both feeds, in bursts, and no packet on both")
    rows.config("c", TWO)
    rows.file("0", ["#0:4500"])
    rows.file("1", ["#10000:11800"])
    rows.run("gateway c s 0 1")
    draw, count = random.Random(1), len(rows.bytes("s")) // ts.UNIT
    first = bursts(draw, count, 0.006, [])
    rows.file("a", without(first, count))
    rows.file("b", without(bursts(draw, count, 0.006, first), count))
    whole = frames_in(rows.run("mend c o s"))
    rows.law(frames_in(rows.run("mend c o a")) < whole)
    rows.law(frames_in(rows.run("merge c a b m")) < whole)
    rows.law(" missing=0 " in rows.run("mend c o a b"))
    rows.is_stream()
    rows.run("mend c p b a")
    rows.is_stream("p")


def frames_in(line):
    return int(line.split("frames=")[1].split(" ")[0])


def outages(rows):
    rows.line("## mend, outages")
    rows.config("TINY", TINY)
    rows.begin("the whole stream, that other rows name", "file c @TINY")
    rows.file("0", ["#0:2400"])
    rows.run("gateway c s 0")
    rows.line("file WHOLE @s")
    whole = frames_in(rows.run("mend c o s"))
    rows.is_stream()
    starts, count = starts_of(rows.bytes("WHOLE")), len(rows.bytes("WHOLE")) // ts.UNIT
    for lost in (16, 17, 300):
        gap = without([(starts[9], starts[9 + lost])], count)
        rows.begin_tiny(f"{lost} superframes are lost on the first feed, and on the second one")
        rows.file("a", gap)
        rows.run("mend c o a s")
        rows.is_stream()
        rows.run("mend c o s a")
        rows.is_stream()
        rows.begin_tiny(f"{lost} superframes are lost on both feeds at once")
        rows.file("a", gap)
        rows.law(frames_in(rows.run("mend c o a a")) == whole - 2 * lost - 1)
        rows.is_of_stream()
        rows.begin_tiny(f"{lost} superframes are lost on both feeds, from within a frame on")
        rows.file("a", without([(starts[10] - 3, starts[9 + lost] - 3)], count))
        rows.file("b", without([(starts[10] - 2, starts[9 + lost] - 2)], count))
        rows.law(frames_in(rows.run("mend c o a b")) >= whole - 2 * lost - 1)
        rows.is_of_stream()
    return starts, count


def limits(rows, starts):
    rows.line("## mend, limits")
    ends = {"16 superframes": starts[25], "16 superframes and the next timestamp": starts[25] + 1}
    for name, end in ends.items():
        rows.begin_tiny(f"{name} are lost, from behind a timestamp on")
        rows.file("a", [span(0, starts[9] + 1), span(end)])
        rows.run("mend c o a")
        rows.law(rows.run("compare c o s") == "refused: frame 19 differs")
        rows.begin_tiny("and an idle unit stands there")
        rows.file("a", [span(0, starts[9] + 1), "47010020b7", "00*183", span(end)])
        rows.run("mend c o a")
        rows.is_of_stream()


def without_block(name, stream, number):
    """The units of a stream but for one within a block."""
    blocks = [packet for packet in packets.accepted(PID, stream) if packet.kind == packets.BLOCK]
    lost = blocks[number].place // ts.UNIT + 2
    return [f"@{name}:0u:{lost}u", f"@{name}:{lost + 1}u"]


def two_streams(rows):
    rows.begin("two streams, the first block of a frame lost in one, and the second in the other")
    rows.config("c", PAIR)
    rows.file("0", ["#0:300"])
    rows.run("gateway c s 0")
    rows.file("0", ["#10000:10300"])
    rows.run("gateway c t 0")
    rows.file("a", without_block("s", rows.bytes("s"), 20))
    rows.file("b", without_block("t", rows.bytes("t"), 21))
    rows.law(" woven=1 missing=0 " in rows.run("mend c o a b"))
    rows.law(rows.run("compare c o s").endswith(" differs"))
    rows.law(rows.run("compare c o t").endswith(" differs"))


def order(rows, starts):
    rows.line("## mend, order")
    third, fourth, fifth = starts[3:6]
    feeds = {
        "a superframe twice": [span(0, fourth + 1), span(third)],
        "two superframes exchanged": [
            span(0, third + 1),
            span(fourth, fifth + 1),
            span(third, fourth + 1),
            span(fifth),
        ],
        "a stream that begins again": [span(0, starts[40] + 2), span(0)],
    }
    for name, pieces in feeds.items():
        rows.begin_tiny(f"{name}, alone, and beside the whole stream")
        rows.file("a", pieces)
        rows.run("mend c o a")
        rows.is_of_stream()
        rows.run("mend c o a s")
        rows.is_stream()
        rows.run("mend c o s a")
        rows.is_stream()


def gateways(rows, starts, count):
    rows.line("## mend, gateways")
    rows.begin_tiny("feeds of two gateways with one configuration and one input")
    rows.file("0", ["#0:2400"])
    rows.run("gateway c t 0")
    rows.file("a", without([(starts[20] + 3, starts[20] + 4)], count))
    rows.file("b", [f"@t:{starts[2]}u:{starts[30] + 2}u", f"@t:{starts[30] + 3}u"])
    rows.run("mend c o a b")
    rows.is_stream()
    rows.begin_tiny("with two inputs: no frame is made of both")
    rows.file("0", ["#10000:12400"])
    rows.run("gateway c t 0")
    rows.file("a", without([(starts[20] + 3, starts[20] + 4)], count))
    rows.file("b", [f"@t:0u:{starts[20] + 1}u", f"@t:{starts[20] + 2}u"])
    rows.law(" woven=0 missing=1 " in rows.run("mend c o a b"))
    rows.is_of_stream()


def silence(rows, starts, count):
    rows.line("## mend, silence")
    draw = random.Random(2)
    places = sorted(draw.sample(range(1, count), 30))
    pieces = [span(begin, end) for begin, end in zip([0] + places, places + [count])]
    rows.begin_tiny("idle units on one feed, the other whole", "file IDLE 47010020b7 00*183")
    rows.file("a", " @IDLE ".join(pieces).split(" "))
    for words in ("mend c o a s", "mend c o s a"):
        rows.run(words)
        rows.is_stream()
    rows.begin_tiny("a feed falls silent, and says so")
    rows.file("a", [span(0, starts[9] + 3), "@IDLE*70", span(starts[40] + 2)])
    for words in ("mend c o a s", "mend c o s a"):
        rows.run(words)
        rows.is_stream()
    rows.begin_tiny("an idle unit within a frame of the only feed")
    rows.file("a", [span(0, starts[9] + 3), "@IDLE", span(starts[9] + 3)])
    rows.law(" woven=0 missing=2 " in rows.run("mend c o a"))
    rows.is_of_stream()


def words(rows, starts):
    rows.line("## mend, words")
    rows.begin_tiny("one feed, and eight")
    rows.file("s", [span(0, starts[4])])
    for feeds in ("s", "s s s s s s s s"):
        rows.run(f"mend c o {feeds}")
    for size in (1_048_576, 1):
        rows.begin_tiny(f"two feeds that lost a unit each, {size} bytes at a time", f"cap {size}")
        rows.file("a", [span(0, starts[1] + 3), span(starts[1] + 4, starts[4])])
        rows.file("b", [span(0, starts[2] + 3), span(starts[2] + 4, starts[4])])
        rows.file("s", [span(0, starts[4])])
        rows.run("mend c p s")
        rows.run("mend c o a b")
        rows.line("same o p")
        rows.law(rows.bytes("o") == rows.bytes("p"))
    rows.begin_tiny("no feed, and nine")
    for feeds in ("", " s s s s s s s s s"):
        rows.law(rows.run(f"mend c o{feeds}") == "refused: usage")
    rows.line("size o")
    rows.begin_tiny("OUT is CONFIG, or a feed", "file a")
    for out in ("c", "s", "a"):
        rows.law(rows.run(f"mend c {out} s a") == "refused: usage")
    rows.begin_tiny("a feed is not there, and OUT is not created")
    rows.law(rows.run("mend c o s a") == "fault: read")
    rows.line("size o")
    rows.begin_tiny("no feed has a frame: one is empty, one has no timestamp", "file a")
    rows.file("b", [span(starts[1] + 1, starts[2])])
    rows.law(rows.run("mend c o a b") == "refused: no superframe")
    rows.line("size o")


def main(is_listed):
    rows = Rows()
    losses(rows)
    starts, count = outages(rows)
    limits(rows, starts)
    two_streams(rows)
    order(rows, starts)
    gateways(rows, starts, count)
    silence(rows, starts, count)
    words(rows, starts)
    print("\n".join(rows.lines) if is_listed else "".join(rows.page))
    for name in rows.failed:
        print(f"FAILED: {name}", file=sys.stderr)
    sys.exit(bool(rows.failed))


if __name__ == "__main__":
    if sys.argv[1:] not in ([], ["rows"]):
        sys.exit(__doc__)
    main(sys.argv[1:] == ["rows"])
