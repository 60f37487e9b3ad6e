#!/usr/bin/env python3
"""The configuration of a network that is on air, by its mode; and what a configuration is in milliseconds and Mbit/s.

    modes.py --fft 32K --extended --guard 1/128 --pilots PP7 --plp 2/3,256qam > CONFIG
    modes.py --tell CONFIG

The tables are those of ETSI EN 302 755, by its clauses; one carrier, SISO, no FEF parts, and no tone reservation (PAPR 0).
"""
import argparse
import math
import sys
from fractions import Fraction

# Clause 9.5: subseconds a second, and a tick, as T2-MI counts them. A tick is T, the elementary period.
BANDS = {"1.7": (131_000_000, 71), "5": (40_000_000, 7), "6": (48_000_000, 7), "7": (56_000_000, 7), "8": (64_000_000, 7), "10": (80_000_000, 7)}
P1 = 2048  # ticks of the P1 symbol, clause 9.8.2
LONGEST = Fraction(1, 4)  # seconds of a frame, clause 8.3.1

# Clause 8.3.2, by FFT size: P2 symbols, and data cells of one.
P2 = {"1K": (16, 558), "2K": (8, 1118), "4K": (4, 2236), "8K": (2, 4472), "16K": (1, 8944), "32K": (1, 22432)}
EXTENDED = ("8K", "16K", "32K")

# Clause 8.3.2, by FFT size, carrier mode and pilot pattern: data cells of a normal symbol, and of a frame closing one.
CELLS = {
    ("1K", False): {1: (764, 402), 2: (768, 654), 3: (798, 490), 4: (804, 707), 5: (818, 544)},
    ("2K", False): {1: (1522, 804), 2: (1532, 1309), 3: (1596, 980), 4: (1602, 1415), 5: (1632, 1088), 7: (1646, 1396)},
    ("4K", False): {1: (3084, 1609), 2: (3092, 2619), 3: (3228, 1961), 4: (3234, 2831), 5: (3298, 2177), 7: (3328, 2792)},
    ("8K", False): {1: (6208, 3218), 2: (6214, 5238), 3: (6494, 3922), 4: (6498, 5662), 5: (6634, 4354), 7: (6698, 5585), 8: (6698, 0)},
    ("8K", True): {1: (6296, 3264), 2: (6298, 5312), 3: (6584, 3978), 4: (6588, 5742), 5: (6728, 4416), 7: (6788, 5664), 8: (6788, 0)},
    ("16K", False): {1: (12418, 6437), 2: (12436, 10476), 3: (12988, 7845), 4: (13002, 11324), 5: (13272, 8709), 6: (13288, 11801),
                     7: (13416, 11170), 8: (13406, 0)},
    ("16K", True): {1: (12678, 6573), 2: (12698, 10697), 3: (13262, 8011), 4: (13276, 11563), 5: (13552, 8893), 6: (13568, 12051),
                    7: (13698, 11406), 8: (13688, 0)},
    ("32K", False): {2: (24886, 20952), 4: (26022, 22649), 6: (26592, 23603), 7: (26836, 0), 8: (26812, 0)},
    ("32K", True): {2: (25412, 21395), 4: (26572, 23127), 6: (27152, 24102), 7: (27404, 0), 8: (27376, 0)},
}

# Clause 9.2.3.1: the pilot patterns that may be used, by guard interval and FFT size.
PILOTS = {
    "1/128": {"8K": (7,), "16K": (7,), "32K": (7,)},
    "1/32": {"2K": (4, 7), "4K": (4, 7), "8K": (4, 7), "16K": (4, 6, 7), "32K": (4, 6)},
    "1/16": {"1K": (4, 5), "2K": (4, 5), "4K": (4, 5), "8K": (4, 5, 8), "16K": (2, 4, 5, 8), "32K": (2, 4, 8)},
    "19/256": {"8K": (4, 5, 8), "16K": (2, 4, 5, 8), "32K": (2, 4, 8)},
    "1/8": {"1K": (2, 3), "2K": (2, 3), "4K": (2, 3), "8K": (2, 3, 8), "16K": (2, 3, 8), "32K": (2, 8)},
    "19/128": {"8K": (2, 3, 8), "16K": (2, 3, 8), "32K": (2, 8)},
    "1/4": {"1K": (1,), "2K": (1,), "4K": (1,), "8K": (1, 8), "16K": (1, 8)},
}
# Clause 9.2.7: no frame closing symbol with these, nor with PP8.
UNCLOSED = {("1/128", 7), ("1/32", 4), ("1/16", 2), ("19/256", 2)}

# Clause 7.2: GUARD_INTERVAL; the first three bits of S2; L1_MOD, with the bits of a cell.
GUARDS = {"1/32": 0, "1/16": 1, "1/8": 2, "1/4": 3, "1/128": 4, "19/128": 5, "19/256": 6}
SIZES = {"2K": 0, "8K": 1, "4K": 2, "1K": 3, "16K": 4, "32K": 5}
LONG_SIZES = {"8K": 6, "32K": 7}  # with a guard interval that DVB-T has not
LONG_GUARDS = ("1/128", "19/128", "19/256")
L1_MODULATIONS = {"bpsk": (0, 1), "qpsk": (1, 2), "16qam": (2, 4), "64qam": (3, 6)}
L1_PRE = 1840  # cells

# Clause 6.1: information bits of a block (Kbch), normal and short. Clause 6.2: the bits of a cell.
RATES = {"1/2": (32208, 7032), "3/5": (38688, 9552), "2/3": (43040, 10632), "3/4": (48408, 11712), "4/5": (51648, 12432), "5/6": (53840, 13152)}
MODULATIONS = {"qpsk": 2, "16qam": 4, "64qam": 6, "256qam": 8}
LENGTHS = {"normal": 64800, "short": 16200}
HEADER = 80  # bits, clause 5.1.7
MOST_TI_CELLS = 2**19 + 2**15  # of a TI-block, clause 6.5
MOST_BLOCKS = 1023


class Refused(Exception):
    """A mode that the standard has not."""


class Mode:
    """A bandwidth, an FFT size, whether its carriers are extended, a guard interval, a pilot pattern, and a number of data symbols, or none for
    the most that 250 ms hold."""

    def __init__(self, band, size, extended, guard, pattern, symbols=None):
        if extended and size not in EXTENDED:
            raise Refused(f"{size} has no extended carriers")
        allowed = PILOTS[guard].get(size, ())
        if pattern not in allowed:
            names = ", ".join(f"PP{number}" for number in allowed)
            raise Refused(f"{size} with guard interval {guard} has {names or 'no pilot pattern'}, and not PP{pattern}")
        self.band, self.size, self.extended, self.guard, self.pattern = band, size, extended, guard, pattern
        self.p2_symbols, self.p2_cells = P2[size]
        self.symbol = int(int(size[:-1]) * 1024 * (1 + Fraction(guard)))
        self.normal_cells, self.closing_cells = CELLS[size, extended][pattern]
        self.closes = pattern != 8 and (guard, pattern) not in UNCLOSED
        self.symbols = self.most_symbols() if symbols is None else symbols
        self.check_symbols()

    def check_symbols(self):
        """Clause 8.3.1."""
        least = self.least_symbols()
        if self.symbols < least:
            raise Refused(f"{self.size} has at least {least} data symbols")
        if self.is_odd(self.symbols):
            raise Refused("32K has an even number of symbols, so an odd one of data symbols")
        if self.seconds() > LONGEST:
            raise Refused(f"{self.symbols} data symbols last longer than 250 ms; {self.most_symbols()} don't")

    def least_symbols(self):
        return 3 if self.size == "32K" else 7

    def is_odd(self, symbols):
        return self.size == "32K" and (self.p2_symbols + symbols) % 2 == 1

    def most_symbols(self):
        ticks = int(LONGEST * Fraction(*BANDS[self.band]))
        most = (ticks - P1) // self.symbol - self.p2_symbols
        return most - 1 if self.is_odd(most) else most

    def ticks(self):
        return P1 + (self.p2_symbols + self.symbols) * self.symbol

    def seconds(self):
        return self.ticks() / Fraction(*BANDS[self.band])

    def cells(self):
        """The active cells of a frame, with those of L1."""
        normal = self.symbols - 1 if self.closes else self.symbols
        return self.p2_symbols * self.p2_cells + normal * self.normal_cells + (self.closing_cells if self.closes else 0)

    def post_cells(self, modulation, plps):
        """L1_POST_SIZE: the cells of an L1-post of so many PLPs (clauses 7.2.3 and 7.3)."""
        bits = L1_MODULATIONS[modulation][1]
        whole = 213 + 137 * plps
        blocks = -(-whole // 7032)
        signal = -(-whole // blocks)
        punctured = 6 * (7032 - signal) // 5
        step = bits * (2 if self.p2_symbols == 1 else self.p2_symbols)
        return -(-(signal + 168 + 9000 - punctured) // step) * step // bits * blocks

    def free_cells(self, modulation, plps):
        """What is left for PLPs."""
        signal = L1_PRE + self.post_cells(modulation, plps)
        if signal > self.p2_symbols * self.p2_cells:
            raise Refused(f"L1 has {signal} cells, and its symbols {self.p2_symbols * self.p2_cells}")
        return self.cells() - signal

    def l1_line(self, modulation, plps):
        table = LONG_SIZES if self.size in LONG_SIZES and self.guard in LONG_GUARDS else SIZES
        fields = [int(self.extended), 2 * table[self.size], GUARDS[self.guard], 0, L1_MODULATIONS[modulation][0], 0, 0,
                  self.post_cells(modulation, plps), self.pattern - 1, 0, self.symbols, 0]
        return "l1 " + " ".join(map(str, fields))

    def __str__(self):
        carriers = " extended" if self.extended else ""
        return f"{self.band} MHz, {self.size}{carriers}, guard interval {self.guard}, PP{self.pattern}, {self.symbols} data symbols"


def field_bytes(rate, length):
    """The bytes of a block's data field."""
    return (RATES[rate][length == "short"] - HEADER) // 8


def block_cells(modulation, length):
    return LENGTHS[length] // MODULATIONS[modulation]


def most_rate(band, ticks, capacity, nulls, spread):
    """The most bit/s of a PLP whose blocks of an interleaving frame carry so many bytes: the capacity test of docs/FORMATS.md."""
    second, tick = BANDS[band]
    packet = 188 if nulls == "delete" else 187
    return capacity * 1504 * second // (packet * spread * ticks * tick)


KINDS = ("common", "type1", "type2")  # in the order in which PLPs stand


class Plp:
    """A PLP, by words that are parted by commas: a rate and a modulation; and if they are wanted normal or short, delete or keep, a kind,
    blocks of a frame as a number, or the bit rate that they carry, a group and a spread, as bits=2000000, group=1, spread=2."""

    def __init__(self, text):
        self.rate, self.modulation, self.length, self.nulls, self.kind = None, None, "normal", "delete", "type1"
        self.blocks, self.bits, self.group, self.spread = None, None, None, 1
        for word in text.split(","):
            name, told, number = word.partition("=")
            if word in RATES:
                self.rate = word
            elif word in MODULATIONS:
                self.modulation = word
            elif word in LENGTHS:
                self.length = word
            elif word in ("delete", "keep"):
                self.nulls = word
            elif word in KINDS:
                self.kind = word
            elif word.isdecimal():
                self.blocks = int(word)
            elif told and name in ("bits", "group", "spread") and number.isdecimal():
                setattr(self, name, int(number))
            else:
                raise Refused(f"{word or 'an empty word'} is no word of a PLP")
        if self.rate is None or self.modulation is None:
            raise Refused("a PLP wants a rate and a modulation, as 2/3,256qam")
        if self.blocks is not None and self.bits is not None:
            raise Refused("a PLP has a number of blocks or a bit rate, and not both")
        if self.spread < 1:
            raise Refused("a spread is 1 at least")

    def cells(self):
        return block_cells(self.modulation, self.length)

    def most_bits(self, band, ticks, blocks):
        """The most bit/s of so many blocks of an interleaving frame."""
        return most_rate(band, ticks, blocks * field_bytes(self.rate, self.length), self.nulls, self.spread)

    def need(self, band, ticks):
        """The blocks of an interleaving frame that carry the bit rate."""
        blocks = 1
        while self.most_bits(band, ticks, blocks) < self.bits:
            blocks += 1
            if blocks > MOST_BLOCKS:
                raise Refused(f"{self.bits} bit/s want more than {MOST_BLOCKS} blocks of a PLP")
        return blocks

    def line(self, place, band, ticks):
        per_ti = MOST_TI_CELLS // self.cells()
        ti_blocks = 1 if self.spread > 1 else -(-self.blocks // per_ti)
        bits = self.bits or self.most_bits(band, ticks, self.blocks)
        group = place + 1 if self.group is None else self.group
        return (f"plp {place} {self.kind} {group} {self.rate} {self.modulation} {self.length} 0 {self.blocks} {ti_blocks} {self.nulls}"
                f" {bits} {self.spread}")


def share_out(plps, cells, band, ticks):
    """Gives each PLP with a bit rate its blocks, and the one with neither all that fit beside the others."""
    for plp in plps:
        if plp.bits is not None:
            plp.blocks = plp.need(band, ticks)
    left = cells - sum(Fraction((plp.blocks or 0) * plp.cells(), plp.spread) for plp in plps)
    open_ones = [plp for plp in plps if plp.blocks is None]
    if len(open_ones) > 1:
        raise Refused("one PLP may be without a number of blocks and without a bit rate, and not several")
    for plp in open_ones:
        plp.blocks = max(0, min(math.floor(left * plp.spread / plp.cells()), MOST_BLOCKS))
        left -= Fraction(plp.blocks * plp.cells(), plp.spread)
    if left < 0:
        raise Refused(f"the blocks want {math.ceil(-left)} cells more than a frame has for PLPs, {cells}")
    if any(not 1 <= plp.blocks <= MOST_BLOCKS for plp in plps):
        raise Refused(f"a PLP has 1 to {MOST_BLOCKS} blocks")


def check_parts(plps, frames, sub_slices):
    """What the rules and the third test of docs/FORMATS.md ask of kinds, spreads and sub-slices."""
    kinds = [KINDS.index(plp.kind) for plp in plps]
    if kinds != sorted(kinds):
        raise Refused("common PLPs stand first, then those of type 1, then those of type 2")
    has_type2 = KINDS.index("type2") in kinds
    if has_type2 != (2 <= sub_slices <= 6480):
        raise Refused("with a PLP of type 2 there are 2 to 6480 sub-slices, and without one there is 1")
    for plp in plps:
        parts = plp.spread * (sub_slices if plp.kind == "type2" else 1)
        if plp.cells() % parts:
            raise Refused(f"a block of {plp.cells()} cells is not of {parts} parts of one length")
        if frames % plp.spread:
            raise Refused(f"a spread of {plp.spread} does not divide the {frames} frames of a superframe")


def configuration(mode, modulation, plps, frames=2, sub_slices=1):
    """The lines of a configuration."""
    if not 2 <= frames <= 255:
        raise Refused("a superframe has 2 to 255 frames")
    free = mode.free_cells(modulation, len(plps))
    check_parts(plps, frames, sub_slices)
    ticks, post = mode.ticks(), mode.post_cells(modulation, len(plps))
    share_out(plps, free, mode.band, ticks)
    normal = mode.symbols - mode.closes
    closing = f" + {mode.closing_cells} of the closing one" if mode.closes else ""
    return [
        f"# {mode}",
        f"# ticks: {P1} + {mode.p2_symbols + mode.symbols} * {mode.symbol} = {ticks}, {ms(mode.seconds())}",
        f"# cells: {mode.p2_symbols} * {mode.p2_cells} + {normal} * {mode.normal_cells}{closing} = {mode.cells()};"
        f" without {L1_PRE} of L1-pre and {post} of L1-post (L1_POST_SIZE) {free}",
        "t2-gateway 2",
        f"bandwidth {mode.band}",
        f"frame {ticks} {frames} {free}",
        "# start, pid and network are yours to set",
        "start 700000000 0 5",
        "pid 256",
        "network 1 2 3 474000000",
        mode.l1_line(modulation, len(plps)),
        f"subslices {sub_slices}",
    ] + [plp.line(place, mode.band, ticks) for place, plp in enumerate(plps)]


def ms(seconds):
    return f"{float(seconds * 1000):.3f} ms"


def mbit(rate):
    return f"{rate / 1e6:.3f} Mbit/s"


def read_lines(name):
    """The words of a configuration's lines by their first, and the lines of its PLPs."""
    lines, plps = {}, []
    with open(name, encoding="ascii") as file:
        for words in (line.split() for line in file if line.strip() and not line.startswith("#")):
            if words[0] == "plp":
                plps.append(words[1:])
            else:
                lines[words[0]] = words[1:]
    return lines, plps


def mode_of(band, fields):
    """The mode that L1 fields tell, and the name of its L1 modulation."""
    extended, s2, guard, papr, modulation, _, _, _, pattern, _, symbols, _ = map(int, fields)
    sizes = {2 * number: size for table in (SIZES, LONG_SIZES) for size, number in table.items()}
    guards = {number: name for name, number in GUARDS.items()}
    modulations = {number: name for name, (number, _) in L1_MODULATIONS.items()}
    if s2 not in sizes or guard not in guards or modulation not in modulations:
        raise Refused("S2, GUARD_INTERVAL or L1_MOD is for future use, or S2 tells of FEF parts")
    if papr in (2, 3):
        raise Refused(f"PAPR {papr} reserves tones, and these tables know none")
    return Mode(band, sizes[s2], bool(extended), guards[guard], pattern + 1, symbols), modulations[modulation]


def tell_l1(band, ticks, cells, fields, plps):
    """Whether the L1 fields are those of such a frame, in words."""
    try:
        mode, modulation = mode_of(band, fields)
        free, post = mode.free_cells(modulation, plps), mode.post_cells(modulation, plps)
        line = mode.l1_line(modulation, plps).split()[1:]
    except Refused as why:
        return False, f"L1: the fields are of no mode: {why}"
    wrong = []
    if mode.ticks() != ticks:
        wrong.append(f"{mode.ticks()} ticks, and not {ticks}")
    if free < cells:
        wrong.append(f"{free} cells for PLPs, and not {cells}")
    if post != int(fields[7]):
        wrong.append(f"L1_POST_SIZE {post}, and not {fields[7]}")
    if line[1] != fields[1]:
        wrong.append(f"S2 {line[1]}, and not {fields[1]}")
    return not wrong, f"L1: {mode}" + (": it has " + "; ".join(wrong) if wrong else "")


def tell_plp(words, band, ticks):
    """A line on a PLP."""
    name, _, _, rate, modulation, length, _, blocks, ti_blocks, nulls, bits, *spread = words
    blocks, bits, spread = int(blocks), int(bits), int(spread[0]) if spread else 1
    second, tick = BANDS[band]
    delay = -(-1504 * second // (bits * tick)) + 1 + 3 * spread * ticks
    most = most_rate(band, ticks, blocks * field_bytes(rate, length), nulls, spread)
    cells = block_cells(modulation, length)
    line = f"PLP {name}: {mbit(bits)}, and {mbit(most)} at most; a packet comes {ms(Fraction(delay * tick, second))} later; {math.ceil(blocks * cells / spread)} cells in a frame"
    in_ti = -(-blocks // max(1, int(ti_blocks))) * cells if int(ti_blocks) else 0
    return line + (f"; a TI-block of {in_ti} cells, and {MOST_TI_CELLS} fit a receiver" if in_ti > MOST_TI_CELLS else "")


def tell(name):
    """What a configuration is, and whether its L1 fields fit its frame."""
    lines, plps = read_lines(name)
    band = lines["bandwidth"][0]
    ticks, frames, cells = map(int, lines["frame"])
    frame = Fraction(ticks) / Fraction(*BANDS[band])
    fits, l1 = tell_l1(band, ticks, cells, lines["l1"], len(plps))
    print(f"frame: {ms(frame)}, superframe {ms(frames * frame)}, {cells} cells for PLPs")
    print(l1)
    for words in plps:
        print(tell_plp(words, band, ticks))
    return fits


def arguments(words):
    parser = argparse.ArgumentParser(description=__doc__, formatter_class=argparse.RawDescriptionHelpFormatter)
    parser.add_argument("--tell", metavar="CONFIG", help="says delays and rates, and whether the L1 fields fit; status 1 if they don't")
    parser.add_argument("--bandwidth", choices=BANDS, default="8", help="in MHz (8)")
    parser.add_argument("--fft", choices=P2, default="32K", help="(32K)")
    parser.add_argument("--extended", action="store_true", help="extended carriers")
    parser.add_argument("--guard", choices=GUARDS, default="1/128", help="(1/128)")
    parser.add_argument("--pilots", choices=[f"PP{number}" for number in range(1, 9)], default="PP7", help="(PP7)")
    parser.add_argument("--symbols", type=int, help="data symbols, P2 aside; if not given, the most that 250 ms hold")
    parser.add_argument("--l1", choices=L1_MODULATIONS, default="qpsk", help="modulation of L1-post (qpsk)")
    parser.add_argument("--frames", type=int, default=2, help="frames of a superframe (2)")
    parser.add_argument("--plp", action="append", metavar="WORDS", help="as 2/3,256qam or 1/2,qpsk,short,keep,100 or common,1/2,qpsk,group=1,bits=2000000,spread=2; one may be without"
                        " a number of blocks and a bit rate")
    parser.add_argument("--subslices", type=int, default=1, help="of a frame, with PLPs of type 2 (1)")
    return parser.parse_args(words)


def main():
    asked = arguments(sys.argv[1:])
    try:
        if asked.tell is not None:
            sys.exit(0 if tell(asked.tell) else 1)
        mode = Mode(asked.bandwidth, asked.fft, asked.extended, asked.guard, int(asked.pilots[2:]), asked.symbols)
        plps = [Plp(text) for text in asked.plp or ["2/3,256qam"]]
        print("\n".join(configuration(mode, asked.l1, plps, asked.frames, asked.subslices)))
    except Refused as why:
        sys.exit(f"modes.py: {why}")
    except OSError as error:
        sys.exit(f"{asked.tell or 'modes.py'}: {error.strerror}")
    except (KeyError, IndexError, ValueError, ZeroDivisionError):
        sys.exit(f"{asked.tell}: this is no configuration; `vicelotus show config` says why")


if __name__ == "__main__":
    main()
