#!/usr/bin/env python3
"""Compares modes.py with tables from outside: see README.md. No expected value is of its own output."""
import contextlib
import io
import os
import sys
import tempfile

sys.dont_write_bytecode = True
sys.path.insert(0, os.path.join(os.path.dirname(os.path.abspath(__file__)), "../reference"))
import modes  # noqa: E402
from vicelotus.plan import Plan  # noqa: E402
from vicelotus.text import read  # noqa: E402

RATES = list(modes.RATES)

# EN 302 755, clause 8.3.1: the most symbols of a frame at 8 MHz, P2 symbols with them.
LONGEST = {
    "32K": {"1/128": 68, "1/32": 66, "1/16": 64, "19/256": 64, "1/8": 60, "19/128": 60},
    "16K": {"1/128": 138, "1/32": 135, "1/16": 131, "19/256": 129, "1/8": 123, "19/128": 121, "1/4": 111},
    "8K": {"1/128": 276, "1/32": 270, "1/16": 262, "19/256": 259, "1/8": 247, "19/128": 242, "1/4": 223},
    "4K": {"1/32": 540, "1/16": 524, "1/8": 495, "1/4": 446},
    "2K": {"1/32": 1081, "1/16": 1049, "1/8": 991, "1/4": 892},
    "1K": {"1/16": 2098, "1/8": 1982, "1/4": 1784},
}

# TS 102 831: bit rates at 8 MHz, 32K extended, guard interval 1/128, PP7: symbols of a frame, blocks, and Mbit/s by rate from 1/2 to 5/6.
BIT_RATES = [
    ("qpsk", 60, 50, "7.4442731 8.9457325 9.9541201 11.197922 11.948651 12.456553"),
    ("16qam", 60, 101, "15.037432 18.07038 20.107323 22.619802 24.136276 25.162236"),
    ("64qam", 60, 151, "22.481705 27.016112 30.061443 33.817724 36.084927 37.618789"),
    ("256qam", 60, 202, "30.074863 36.140759 40.214645 45.239604 48.272552 50.324472"),
    ("64qam", 46, 116, "22.51994 27.06206 30.11257 33.87524 36.1463 37.68277"),
    ("256qam", 68, 229, "30.08728 36.15568 40.23124 45.25828 48.29248 50.34524"),
]

# Modes of DVB's verification streams (vv), the DTG's (dtg) and the German trials (g), with their blocks, as GNU Radio 3.10.5 has them among its
# examples: FFT size, extended, guard interval, pilots, data symbols, L1 modulation, modulation, size, blocks. Those with tone reservation are left out.
BLOCKS = """
vv001 32K x 1/128 7 59 64qam 256qam normal 202
vv004 8K x 19/256 5 81 64qam 64qam normal 50
vv005 8K x 1/16 8 59 64qam 256qam normal 50
vv007 16K x 19/128 8 59 64qam 16qam normal 50
vv008 16K x 1/32 6 100 64qam 256qam normal 168
vv009 4K - 1/32 7 100 16qam 64qam normal 31
vv010 2K - 1/8 2 983 qpsk 16qam normal 93
vv011 1K - 1/8 3 1966 bpsk qpsk normal 48
vv015 8K x 1/32 7 238 64qam 256qam normal 200
dtg016 4K - 1/16 5 500 qpsk qpsk short 204
g1 16K x 19/128 2 118 bpsk 64qam normal 139
g3 32K x 1/16 2 63 bpsk 64qam normal 150
g4 16K x 1/8 3 119 bpsk 64qam normal 146
g5 16K x 19/256 2 128 bpsk 64qam normal 151
g6 32K - 1/32 4 55 bpsk 256qam normal 179
g8 32K x 1/16 4 61 bpsk 64qam normal 151
g10 16K x 19/128 2 120 bpsk qpsk normal 47
"""

# The L1-post cells of one PLP that GNU Radio's frame mapper wrote, counted in its frames: L1 in QPSK, 16QAM, 64QAM.
POST_CELLS = {"1K": (752, 384, 256), "2K": (752, 376, 256), "4K": (752, 376, 252), "8K": (750, 376, 250), "16K": (750, 376, 250), "32K": (750, 376, 250)}


def check(name, got, wanted):
    if got != wanted:
        sys.exit(f"{name}: {got}, and not {wanted}")


def test_longest():
    for size, row in LONGEST.items():
        for guard in modes.GUARDS:
            patterns = modes.PILOTS[guard].get(size)
            check(f"{size} {guard}", patterns is not None, guard in row)
            if patterns:
                mode = modes.Mode("8", size, False, guard, patterns[0])
                check(f"longest frame of {size} {guard}", mode.p2_symbols + mode.symbols, row[guard])
    return sum(map(len, LONGEST.values()))


def test_bit_rates():
    for modulation, symbols, blocks, texts in BIT_RATES:
        mode = modes.Mode("8", "32K", True, "1/128", 7, symbols - 1)
        check(f"blocks of {modulation}", mode.free_cells("64qam", 1) // modes.block_cells(modulation, "normal"), blocks)
        for rate, text in zip(RATES, texts.split()):
            most = modes.most_rate("8", mode.ticks(), blocks * modes.field_bytes(rate, "normal"), "keep", 1) / 1e6
            digits = len(text.split(".")[1])
            if abs(most - float(text)) > 0.6 * 10**-digits + 1e-6:  # whole bits a second, rounded down
                sys.exit(f"{modulation} {rate}: {most}, and not {text}")
    return len(BIT_RATES) * len(RATES)


def test_blocks():
    rows = BLOCKS.split("\n")[1:-1]
    for row in rows:
        name, size, carriers, guard, pattern, symbols, l1, modulation, length, blocks = row.split()
        mode = modes.Mode("8", size, carriers == "x", guard, int(pattern), int(symbols))
        check(f"blocks of {name}", mode.free_cells(l1, 1) // modes.block_cells(modulation, length), int(blocks))
    return len(rows)


def test_post_cells():
    for size, row in POST_CELLS.items():
        mode = modes.Mode("8", size, False, "1/16", 4)
        check(f"L1-post of {size}", tuple(mode.post_cells(name, 1) for name in ("qpsk", "16qam", "64qam")), row)
    return 3 * len(POST_CELLS)


def test_own_text():
    """What is written fits when it is told; another NUM_DATA_SYMBOLS does not."""
    text = "\n".join(modes.configuration(modes.Mode("8", "32K", True, "1/128", 7, 59), "qpsk", [modes.Plp("2/3,256qam")]))
    for words, fits in ((text, True), (text.replace(" 59 0", " 57 0"), False)):
        with tempfile.NamedTemporaryFile("w", delete=False) as file:
            file.write(words)
        with contextlib.redirect_stdout(io.StringIO()):
            got = modes.tell(file.name)
        os.unlink(file.name)
        check("the text that is told", got, fits)
    return 2


def test_plps():
    """A group with a common PLP, one of type 2 with sub-slices and one over two frames: the reference of the commands takes them."""
    words = [("common,1/2,qpsk,short,group=1,bits=1000000", "type1,1/2,qpsk,short,group=1,bits=1000000", "type2,2/3,16qam,short,20"),
             ("1/2,16qam,short,spread=2,bits=3000000", "type2,3/5,64qam,short,12"), ("2/3,256qam,spread=2",)]
    for texts in words:
        sub_slices = 5 if any("type2" in text for text in texts) else 1
        mode = modes.Mode("8", "32K", True, "1/128", 7, 59)
        text = "\n".join(modes.configuration(mode, "qpsk", [modes.Plp(words) for words in texts], 2, sub_slices)) + "\n"
        Plan(read(text.encode())).fits()
    return len(words)


def main():
    for test in (test_longest, test_bit_rates, test_blocks, test_post_cells):
        print(f"{test.__name__[5:]}: {test()} as in the tables")
    print(f"own text: {test_own_text()} as they should be")
    print(f"PLPs: {test_plps()} that fit")


main()
