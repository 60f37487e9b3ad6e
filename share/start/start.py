#!/usr/bin/env python3
"""The `start` of a configuration, from a wall clock; and where the packets of an input stand that joins a run.

    start.py [--after SECONDS] CONFIG > NEW           frame 0 leaves so many seconds from now, at a whole second
    start.py --again [--after SECONDS] CONFIG > NEW   at a superframe of CONFIG's own run, for a gateway that is started again
    start.py --join ID CONFIG < IN > OUT              IN behind as many null packets as slots of the PLP are over, for `swap`

Give the same NEW to every site: gateway, modulators, receivers.
"""
import argparse
import math
import sys
import time
from fractions import Fraction

# EN 302 755, clause 9.5: subseconds of a second, and of a tick, as T2-MI counts them (TS 102 773, clause 5.2.7).
BANDS = {"1.7": (131_000_000, 71), "5": (40_000_000, 7), "6": (48_000_000, 7), "7": (56_000_000, 7), "8": (64_000_000, 7), "10": (80_000_000, 7)}
YEAR_2000 = 946_684_800  # seconds of the clock of POSIX at the first of January
UTCO = 5  # leap seconds since then; none since 2017
PERIOD = 16  # superframes, behind which superframe_idx begins anew
ISCR = 1 << 22  # ticks, behind which the time in a baseband frame begins anew
SLOT = 1504  # bits
NULL = bytes([0x47, 0x1F, 0xFF, 0x10]) + bytes(184)


class Refused(Exception):
    """A word or a line that cannot be meant."""


class Config:
    """Of the text of a configuration what tells its times."""

    def __init__(self, text):
        self.lines = text.split("\n")
        rows = {}
        for place, line in enumerate(self.lines):
            words = line.rstrip("\r").split(" ")
            rows.setdefault(words[0], []).append((place, words[1:]))
        try:
            self.second, self.tick = BANDS[rows["bandwidth"][0][1][0]]
            ticks, frames, _ = rows["frame"][0][1]
            self.superframe = int(ticks) * int(frames)  # ticks
            self.place, (seconds, subseconds, _) = rows["start"][0]
            self.begin = int(seconds) * self.second + int(subseconds)  # subseconds
            self.rates = {int(words[0]): int(words[10]) for _, words in rows["plp"]}
        except (KeyError, ValueError, IndexError) as error:
            raise Refused(f"no configuration: {error}") from None

    def starting(self, begin, utco):
        """The text with another start."""
        start = f"start {begin // self.second} {begin % self.second} {utco}"
        return "\n".join(start if place == self.place else line for place, line in enumerate(self.lines))

    def slots(self, rate, ticks):
        """The slots of a rate that are over by a tick."""
        return Fraction(ticks * self.tick * rate, SLOT * self.second)

    def alike(self):
        """Behind how many superframes each PLP has a whole number of slots, and ISCR is 0 again."""
        wholes = [self.slots(rate, self.superframe).denominator for rate in self.rates.values()]
        return math.lcm(PERIOD, ISCR // math.gcd(ISCR, self.superframe), *wholes)


def now_of(config, utco):
    """Subseconds since 2000."""
    return (time.time_ns() - YEAR_2000 * 10**9) * config.second // 10**9 + utco * config.second


def clock(config, begin, utco):
    seconds = Fraction(begin, config.second) - utco + YEAR_2000
    return time.strftime("%Y-%m-%d %H:%M:%S", time.gmtime(int(seconds))) + f"{float(seconds % 1):.6f}"[1:] + " UTC"


def tell(*words):
    print("start.py:", *words, file=sys.stderr)


def start(config, after, utco):
    begin = -(-(now_of(config, utco) + int(after * config.second)) // config.second) * config.second
    tell(f"frame 0 leaves at {clock(config, begin, utco)}")
    return begin


def again(config, after, utco):
    """A later superframe of the run: its number a multiple of 16, so that superframe_idx fits."""
    step = PERIOD * config.superframe * config.tick
    late = now_of(config, utco) + int(after * config.second) - config.begin
    if late <= 0:
        raise Refused("CONFIG's own start is to come: it needs no other")
    count = -(-late // step) * PERIOD
    begin = config.begin + count * config.superframe * config.tick
    alike = config.alike()
    tell(f"frame 0 leaves at {clock(config, begin, utco)}: superframe {count} of CONFIG, with which modulators that are started anew may go on")
    span = Fraction(alike * config.superframe * config.tick, config.second)
    fits = "fits" if count % alike == 0 else "does not fit: give receivers the new CONFIG"
    tell(f"the slots of a receiver with CONFIG itself fit behind each {alike} superframes ({float(span):.1f} s); this one {fits}")
    return begin


def join(config, plp, after, utco):
    if plp not in config.rates:
        raise Refused(f"CONFIG has no PLP {plp}")
    late = now_of(config, utco) + int(after * config.second) - config.begin
    count = math.floor(config.slots(config.rates[plp], late // config.tick)) if late > 0 else 0
    tell(f"{count} null packets stand in front: slot {count} begins with IN")
    whole, rest = divmod(count, 7)
    for _ in range(whole):
        sys.stdout.buffer.write(7 * NULL)
    sys.stdout.buffer.write(rest * NULL)
    sys.stdout.buffer.flush()
    while bytes_ := sys.stdin.buffer.read1(1 << 16):
        sys.stdout.buffer.write(bytes_)
        sys.stdout.buffer.flush()


def main():
    words = argparse.ArgumentParser(description=__doc__, formatter_class=argparse.RawDescriptionHelpFormatter)
    words.add_argument("config", metavar="CONFIG")
    ways = words.add_mutually_exclusive_group()
    ways.add_argument("--again", action="store_true", help="on the superframes of CONFIG")
    ways.add_argument("--join", type=int, metavar="ID", help="fills up an input of the PLP with this identifier")
    words.add_argument("--after", type=Fraction, default=Fraction(10), help="seconds from now (10)")
    words.add_argument("--utco", type=int, default=UTCO, help=f"leap seconds since 2000 ({UTCO})")
    options = words.parse_args()
    with open(options.config, encoding="ascii") as file:
        config = Config(file.read())
    if options.join is not None:
        return join(config, options.join, options.after, options.utco)
    begin = (again if options.again else start)(config, options.after, options.utco)
    sys.stdout.write(config.starting(begin, options.utco))


if __name__ == "__main__":
    try:
        main()
    except BrokenPipeError:
        sys.exit(1)
    except (OSError, UnicodeError, Refused) as error:
        sys.exit(f"start.py: {getattr(error, 'strerror', None) or error}")
