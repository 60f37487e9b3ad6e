"""What follows from a configuration: times, sizes, and whether it fits."""

from math import gcd

from .text import BANDS, BLOCK_BITS, BLOCK_CELLS, MODULATIONS, RATES, RECORD_MOST, capacity_refused, validate

FRAMES_MOST = 2**31


def up(value, divisor):
    return -(-value // divisor)


class Chain:
    """A PLP of a plan, with its times and sizes."""

    def __init__(self, plan, place, plp):
        config = plan.config
        self.plan, self.place, self.plp = plan, place, plp
        self.id, self.kind, self.most, self.spread, self.delete = plp.id, plp.kind, plp.blocks, plp.spread, plp.delete
        self.cod, self.mod = RATES.index(plp.rate), MODULATIONS.index(plp.modulation)
        self.bits = BLOCK_BITS[plp.size][self.cod]
        self.cells = BLOCK_CELLS[plp.size][self.mod]
        self.field = self.bits // 8 - 10
        self.capacity = self.most * self.field
        self.up_bytes = 188 if plp.delete else 187
        self.num, self.den = 1504 * plan.second, plp.bit_rate * plan.tick
        # An interleaving frame, in ticks.
        self.epoch = plp.spread * config.ticks
        self.delay = up(self.num, self.den) + 1 + 3 * self.epoch

    def start(self, slot):
        """The tick at which a slot starts."""
        return slot * self.num // self.den

    def over(self, tick):
        """How many slots are over by a tick."""
        return tick * self.den // self.num if tick > 0 else 0

    def need(self):
        return up(self.up_bytes * self.epoch * self.den, self.num)

    def window(self):
        return up((self.delay + self.plan.config.ticks) * self.den, self.num) + 2

    def due_by(self, tick):
        """How many slots' delays have passed by a tick: those that start at tick - delay or before."""
        return up((tick - self.delay + 1) * self.den, self.num) if tick >= self.delay else 0


class Plan:
    """A configuration that satisfies all rules, and what follows from it."""

    def __init__(self, config):
        validate(config)
        self.config = config
        self.bw, self.second, self.tick, _ = BANDS[config.band]
        self.ticks, self.frames = config.ticks, config.frames
        self.chains = [Chain(self, place, plp) for place, plp in enumerate(config.plps)]
        self.spread_max = max(chain.spread for chain in self.chains)
        self.two = any(chain.kind == "type2" for chain in self.chains)

    def fits(self):
        """Refuses a configuration that does not fit."""
        config = self.config
        for chain in self.chains:
            if chain.capacity * chain.num < chain.up_bytes * chain.epoch * chain.den:
                raise capacity_refused(1, chain.place, chain.need(), chain.capacity)
        # A sum of fractions, over one denominator.
        scale = 1
        for chain in self.chains:
            scale = scale * chain.spread // gcd(scale, chain.spread)
        cells = up(sum(chain.most * chain.cells * scale // chain.spread for chain in self.chains), scale)
        if cells > config.cells:
            raise capacity_refused(2, None, cells, config.cells)
        for chain in self.chains:
            divisor = chain.spread * (config.sub_slices if chain.kind == "type2" else 1)
            if chain.cells % divisor:
                raise capacity_refused(3, chain.place, divisor, chain.cells)
        if config.cells > 4_194_303:
            raise capacity_refused(4, None, config.cells, 4_194_303)
        rest = 35 + up(213 + 137 * len(self.chains), 8) + 4 * config.cells
        rest += sum(chain.most * (4 + chain.bits // 8) for chain in self.chains)
        if rest > RECORD_MOST:
            raise capacity_refused(5, None, rest, RECORD_MOST)
        return self

    def emission(self, frame):
        """Seconds and subseconds at which a frame leaves."""
        total = self.config.seconds * self.second + self.config.subseconds + frame * self.ticks * self.tick
        return divmod(total, self.second)

    def frame_at(self, seconds, subseconds):
        """The number of the frame that leaves at a moment, below the most."""
        if subseconds >= self.second:
            return None
        since = (seconds - self.config.seconds) * self.second + subseconds - self.config.subseconds
        frame, rest = divmod(since, self.ticks * self.tick)
        return frame if rest == 0 and 0 <= frame < FRAMES_MOST else None

    def key(self, frame):
        return frame // self.frames % 16, frame % self.frames

    def chain_of(self, plp_id):
        return next((chain for chain in self.chains if chain.id == plp_id), None)

    def lines(self):
        """What `plan` says."""
        config = self.config
        yield f"band={config.band} ticks={config.ticks} frames={config.frames} cells={config.cells}"
        for chain in self.chains:
            least = gcd(chain.num, chain.den)
            slots = ",".join(str(chain.over(count * self.ticks)) for count in (1, 2, 3, 4))
            yield (
                f"plp={chain.id} slot={chain.num // least}/{chain.den // least} delay={chain.delay} field={chain.field} "
                f"capacity={chain.capacity} need={chain.need()} cells={chain.most * chain.cells // chain.spread} "
                f"window={chain.window()} slots={slots}"
            )
