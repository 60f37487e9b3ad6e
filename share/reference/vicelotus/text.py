"""The text of a configuration, its rules, and its tests of capacity."""

from dataclasses import dataclass, field

# bandwidth: bw, subseconds of a second, subseconds of a tick, the longest frame
BANDS = {
    "1.7": (0, 131_000_000, 71, 461_267),
    "5": (1, 40_000_000, 7, 1_428_571),
    "6": (2, 48_000_000, 7, 1_714_285),
    "7": (3, 56_000_000, 7, 2_000_000),
    "8": (4, 64_000_000, 7, 2_285_714),
    "10": (5, 80_000_000, 7, 2_857_142),
}
KINDS = ["common", "type1", "type2"]
RATES = ["1/2", "3/5", "2/3", "3/4", "4/5", "5/6"]
MODULATIONS = ["qpsk", "16qam", "64qam", "256qam"]
SIZES = ["short", "normal"]
BLOCK_BITS = {"normal": [32208, 38688, 43040, 48408, 51648, 53840], "short": [7032, 9552, 10632, 11712, 12432, 13152]}
BLOCK_CELLS = {"normal": [32400, 16200, 10800, 8100], "short": [8100, 4050, 2700, 2025]}

L1_WIDTHS = [1, 4, 3, 4, 4, 2, 2, 18, 4, 8, 12, 3]
RECORD_MOST = 33_554_432


class Refused(Exception):
    """How a run ends that is not done: the words of its outcome, its status and its last line."""

    def __init__(self, status, outcome, line):
        super().__init__(line)
        self.status, self.outcome, self.line = status, outcome, line


TEXT_WHYS = {1: "NotAscii", 2: "WrongKey", 3: "WrongCount", 4: "BadWord", 5: "BadNumber", 6: "EndsEarly", 7: "TooLong"}


def text_refused(line, why):
    cause = f"ConfigRefused {{ cause: Text {{ line: {line}, why: {TEXT_WHYS[why]} }} }}"
    return Refused(3, cause, f"refused: config line {line} why {why}")


def some(place):
    return "None" if place is None else f"Some({place})"


def rule_refused(rule, place=None):
    cause = f"ConfigRefused {{ cause: Rule {{ rule: {rule}, plp: {some(place)} }} }}"
    return Refused(3, cause, f"refused: config rule {rule} plp {'-' if place is None else place}")


def capacity_refused(test, place, need, have):
    cause = f"CapacityRefused {{ test: {test}, plp: {some(place)}, need: {need}, have: {have} }}"
    plp = "-" if place is None else place
    return Refused(4, cause, f"refused: capacity test {test} plp {plp} need {need} have {have}")


class BadField(Exception):
    pass


def number(bits):
    def read(word):
        if not word.isdigit() or (word[0] == "0" and word != "0") or int(word) >= 2**bits:
            raise BadField(5)
        return int(word)

    return read


def one_of(words):
    def read(word):
        if word not in words:
            raise BadField(4)
        return word

    return read


def version(word):
    if word not in ("1", "2"):
        raise BadField(5)
    return int(word)


LINES = [
    ("t2-gateway", [version]),
    ("bandwidth", [one_of(BANDS)]),
    ("frame", [number(32), number(16), number(32)]),
    ("start", [number(64), number(32), number(16)]),
    ("pid", [number(16)]),
    ("network", [number(16), number(16), number(16), number(32)]),
    ("l1", [number(8)] * 7 + [number(32), number(8), number(8), number(16), number(8)]),
    ("subslices", [number(16)]),
]
PLP_LINE = [number(8), one_of(KINDS), number(8), one_of(RATES), one_of(MODULATIONS), one_of(SIZES), one_of(["0", "1"])]
PLP_LINE += [number(16), number(16), one_of(["delete", "keep"]), number(32)]


@dataclass
class Plp:
    id: int
    kind: str
    group: int
    rate: str
    modulation: str
    size: str
    rotation: int
    blocks: int
    interleave: int
    delete: bool
    bit_rate: int
    spread: int

    def words(self):
        rest = [self.rate, self.modulation, self.size, self.rotation, self.blocks, self.interleave]
        rest += ["delete" if self.delete else "keep", self.bit_rate, self.spread]
        return " ".join(map(str, [self.id, self.kind, self.group, *rest]))


@dataclass
class Config:
    band: str
    ticks: int
    frames: int
    cells: int
    seconds: int
    subseconds: int
    utco: int
    pid: int
    network: list
    l1: list
    sub_slices: int
    plps: list = field(default_factory=list)


def fields_of(line, readers, words):
    if len(words) != len(readers):
        raise text_refused(line, 3)
    values = []
    for reader, word in zip(readers, words):
        try:
            values.append(reader(word))
        except BadField as fault:
            raise text_refused(line, fault.args[0]) from None
    return values


def plp_of(values):
    *front, rotation, blocks, interleave, delete, rate, spread = values
    return Plp(*front, int(rotation), blocks, interleave, delete == "delete", rate, spread)


def read(text):
    """The configuration that a text spells."""
    if len(text) > 65_536:
        raise text_refused(0, 7)
    lines = text.split(b"\n")
    last = lines.pop()
    lines = [line[:-1] if line.endswith(b"\r") else line for line in lines] + ([last] if last else [])
    rows, plps = [], []
    for place, line in enumerate(lines, 1):
        if not line or line.startswith(b"#"):
            continue
        if any(byte < 32 or byte > 126 for byte in line):
            raise text_refused(place, 1)
        key, *words = line.decode().split(" ")
        due, readers = LINES[len(rows)] if len(rows) < len(LINES) else ("plp", PLP_LINE)
        if key != due:
            raise text_refused(place, 2)
        if due == "plp":
            readers = PLP_LINE + ([number(8)] if rows[0][0] == 2 else [])
            if len(plps) == 255:
                raise text_refused(place, 3)
            values = fields_of(place, readers, words)
            plps.append(plp_of(values if rows[0][0] == 2 else values + [1]))
        else:
            rows.append(fields_of(place, readers, words))
    if len(rows) < len(LINES):
        raise text_refused(len(lines) + 1, 6)
    _, (band,), frame, start, (pid,), network, l1, (sub_slices,) = rows
    return Config(band, *frame, *start, pid, network, l1, sub_slices, plps)


def write(config):
    """The text of a configuration, in version 2."""
    rows = [
        ["t2-gateway", 2],
        ["bandwidth", config.band],
        ["frame", config.ticks, config.frames, config.cells],
        ["start", config.seconds, config.subseconds, config.utco],
        ["pid", config.pid],
        ["network", *config.network],
        ["l1", *config.l1],
        ["subslices", config.sub_slices],
        *(["plp", plp.words()] for plp in config.plps),
    ]
    return "".join(" ".join(map(str, row)) + "\n" for row in rows)


def common_of(config, group):
    return next((plp for plp in config.plps if plp.kind == "common" and plp.group == group), None)


def plp_rules(config):
    """Of each rule of a PLP, its number, and whether it fails at a place."""
    plps = config.plps

    def differs(place):
        common = common_of(config, plps[place].group)
        return common and (plps[place].bit_rate, plps[place].spread) != (common.bit_rate, common.spread)

    def kind(place):
        return KINDS.index(plps[place].kind)

    def others(place):
        return [plp for at, plp in enumerate(plps) if plp.group == plps[place].group and at != place]

    return [
        (10, lambda j: plps[j].id in [plp.id for plp in plps[:j]]),
        (11, lambda j: any(kind(i) > kind(j) for i in range(j))),
        (12, lambda j: not 1 <= plps[j].blocks <= 1_023),
        (13, lambda j: plps[j].interleave > min(plps[j].blocks, 255)),
        (14, lambda j: not 1 <= plps[j].bit_rate <= 72_000_000),
        (15, lambda j: plps[j].spread < 1 or config.frames % plps[j].spread),
        (16, lambda j: plps[j].spread > 1 and plps[j].interleave != 1),
        (17, lambda j: plps[j].spread * config.ticks >= 4_194_304),
        (18, lambda j: plps[j].kind == "common" and common_of(config, plps[j].group) is not plps[j]),
        (19, differs),
        (20, lambda j: plps[j].kind == "common" and not others(j)),
    ]


def validate(config):
    """Refuses a configuration that breaks a rule."""
    _, second, _, longest = BANDS[config.band]
    two = any(plp.kind == "type2" for plp in config.plps)
    fits = all(value < 2**width for value, width in zip(config.l1, L1_WIDTHS))
    rules = [
        (1, 1_000 <= config.ticks <= longest),
        (2, 2 <= config.frames <= 255),
        (3, config.cells >= 2_025),
        (4, 1 <= config.seconds <= 2**39 and config.subseconds < second),
        (5, config.utco < 8_192),
        (6, 16 <= config.pid <= 8_190),
        (7, fits and config.l1[1] % 2 == 0),
        (8, 2 <= config.sub_slices <= 6_480 if two else config.sub_slices == 1),
        (9, 1 <= len(config.plps) <= 255),
    ]
    for rule, holds in rules:
        if not holds:
            raise rule_refused(rule)
    for rule, fails in plp_rules(config):
        for place in range(len(config.plps)):
            if fails(place):
                raise rule_refused(rule, place)
