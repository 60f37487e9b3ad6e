"""Transport packets (ISO/IEC 13818-1, clause 2.4.3)."""

UNIT = 188
NULL = bytes([0x47, 0x1F, 0xFF, 0x10]) + bytes([0xFF] * 184)


def is_null(packet):
    return packet[1] % 32 == 31 and packet[2] == 255


class View:
    """What a unit tells that reads as a transport packet."""

    def __init__(self, unit):
        self.error, self.starts = unit[1] >> 7, unit[1] >> 6 & 1
        self.pid = unit[1] % 32 * 256 + unit[2]
        self.scrambling, control, self.counter = unit[3] >> 6, unit[3] >> 4 & 3, unit[3] % 16
        # The place of the payload.
        self.at = {1: 4, 2: UNIT, 3: 5 + unit[4]}[control]
        self.payload = unit[self.at :]


def read(unit):
    """What a unit tells, or nothing if it is no transport packet."""
    control = unit[3] >> 4 & 3
    if unit[0] != 0x47 or control == 0 or (control == 2 and unit[4] != 183) or (control == 3 and unit[4] > 182):
        return None
    return View(unit)


def write(pid, counter, pointer, payload):
    """A transport packet with a payload, behind a pointer_field if there is one; an adaptation field fills it."""
    front = b"" if pointer is None else bytes([pointer])
    space = 184 - len(front) - len(payload)
    filling = b"" if space == 0 else b"\0" if space == 1 else bytes([space - 1, 0]) + b"\xff" * (space - 2)
    control = 0x30 if space else 0x10
    return bytes([0x47, (pointer is not None) << 6 | pid >> 8, pid & 255, control | counter]) + filling + front + payload


def first_bad(data):
    """The number of the first packet of an input that does not begin with 0x47, or in which it ends."""
    for place in range(0, len(data), UNIT):
        if data[place] != 0x47 or place + UNIT > len(data):
            return place // UNIT
    return None


def packets_of(data):
    return [data[place : place + UNIT] for place in range(0, len(data) - UNIT + 1, UNIT)]
