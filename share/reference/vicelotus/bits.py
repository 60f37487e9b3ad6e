"""Bits, CRCs and the scrambler (EN 302 755, clause 5.2.4 and annex F). A list of bits is a text of 0 and 1."""

import zlib
from functools import lru_cache

TURNED = bytes(int(f"{byte:08b}"[::-1], 2) for byte in range(256))


def fields(*rows):
    """The bits of numbers, each with its width."""
    return "".join(f"{value:0{width}b}" for value, width in rows)


def bits_of(data, count=None):
    """The bits of some bytes, or the first of them."""
    if not data:
        return ""
    return f"{int.from_bytes(data, 'big'):0{8 * len(data)}b}"[: 8 * len(data) if count is None else count]


def bytes_of(bits):
    """Bits, filled up with zeros to whole bytes."""
    bits += "0" * (-len(bits) % 8)
    return int(bits or "0", 2).to_bytes(len(bits) // 8, "big")


def crc32(data):
    """The CRC-32 of some bytes, of that of ISO 3309, which reads each byte from its lowest bit on and is complemented."""
    turned = zlib.crc32(data.translate(TURNED)) ^ 0xFFFFFFFF
    return int(f"{turned:032b}"[::-1], 2)


@lru_cache(4096)
def crc32_of_bits(bits):
    """The CRC-32 of any number of bits: a shift register goes on behind the last whole byte."""
    whole = len(bits) // 8 * 8
    register = crc32(bytes_of(bits[:whole]))
    for bit in bits[whole:]:
        top = register >> 31 ^ int(bit)
        register = register << 1 & 0xFFFFFFFF
        if top:
            register ^= 0x04C11DB7
    return register


def crc8(data):
    register = 0
    for byte in data:
        register ^= byte
        for _ in range(8):
            register = (register << 1 ^ 0xD5) & 255 if register & 128 else register << 1
    return register


def scrambler(count):
    """So many bits, each the sum of the fourteenth and the fifteenth before it."""
    before = [int(bit) for bit in "000000010101001"]
    for _ in range(count):
        before.append(before[-14] ^ before[-15])
    return "".join(map(str, before[15:]))


SEQUENCE = bytes_of(scrambler(53_840))


@lru_cache(4096)
def scramble(block):
    size = len(block)
    return (int.from_bytes(block, "big") ^ int.from_bytes(SEQUENCE[:size], "big")).to_bytes(size, "big")


assert crc32(b"123456789") == crc32_of_bits(bits_of(b"123456789")) == 0x0376E6E7
assert crc8(b"123456789") == 0xBC
assert SEQUENCE[:2] == b"\x03\xf6"
