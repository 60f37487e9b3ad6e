"""The chain of a PLP: null packets are deleted, user packets queue, and blocks are cut (EN 302 755, clause 5.1)."""

from bisect import bisect_left

from . import ts
from .bits import crc8


def kept(chain, packets, count):
    """Of so many slots those whose packets are kept, each with its dnp."""
    nulls, deleted = 0, 0
    for slot in range(count):
        packet = packets[slot] if slot < len(packets) else ts.NULL
        # `nulls` null packets stand directly before.
        if not chain.delete or not ts.is_null(packet) or nulls % 256 == 255:
            yield slot, packet, deleted
            deleted = 0
        else:
            deleted += 1
        nulls = nulls + 1 if ts.is_null(packet) else 0


class Queue:
    """The user packets of an input in one string, and the blocks of its interleaving frames up to the last."""

    def __init__(self, chain, packets, last):
        self.chain, self.slots, ups = chain, [], []
        for slot, packet, dnp in kept(chain, packets, chain.over(last * chain.epoch)):
            self.slots.append(slot)
            ups.append(packet[1:] + (bytes([dnp]) if chain.delete else b""))
        self.string = b"".join(ups)
        # What arrived by the beginning of each interleaving frame, and what is sent up to its end.
        self.arrived = [chain.up_bytes * bisect_left(self.slots, chain.over(m * chain.epoch)) for m in range(last + 1)]
        self.sent = [
            min(self.arrived[i] + (m - i) * chain.capacity for i in range(m + 1)) for m in range(last + 1)
        ]

    def blocks(self, m):
        """The blocks of interleaving frame m, not scrambled."""
        chain, x, end = self.chain, self.sent[m - 1] if m else 0, self.sent[m]
        blocks = []
        while x < end:
            y = min(x + chain.field, end)
            blocks.append(self.block(x, y))
            x = y
        return blocks

    def block(self, x, y):
        chain, plan = self.chain, self.chain.plan
        first = -(-x // chain.up_bytes)
        issy, syncd = 0x800000, 65_535
        if first * chain.up_bytes < y:
            issy += chain.start(self.slots[first]) % 2**22
            syncd = 8 * (first * chain.up_bytes - x)
        single = len(plan.chains) == 1
        same = len({(other.cod, other.mod, other.bits) for other in plan.chains}) == 1
        header = bytes([0xC8 + 32 * single + 16 * same + 4 * chain.delete, 0 if single else chain.id])
        header += (issy >> 8).to_bytes(2, "big") + (8 * (y - x)).to_bytes(2, "big")
        header += bytes([issy & 255]) + syncd.to_bytes(2, "big")
        block = header + bytes([crc8(header) ^ 1]) + self.string[x:y]
        return block + bytes(chain.bits // 8 - len(block))


class Block:
    """What a block tells that is read, not scrambled."""

    def __init__(self, block):
        self.matype = block[0]
        self.issy = int.from_bytes(block[2:4] + block[6:7], "big")
        self.dfl = int.from_bytes(block[4:6], "big")
        self.syncd = int.from_bytes(block[7:9], "big")
        self.field = block[10 : 10 + self.dfl // 8]


def read_block(block):
    """What a block tells, or nothing if it is none."""
    if crc8(block[:9]) ^ 1 != block[9]:
        return None
    view = Block(block)
    if view.dfl % 8 or view.dfl > 8 * len(block) - 80:
        return None
    if view.syncd != 65_535 and (view.syncd % 8 or view.syncd >= view.dfl):
        return None
    return view
