#!/usr/bin/env python3
"""The cells of a T2 frame, by EN 302 755, clauses 6.5 and 8, from the rules alone: matrices are filled and read, and sub-slices are listed.

usage: cells.py [-f FRAME_IDX] CELLS SUB_SLICES TYPE:CELLS:BLOCKS:TI_BLOCKS[:FRAMES].. < SHAPES

The network has frames of so many cells, and PLPs of a type (0 common, 1 or 2), of so many cells a block, of so many blocks at most, of
a number of TI-blocks (0: no interleaver), and of so many frames that carry an interleaving frame, 1 where none is told. A line of SHAPES
has the number of blocks of each PLP, then the start of each, then the sub-slice interval; the frame is the first of its superframe, or
that of FRAME_IDX. For each line it prints the PLP that does not fit, or the two PLPs that share an address, or a digest of all cells: from 0 on, for
each address, 31 times the digest before, plus 0 for a dummy cell, or else plus 1, the number of the cell in its block, and 65,536 times the
number of the block in the frame, modulo 2^64. `share/reference/formats.py` asks it.
"""

import sys


def interleaved(blocks, cells, ti_blocks):
    """Block and cell, in the order in which the cells of the blocks of a PLP leave the time interleaver."""
    if ti_blocks == 0:
        return [(block, cell) for block in range(blocks) for cell in range(cells)]
    least, larger = divmod(blocks, ti_blocks)
    order, first = [], 0
    for ti_block in range(ti_blocks):
        size = least + (ti_block >= ti_blocks - larger)
        rows = cells // 5
        columns = [
            [(first + block, column * rows + row) for row in range(rows)]
            for block in range(size)
            for column in range(5)
        ]
        order += [column[row] for row in range(rows) for column in columns]
        first += size
    return order


def carried(plp, blocks, frame_idx):
    """Those that a frame carries: each of its frames carries as many."""
    order = interleaved(blocks, plp[1], plp[3])
    share = len(order) // plp[4]
    first = frame_idx % plp[4] * share
    return order[first : first + share]


def addresses(plp, sub_slices, count, start, interval):
    """The address of each cell of a PLP in a frame that has so many, in their order."""
    if plp[0] != 2:
        return [start + place for place in range(count)]
    size = count // sub_slices
    return [start + place // size * interval + place % size for place in range(count)]


def judge(frame_cells, sub_slices, frame_idx, plps, shape):
    """What is printed of a shape."""
    counts, starts, interval = shape[: len(plps)], shape[len(plps) : -1], shape[-1]
    cells, placed = [], []
    for number, (plp, blocks, start) in enumerate(zip(plps, counts, starts)):
        if blocks > plp[2]:
            return f"PLP {number} does not fit"
        cells.append(carried(plp, blocks, frame_idx))
        placed.append(addresses(plp, sub_slices, len(cells[-1]), start, interval))
        if any(address >= frame_cells for address in placed[-1]):
            return f"PLP {number} does not fit"
    for first in range(len(plps)):
        if len(set(placed[first])) < len(placed[first]):
            return f"PLPs {first} and {first} share an address"
        for second in range(first + 1, len(plps)):
            if set(placed[first]) & set(placed[second]):
                return f"PLPs {first} and {second} share an address"
    values = [0] * frame_cells
    before = 0
    for blocks, own, places in zip(counts, cells, placed):
        for (block, cell), address in zip(own, places):
            values[address] = 1 + 65_536 * (before + block) + cell
        before += blocks
    digest = 0
    for value in values:
        digest = (31 * digest + value) % 2**64
    return f"{digest:_}"


def main(words):
    frame_idx = 0
    if words[0] == "-f":
        frame_idx, words = int(words[1]), words[2:]
    frame_cells, sub_slices = int(words[0]), int(words[1])
    plps = [tuple(int(number) for number in (word + ":1").split(":")[:5]) for word in words[2:]]
    for line in sys.stdin:
        shape = [int(number) for number in line.replace(",", " ").split()]
        if len(shape) != 2 * len(plps) + 1:
            sys.exit(f"cells.py: {line.strip()}: {2 * len(plps) + 1} numbers are wanted")
        print(judge(frame_cells, sub_slices, frame_idx, plps, shape))


if __name__ == "__main__":
    if len(sys.argv) < 4:
        sys.exit(__doc__)
    main(sys.argv[1:])
