/* record BLOCKS BLOCK_BYTES BLOCK_CELLS CELLS TI_BLOCKS COUNT OUT: writes a record of one PLP COUNT times, made anew each time out of blocks
   in memory: scrambled, and the block and cell at each cell address. It is what `modulate` writes, without what it reads: the bound that
   it is timed against. */
#include "crc.h"
#include <fcntl.h>
#include <stdlib.h>
#include <unistd.h>

int main(int argc, char **argv)
{
    if (argc != 8)
        return 2;
    size_t blocks = atoi(argv[1]), bytes = atoi(argv[2]), block_cells = atoi(argv[3]), cells = atoi(argv[4]), parts = atoi(argv[5]);
    size_t len = 24 + 21 + 48 + 6 + blocks * (4 + bytes) + 4 * cells, rows = block_cells / 5;
    uint8_t *given = malloc(blocks * bytes), *mask = malloc(bytes), *record = calloc(len + 4, 1);
    int out = open(argv[7], O_WRONLY | O_CREAT | O_TRUNC, 0600);
    if (!given || !mask || !record || out < 0)
        return 72;
    /* 1 + x^14 + x^15, begun with 100101010000000 */
    for (size_t i = 0, state = 0x4A80; i < bytes; i++)
        for (int bit = 0; bit < 8; bit++) {
            unsigned next = (state >> 1 ^ state) & 1;
            state = state >> 1 | next << 14;
            mask[i] = mask[i] << 1 | next;
        }
    for (size_t i = 0; i < blocks * bytes; i++)
        given[i] = i * 2654435761u >> 13;
    for (int count = atoi(argv[6]); count > 0; count--) {
        uint8_t *at = record + 99;
        for (size_t block = 0; block < blocks; block++, at += bytes) {
            write_be32(at, bytes);
            at += 4;
            for (size_t i = 0; i < bytes; i++)
                at[i] = given[block * bytes + i] ^ mask[i];
        }
        size_t first = 0;
        for (size_t part = 0; part < parts; part++) {
            size_t some = blocks / parts + (part >= parts - blocks % parts);
            for (size_t row = 0; row < rows; row++)
                for (size_t block = first; block < first + some; block++)
                    for (size_t column = 0; column < 5; column++, at += 4)
                        write_be32(at, block << 15 | (column * rows + row));
            first += some;
        }
        memset(at, 0xFF, 4 * (cells - blocks * block_cells));
        for (size_t done = 0; done < len;) {
            ssize_t part = write(out, record + done, len - done);
            if (part <= 0)
                return 71;
            done += part;
        }
    }
    return 0;
}
