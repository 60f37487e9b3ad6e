/* packets BYTES OUT: transport packets of one PID, none of them null, with payloads out of a fixed shift register. */
#include <stdint.h>
#include <stdio.h>
#include <stdlib.h>
#include <string.h>

int main(int argc, char **argv)
{
    static uint8_t packet[188];
    uint64_t state = 88172645463325252u;
    FILE *out = argc == 3 ? fopen(argv[2], "wb") : 0;
    if (!out)
        return 2;
    for (long count = atol(argv[1]) / 188, at = 0; at < count; at++) {
        packet[0] = 0x47;
        packet[1] = 0x01;
        packet[3] = 0x10 | (at & 15);
        for (int i = 4; i < 188; i += 8) {
            state ^= state << 13;
            state ^= state >> 7;
            state ^= state << 17;
            memcpy(packet + i, &state, 8);
        }
        if (fwrite(packet, sizeof packet, 1, out) != 1)
            return 71;
    }
    return fclose(out) != 0;
}
