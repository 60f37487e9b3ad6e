/* t2mi packets FILE | t2mi stream FILE: what `show packets` and `show t2mi` do, by hand in C: the same text. Of a stream it reads what is
   whole: a unit that is lost, or a bad packet, ends it with status 1. */
#include "crc.h"
#include <fcntl.h>
#include <stdio.h>
#include <unistd.h>

enum { UNIT = 188, LARGEST = 8202 };

static unsigned long long packets;
static char text[1 << 16];
static size_t text_len;

static void say(void)
{
    for (size_t at = 0; at < text_len;) {
        ssize_t len = write(1, text + at, text_len - at);
        if (len <= 0)
            _exit(71);
        at += len;
    }
    text_len = 0;
}

static void word(const char *name, unsigned long long value)
{
    char digits[24];
    int count = 0;
    while (*name)
        text[text_len++] = *name++;
    do
        digits[count++] = '0' + value % 10;
    while (value /= 10);
    while (count)
        text[text_len++] = digits[--count];
}

static void hex(uint8_t byte)
{
    text[text_len++] = "0123456789abcdef"[byte >> 4];
    text[text_len++] = "0123456789abcdef"[byte & 15];
}

/* The line of a packet; 0 if its CRC_32 is another, or bits behind its payload are not zero. */
static int show(const char *name, unsigned long long place, const uint8_t *packet, size_t len)
{
    unsigned bits = packet[4] << 8 | packet[5], pad = -bits & 7, bytes = (bits + 7) / 8;
    if (crc32(packet, len - 4) != read_be32(packet + len - 4) || (pad && packet[len - 5] & ((1 << pad) - 1)))
        return 0;
    if (text_len > sizeof text - 256)
        say();
    word(name, place);
    memcpy(text + text_len, " type=", 6);
    text_len += 6;
    hex(packet[0]);
    word(" count=", packet[1]);
    word(" superframe=", packet[2] >> 4);
    word(" stream=", packet[3] & 7);
    word(" bits=", bits);
    memcpy(text + text_len, " head=", 6);
    text_len += 6;
    for (unsigned i = 0; i < bytes && i < 8; i++)
        hex(packet[6 + i]);
    text[text_len++] = '\n';
    packets++;
    return 1;
}

static size_t len_of(const uint8_t *packet)
{
    return 10 + ((packet[4] << 8 | packet[5]) + 7) / 8;
}

static int show_packets(int file)
{
    static uint8_t buffer[1 << 16];
    size_t from = 0, to = 0;
    unsigned long long place = 0;
    for (;;) {
        size_t len = to - from < 6 ? 6 : len_of(buffer + from);
        if (to - from < len) {
            memmove(buffer, buffer + from, to - from);
            to -= from;
            from = 0;
            ssize_t more = read(file, buffer + to, sizeof buffer - to);
            if (more <= 0)
                return more == 0 && to == 0;
            to += more;
            continue;
        }
        if (!show("offset=", place, buffer + from, len))
            return 0;
        from += len;
        place += len;
    }
}

/* Bytes of payload that stand at a place of the file. */
static int take(const uint8_t *bytes, size_t count, unsigned long long at)
{
    static uint8_t packet[LARGEST];
    static size_t filled;
    static unsigned long long place;
    while (count) {
        size_t len = filled < 6 ? 6 : len_of(packet), part = len - filled < count ? len - filled : count;
        if (filled == 0)
            place = at;
        memcpy(packet + filled, bytes, part);
        filled += part;
        bytes += part;
        at += part;
        count -= part;
        if (filled >= 6 && filled == len_of(packet)) {
            if (!show("place=", place, packet, filled))
                return 0;
            filled = 0;
        }
    }
    return 1;
}

static int show_stream(int file)
{
    static uint8_t buffer[UNIT * 1024];
    size_t to = 0;
    ssize_t more;
    int pid = -1, counter = -1, begun = 0;
    unsigned long long place = 0;
    while ((more = read(file, buffer + to, sizeof buffer - to)) > 0) {
        size_t at = 0;
        for (to += more; at + UNIT <= to; at += UNIT, place += UNIT) {
            const uint8_t *unit = buffer + at;
            unsigned head = 4, of = (unit[1] & 31) << 8 | unit[2];
            if (unit[0] != 0x47 || unit[1] & 0x80 || unit[3] & 0xC0 || !(unit[3] & 0x10) || of == 0x1FFF)
                continue;
            if (pid < 0)
                pid = of;
            if ((int)of != pid)
                continue;
            if (counter >= 0 && (unit[3] & 15) != ((counter + 1) & 15))
                return 0;
            counter = unit[3] & 15;
            if (unit[3] & 0x20)
                head += 1 + unit[4];
            if (unit[1] & 0x40) {
                unsigned pointer = unit[head++];
                if (!begun)
                    head += pointer;
                begun = 1;
            }
            if (begun && !take(unit + head, UNIT - head, place + head))
                return 0;
        }
        memmove(buffer, buffer + at, to - at);
        to -= at;
    }
    return more == 0;
}

int main(int argc, char **argv)
{
    int file = argc == 3 ? open(argv[2], O_RDONLY) : -1;
    if (file < 0)
        return 2;
    crc_init();
    if (!(strcmp(argv[1], "packets") ? show_stream(file) : show_packets(file)))
        return 1;
    word("packets=", packets);
    text[text_len++] = '\n';
    say();
    return 0;
}
