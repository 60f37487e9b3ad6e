/* gateway CONFIG OUT IN: what `gateway` does for a network of one PLP that deletes null packets and has spread 1, by hand in C. It is
   the baseline that the program is timed against: its bytes are the same. It trusts its configuration. */
#include "crc.h"
#include <fcntl.h>
#include <stdio.h>
#include <stdlib.h>
#include <unistd.h>

typedef unsigned __int128 wide;

enum { PACKET = 188, PAYLOAD = 184, HEADER = 10, BUFFER = 1 << 20 };

static struct {
    unsigned bw, subseconds_per_second, subseconds_per_tick, ticks, frames, pid, utco, sub_slices;
    uint64_t seconds, subseconds;
    unsigned network[4], l1[12];
    unsigned id, group, cod, mod, normal, rotation, blocks, il, field, rate;
} net;

static void fail(const char *what)
{
    fprintf(stderr, "gateway: %s\n", what);
    exit(2);
}

static unsigned place_of(const char *word, const char *const *words, unsigned count)
{
    for (unsigned i = 0; i < count; i++)
        if (!strcmp(word, words[i]))
            return i;
    fail(word);
    return 0;
}

static void read_config(const char *name)
{
    static const char *const bands[] = {"1.7", "5", "6", "7", "8", "10"}, *const rates[] = {"1/2", "3/5", "2/3", "3/4", "4/5", "5/6"},
                      *const mods[] = {"qpsk", "16qam", "64qam", "256qam"};
    static const unsigned a_second[] = {131000000, 40000000, 48000000, 56000000, 64000000, 80000000}, a_tick[] = {71, 7, 7, 7, 7, 7};
    static const unsigned bits[2][6] = {{7032, 9552, 10632, 11712, 12432, 13152}, {32208, 38688, 43040, 48408, 51648, 53840}};
    char line[512], a[32], b[32], c[32];
    FILE *file = fopen(name, "r");
    if (!file)
        fail(name);
    while (fgets(line, sizeof line, file)) {
        unsigned *n = net.network, *l = net.l1;
        if (sscanf(line, "bandwidth %31s", a) == 1) {
            net.bw = place_of(a, bands, 6);
            net.subseconds_per_second = a_second[net.bw];
            net.subseconds_per_tick = a_tick[net.bw];
        }
        sscanf(line, "frame %u %u", &net.ticks, &net.frames);
        sscanf(line, "start %lu %lu %u", &net.seconds, &net.subseconds, &net.utco);
        sscanf(line, "pid %u", &net.pid);
        sscanf(line, "subslices %u", &net.sub_slices);
        sscanf(line, "network %u %u %u %u", n, n + 1, n + 2, n + 3);
        sscanf(line, "l1 %u %u %u %u %u %u %u %u %u %u %u %u", l, l + 1, l + 2, l + 3, l + 4, l + 5, l + 6, l + 7, l + 8, l + 9, l + 10, l + 11);
        if (sscanf(line, "plp %u type1 %u %31s %31s %31s %u %u %u delete %u", &net.id, &net.group, a, b, c, &net.rotation, &net.blocks,
                   &net.il, &net.rate) == 9) {
            net.cod = place_of(a, rates, 6);
            net.mod = place_of(b, mods, 4);
            net.normal = !strcmp(c, "normal");
            net.field = bits[net.normal][net.cod] / 8 - HEADER;
        }
    }
    fclose(file);
    if (!net.field || !net.ticks)
        fail("the configuration has not one PLP of type 1 that deletes null packets");
}

/* ---- bits */

static uint8_t *bits_at;
static unsigned bits_used;

static void put(uint64_t value, unsigned width)
{
    while (width--) {
        bits_at[bits_used >> 3] |= (value >> width & 1) << (7 - (bits_used & 7));
        bits_used++;
    }
}

static void put_all(const uint64_t (*fields)[2], unsigned count)
{
    for (unsigned i = 0; i < count; i++)
        put(fields[i][0], fields[i][1]);
}

static void pad(void)
{
    bits_used = (bits_used + 7) & ~7u;
}

/* ---- units */

static uint8_t waiting[BUFFER], written[BUFFER + PACKET];
static size_t from, to, written_len, starts[4096];
static unsigned first_start, all_starts, continuity;
static unsigned long units;
static int out;

static void flush(void)
{
    for (size_t at = 0; at < written_len;) {
        ssize_t len = write(out, written + at, written_len - at);
        if (len <= 0)
            exit(71);
        at += len;
    }
    written_len = 0;
}

/* One unit of the bytes that wait: 184 of them, fewer behind a pointer field or at the end. */
static void put_unit(void)
{
    size_t count = to - from, start = first_start < all_starts ? starts[first_start] - from : PACKET;
    unsigned pointer = start < PAYLOAD - 1, room = start < PAYLOAD ? PAYLOAD - 1 : PAYLOAD, used = count < room ? count : room;
    unsigned stuffing = PAYLOAD - pointer - used, at = 4;
    uint8_t *unit = written + written_len;
    unit[0] = 0x47;
    unit[1] = pointer << 6 | net.pid >> 8;
    unit[2] = net.pid;
    unit[3] = (stuffing ? 0x30 : 0x10) | (continuity++ & 15);
    if (stuffing) {
        unit[4] = stuffing - 1;
        if (stuffing > 1) {
            unit[5] = 0;
            memset(unit + 6, 0xFF, stuffing - 2);
        }
        at += stuffing;
    }
    if (pointer)
        unit[at++] = start;
    memcpy(unit + at, waiting + from, used);
    from += used;
    while (first_start < all_starts && starts[first_start] < from)
        first_start++;
    written_len += PACKET;
    units++;
    if (written_len >= BUFFER)
        flush();
}

/* Where a packet of so many bytes can be built. */
static uint8_t *packet_place(size_t len)
{
    if (to + len > sizeof waiting || all_starts == 4096) {
        memmove(waiting, waiting + from, to - from);
        memmove(starts, starts + first_start, (all_starts - first_start) * sizeof *starts);
        all_starts -= first_start;
        for (unsigned i = 0; i < all_starts; i++)
            starts[i] -= from;
        first_start = 0;
        to -= from;
        from = 0;
    }
    return waiting + to;
}

/* The packet that was built there, but for its head and its CRC_32, goes on its way. */
static void send_packet(unsigned type, unsigned long frame, unsigned bits)
{
    static uint8_t count;
    size_t len = 6 + (bits + 7) / 8;
    uint8_t *packet = waiting + to;
    packet[0] = type;
    packet[1] = count++;
    packet[2] = (frame / net.frames % 16) << 4;
    packet[3] = 0;
    packet[4] = bits >> 8;
    packet[5] = bits;
    write_be32(packet + len, crc32(packet, len));
    starts[all_starts++] = to;
    to += len + 4;
    while (to - from >= PAYLOAD)
        put_unit();
}

/* ---- packets of a frame */

static void send_timestamp(unsigned long frame)
{
    wide subseconds = (wide)frame * net.ticks * net.subseconds_per_tick + net.subseconds;
    bits_at = packet_place(64) + 6;
    bits_used = 0;
    memset(bits_at, 0, 16);
    put_all((const uint64_t[][2]){{0, 4}, {net.bw, 4}, {net.seconds + (uint64_t)(subseconds / net.subseconds_per_second), 40},
            {(uint64_t)(subseconds % net.subseconds_per_second), 27}, {net.utco, 13}}, 5);
    send_packet(0x20, frame, 88);
}

static void send_signalling(unsigned long frame, unsigned count)
{
    const unsigned *n = net.network, *l = net.l1;
    bits_at = packet_place(128) + 6;
    bits_used = 0;
    memset(bits_at, 0, 100);
    put_all((const uint64_t[][2]){{frame % net.frames, 8}, {0, 8},
            {0, 8}, {l[0], 1}, {0, 3}, {l[1], 4}, {0, 1}, {l[2], 3}, {l[3], 4}, {l[4], 4}, {l[5], 2}, {l[6], 2}, {l[7], 18}, {318, 18},
            {l[8], 4}, {l[9], 8}, {n[0], 16}, {n[1], 16}, {n[2], 16}, {net.frames, 8}, {l[10], 12}, {l[11], 3}, {0, 1}, {1, 3}, {0, 3},
            {2, 4}, {0, 6}}, 27);
    put_all((const uint64_t[][2]){{191, 16}, {net.sub_slices, 15}, {1, 8}, {0, 15}, {n[3], 32}, {net.id, 8}, {1, 3}, {3, 5}, {0, 12},
            {net.group, 8}, {net.cod, 3}, {net.mod, 3}, {net.rotation, 1}, {net.normal, 2}, {net.blocks, 10}, {1, 8}, {net.il, 8},
            {0, 14}, {2, 2}, {0, 34}}, 20);
    pad();
    put_all((const uint64_t[][2]){{127, 16}, {frame % net.frames, 8}, {0, 63}, {net.id, 8}, {0, 22}, {count, 10}, {0, 16}}, 7);
    pad();
    put(0, 16);
    send_packet(0x10, frame, bits_used);
}

/* The user packets that were not sent: their bytes, and where each begins, with its slot. */
static uint8_t *user;
static size_t user_from, user_to, user_room;
static struct { size_t at; uint64_t slot; } *marks;
static size_t mark_from, mark_to;
static uint64_t slot_num, slot_den;

static void send_block(unsigned long frame, int first, unsigned len)
{
    unsigned syncd = 65535, bits = 24 + 8 * (net.field + HEADER);
    uint32_t issy = 0x800000;
    uint8_t *packet = packet_place(net.field + 64), *block = packet + 9;
    while (mark_from < mark_to && marks[mark_from].at < user_from)
        mark_from++;
    if (mark_from < mark_to && marks[mark_from].at < user_from + len) {
        syncd = (marks[mark_from].at - user_from) * 8;
        issy |= (uint64_t)((wide)marks[mark_from].slot * slot_num / slot_den) & 0x3FFFFF;
    }
    packet[6] = frame % net.frames;
    packet[7] = net.id;
    packet[8] = first ? 0x80 : 0;
    uint8_t header[HEADER] = {0xFC, 0, issy >> 16, issy >> 8, len * 8 >> 8, len * 8, issy, syncd >> 8, syncd, 0};
    header[9] = crc8(header, 9) ^ 1;
    memcpy(block, header, HEADER);
    memcpy(block + HEADER, user + user_from, len);
    memset(block + HEADER + len, 0, net.field - len);
    user_from += len;
    send_packet(0, frame, bits);
}

/* ---- the input */

static int in;
static uint8_t input[PACKET * 4096];
static size_t input_from, input_to;

static const uint8_t *next_packet(void)
{
    if (input_from == input_to) {
        ssize_t len;
        input_from = input_to = 0;
        while (input_to < sizeof input && (len = read(in, input + input_to, sizeof input - input_to)) > 0)
            input_to += len;
    }
    input_from += PACKET;
    return input + input_from - PACKET;
}

static void take(uint64_t slot, const uint8_t *packet)
{
    static unsigned deleted, nulls;
    int null = (packet[1] & 31) == 31 && packet[2] == 255;
    if (null && nulls++ % 256 != 255) {
        deleted++;
        return;
    }
    if (!null)
        nulls = 0;
    if (user_to + PACKET > user_room) {
        memmove(user, user + user_from, user_to - user_from);
        while (mark_from < mark_to && marks[mark_from].at < user_from)
            mark_from++;
        memmove(marks, marks + mark_from, (mark_to - mark_from) * sizeof *marks);
        mark_to -= mark_from;
        mark_from = 0;
        for (size_t i = 0; i < mark_to; i++)
            marks[i].at -= user_from;
        user_to -= user_from;
        user_from = 0;
    }
    marks[mark_to].at = user_to;
    marks[mark_to++].slot = slot;
    memcpy(user + user_to, packet + 1, PACKET - 1);
    user[user_to + PACKET - 1] = deleted;
    user_to += PACKET;
    deleted = 0;
}

int main(int argc, char **argv)
{
    static uint8_t null_packet[PACKET] = {0x47, 0x1F, 0xFF, 0x10};
    memset(null_packet + 4, 0xFF, PACKET - 4);
    if (argc != 4)
        fail("usage: gateway CONFIG OUT IN");
    crc_init();
    read_config(argv[1]);
    out = open(argv[2], O_WRONLY | O_CREAT | O_TRUNC, 0600);
    in = open(argv[3], O_RDONLY);
    if (in < 0 || out < 0)
        fail("a file cannot be opened");
    uint64_t packets = lseek(in, 0, SEEK_END) / PACKET;
    lseek(in, 0, SEEK_SET);
    slot_num = (uint64_t)PACKET * 8 * net.subseconds_per_second;
    slot_den = (uint64_t)net.rate * net.subseconds_per_tick;
    uint64_t end = (uint64_t)((wide)packets * slot_num / slot_den) + (slot_num + slot_den - 1) / slot_den + 1 + 3ull * net.ticks;
    uint64_t superframe = (uint64_t)net.ticks * net.frames, frames = (end + superframe - 1) / superframe * net.frames;
    size_t capacity = (size_t)net.field * net.blocks;
    user_room = 8 * capacity + (1 << 20);
    user = malloc(user_room);
    marks = malloc((user_room / PACKET + 1) * sizeof *marks);
    uint64_t slot = 0;
    for (uint64_t frame = 0; frame < frames; frame++) {
        if (frame % net.frames == 0)
            send_timestamp(frame);
        size_t ready = user_to - user_from, len = frame == 0 ? 0 : ready < capacity ? ready : capacity;
        /* What a frame carries are the bytes of the slots that are over when it begins. */
        uint64_t over = (uint64_t)((wide)frame * net.ticks * slot_den / slot_num);
        for (; slot < over; slot++)
            take(slot, slot < packets ? next_packet() : null_packet);
        ready = user_to - user_from;
        len = frame == 0 ? 0 : ready < capacity ? ready : capacity;
        send_signalling(frame, (len + net.field - 1) / net.field);
        for (int first = 1; len; first = 0) {
            unsigned part = len < net.field ? len : net.field;
            send_block(frame, first, part);
            len -= part;
        }
    }
    while (to > from)
        put_unit();
    flush();
    printf("frames=%lu units=%lu\n", frames, units);
    return 0;
}
