/* CRC-32 of T2-MI (EN 302 755 annex F: generator 04C11DB7, all ones at first, highest bit first) by eight tables, or with CLMUL by
   products without carries, 16 bytes a step; and the CRC-8 of a baseband header (generator D5, zero at first). */
#ifndef CRC_H
#define CRC_H
#include <stddef.h>
#include <stdint.h>
#include <string.h>
#ifdef CLMUL
#include <immintrin.h>
#endif

static uint32_t crc32_table[8][256];
static uint8_t crc8_table[256];

static inline void crc_init(void)
{
    for (int byte = 0; byte < 256; byte++) {
        uint32_t wide = (uint32_t)byte << 24;
        uint8_t narrow = byte;
        for (int bit = 0; bit < 8; bit++) {
            wide = wide << 1 ^ (wide >> 31 ? 0x04C11DB7u : 0);
            narrow = narrow << 1 ^ (narrow >> 7 ? 0xD5 : 0);
        }
        crc32_table[0][byte] = wide;
        crc8_table[byte] = narrow;
    }
    for (int table = 1; table < 8; table++)
        for (int byte = 0; byte < 256; byte++) {
            uint32_t before = crc32_table[table - 1][byte];
            crc32_table[table][byte] = before << 8 ^ crc32_table[0][before >> 24];
        }
}

static inline uint32_t read_be32(const uint8_t *bytes)
{
    uint32_t word;
    memcpy(&word, bytes, 4);
    return __builtin_bswap32(word);
}

static inline void write_be32(uint8_t *bytes, uint32_t value)
{
    value = __builtin_bswap32(value);
    memcpy(bytes, &value, 4);
}

static inline uint32_t crc32_on(uint32_t crc, const uint8_t *bytes, size_t len)
{
    for (; len >= 8; len -= 8, bytes += 8) {
        uint32_t a = crc ^ read_be32(bytes), b = read_be32(bytes + 4);
        crc = crc32_table[7][a >> 24] ^ crc32_table[6][a >> 16 & 255] ^ crc32_table[5][a >> 8 & 255] ^ crc32_table[4][a & 255]
            ^ crc32_table[3][b >> 24] ^ crc32_table[2][b >> 16 & 255] ^ crc32_table[1][b >> 8 & 255] ^ crc32_table[0][b & 255];
    }
    while (len--)
        crc = crc << 8 ^ crc32_table[0][crc >> 24 ^ *bytes++];
    return crc;
}

#ifdef CLMUL
/* X^n modulo the generator */
static inline uint32_t power(int n)
{
    uint32_t rest = 1;
    while (n--)
        rest = rest << 1 ^ (rest >> 31 ? 0x04C11DB7u : 0);
    return rest;
}

/* What came so far is held modulo the generator in 128 bits, and goes on by as many. */
static inline uint32_t crc32(const uint8_t *bytes, size_t len)
{
    static uint32_t high, low;
    if (len < 32)
        return crc32_on(0xFFFFFFFFu, bytes, len);
    if (!high)
        high = power(192), low = power(128);
    const __m128i turned = _mm_set_epi8(0, 1, 2, 3, 4, 5, 6, 7, 8, 9, 10, 11, 12, 13, 14, 15);
    const __m128i by = _mm_set_epi64x(high, low);
    __m128i state = _mm_shuffle_epi8(_mm_loadu_si128((const __m128i *)bytes), turned);
    state = _mm_xor_si128(state, _mm_set_epi32(-1, 0, 0, 0));
    for (bytes += 16, len -= 16; len >= 16; bytes += 16, len -= 16) {
        __m128i next = _mm_shuffle_epi8(_mm_loadu_si128((const __m128i *)bytes), turned);
        state = _mm_xor_si128(_mm_xor_si128(_mm_clmulepi64_si128(state, by, 0x11), _mm_clmulepi64_si128(state, by, 0x00)), next);
    }
    uint8_t rest[16];
    _mm_storeu_si128((__m128i *)rest, _mm_shuffle_epi8(state, turned));
    return crc32_on(crc32_on(0, rest, 16), bytes, len);
}
#else
static inline uint32_t crc32(const uint8_t *bytes, size_t len)
{
    return crc32_on(0xFFFFFFFFu, bytes, len);
}
#endif

static inline uint8_t crc8(const uint8_t *bytes, size_t len)
{
    uint8_t crc = 0;
    while (len--)
        crc = crc8_table[crc ^ *bytes++];
    return crc;
}
#endif
