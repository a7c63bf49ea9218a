/* tuned_bytes.h: bytes loaded, stored, cleared and moved in few instructions: pieces that overlap, and no loop. */
#ifndef TUNED_BYTES_H
#define TUNED_BYTES_H

#include <emmintrin.h>
#include <stddef.h>
#include <stdint.h>
#include <string.h>

#define INLINE static inline __attribute__((always_inline))

#define ACCESS(bits)                                                                                                             \
    INLINE uint##bits##_t ld##bits(const uint8_t *p) { uint##bits##_t v; memcpy(&v, p, sizeof v); return v; }                    \
    INLINE void st##bits(uint8_t *p, uint##bits##_t v) { memcpy(p, &v, sizeof v); }
ACCESS(16)
ACCESS(32)
ACCESS(64)

INLINE __m128i ldv(const uint8_t *p) { return _mm_loadu_si128((const __m128i *)p); }
INLINE void stv(uint8_t *p, __m128i v) { _mm_storeu_si128((__m128i *)p, v); }

/* 1 to 128 zeros: the first half and the last, which may overlap. */
INLINE void clear(uint8_t *to, size_t n)
{
#define FIRST_AND_LAST(many) (memset(to, 0, many), memset(to + n - (many), 0, many))
    if (n >= 64)
        FIRST_AND_LAST(64);
    else if (n >= 32)
        FIRST_AND_LAST(32);
    else if (n >= 16)
        FIRST_AND_LAST(16);
    else if (n >= 8)
        FIRST_AND_LAST(8);
    else if (n >= 4)
        FIRST_AND_LAST(4);
    else
        to[0] = to[n >> 1] = to[n - 1] = 0;
}

/* 1 to 14 bytes, the first and the last of them likewise. */
INLINE void copy(uint8_t *restrict to, const uint8_t *restrict from, size_t n)
{
    if (n >= 8) {
        uint64_t last = ld64(from + n - 8);
        st64(to, ld64(from));
        st64(to + n - 8, last);
    } else if (n >= 4) {
        uint32_t last = ld32(from + n - 4);
        st32(to, ld32(from));
        st32(to + n - 4, last);
    } else {
        to[0] = from[0];
        to[n >> 1] = from[n >> 1];
        to[n - 1] = from[n - 1];
    }
}

/* 1 to 4 bytes as a number, the first the lowest. */
INLINE uint32_t word_of(const uint8_t *data, size_t n)
{
    if (n == 4)
        return ld32(data);
    if (n == 1)
        return data[0];
    return data[0] | (uint32_t)data[n >> 1] << 8 * (n >> 1) | (uint32_t)data[n - 1] << 8 * (n - 1);
}

#endif
