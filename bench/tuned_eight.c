/* tuned_eight.c: the calls on the eight-channel module in few instructions, for any x86-64: fourteen bytes in one register of sixteen,
 * wrong bits of a record asked for in the two bytes that can have one, no loop, and no count where it must be 0. In place of
 * direct_eight.c; see direct.h. */
#include "direct.h"
#include "tuned_bytes.h"

enum { STATE = 98, BYTES = 14, OPERATOR_AT = 14, RECORD = 42, MASKS_IN = 14, PENDING_IN = 28 };
enum { FLAGS = 3, FLAGS_END = FLAGS + BYTES, MASKS = 102, MASKS_END = MASKS + BYTES, END = 128 };

/* ---- records */

/* Bytes 8 and 9, the only ones with bits that are no flag, and their masks: as the low and the high byte of a number. */
enum { IRREGULAR_IN = 5, NO_FLAG = 0x300f, NO_MASK = 0x310f };

INLINE unsigned wrong_bits(const uint8_t *r)
{
    return ((unsigned)(ld16(r + IRREGULAR_IN) | ld16(r + PENDING_IN + IRREGULAR_IN)) & NO_FLAG) |
           (ld16(r + MASKS_IN + IRREGULAR_IN) & NO_MASK);
}

/* The pending bits that the masks let through. `pending` has the two bytes before them first, so that sixteen end with the record. */
INLINE __m128i open_bits(const uint8_t *r, __m128i pending)
{
    return _mm_srli_si128(_mm_andnot_si128(ldv(r + MASKS_IN - 2), pending), 2);
}

/* The ones of each half byte. */
INLINE __m128i ones(__m128i v)
{
    const __m128i odd = _mm_set1_epi8(0x55), twos = _mm_set1_epi8(0x33);

    v = _mm_sub_epi8(v, _mm_and_si128(_mm_srli_epi16(v, 1), odd));
    return _mm_add_epi8(_mm_and_si128(v, twos), _mm_and_si128(_mm_srli_epi16(v, 2), twos));
}

/* The sums of the half bytes, of each eight bytes. */
INLINE __m128i sums(__m128i halves)
{
    const __m128i low = _mm_set1_epi8(0x0f);
    __m128i bytes = _mm_add_epi8(_mm_and_si128(halves, low), _mm_and_si128(_mm_srli_epi16(halves, 4), low));

    return _mm_sad_epu8(bytes, _mm_setzero_si128());
}

INLINE uint32_t let_through(const uint8_t *r)
{
    __m128i each = ones(open_bits(r, ldv(r + PENDING_IN - 2)));

    return (uint32_t)_mm_cvtsi128_si32(sums(_mm_add_epi8(each, _mm_unpackhi_epi64(each, each))));
}

/* ---- reset and sample */

uint32_t direct_dd_reset(uint8_t *state, size_t state_len)
{
    if (state_len != STATE)
        return 1;
    clear(state, STATE);
    return 0;
}

uint32_t direct_dd_sample(uint8_t *restrict state, size_t state_len, const uint8_t *restrict sample, size_t sample_len)
{
    const __m128i flags = _mm_setr_epi8(-1, -1, -1, -1, -1, (char)0xf0, (char)0xcf, -1, -1, -1, -1, -1, -1, -1, 0, 0);
    uint8_t *first = state + OPERATOR_AT, *second = first + RECORD;

    if (state_len != STATE)
        return 1;
    if (wrong_bits(first) | wrong_bits(second))
        return 3;
    if (sample_len != BYTES)
        return 8;
    __m128i low = _mm_loadl_epi64((const __m128i *)sample), high = _mm_loadl_epi64((const __m128i *)(sample + BYTES - 8));
    __m128i now = _mm_and_si128(_mm_unpacklo_epi64(low, _mm_srli_epi64(high, 16)), flags);
    __m128i onset = _mm_slli_si128(_mm_andnot_si128(ldv(state), now), 2);
    __m128i one = _mm_or_si128(ldv(first + PENDING_IN - 2), onset), other = _mm_or_si128(ldv(second + PENDING_IN - 2), onset);
    stv(first + PENDING_IN - 2, one);
    stv(second + PENDING_IN - 2, other);
    stv(first, _mm_or_si128(ldv(first), now));
    stv(second, _mm_or_si128(ldv(second), now));
    _mm_storel_epi64((__m128i *)state, now);
    _mm_storel_epi64((__m128i *)(state + BYTES - 8), _mm_srli_si128(now, BYTES - 8));
    one = ones(open_bits(first, one));
    other = ones(open_bits(second, other));
    __m128i both = sums(_mm_add_epi8(_mm_unpacklo_epi64(one, other), _mm_unpackhi_epi64(one, other)));
    return (uint32_t)_mm_cvtsi128_si32(both) << 8 | (uint32_t)_mm_extract_epi16(both, 4) << 16;
}

/* ---- read */

/* What a read and a write refuse alike: the most bytes differ. */
INLINE uint32_t run_refusal(const uint8_t *state, size_t state_len, uint64_t port, uint64_t address, uint64_t count, uint64_t most)
{
    if (state_len != STATE)
        return 1;
    if (port - 1 > 1)
        return 2;
    if (wrong_bits(state + OPERATOR_AT + RECORD * (port - 1)))
        return 3;
    if (count - 1 > most - 1)
        return 4;
    return address > END - count ? 5 : 0;
}

/* What the run from `address` to before `end` shares with the fourteen bytes at `at`. */
struct part {
    size_t first, many;
};

INLINE struct part shared(uint64_t address, uint64_t end, uint64_t at)
{
    uint64_t first = address > at ? address : at, last = end < at + BYTES ? end : at + BYTES;

    return (struct part){first - at, last - first};
}

uint32_t direct_dd_read(uint8_t *restrict state, size_t state_len, uint64_t port, uint64_t address, uint64_t count,
                        uint8_t *restrict out, size_t out_len)
{
    uint64_t end = address + count;
    uint32_t refusal = run_refusal(state, state_len, port, address, count, ZIKHRODAN_READ_MAX);

    if (refusal)
        return refusal;
    if (out_len < count)
        return 6;
    uint8_t *r = state + OPERATOR_AT + RECORD * (port - 1);
    if (address < FLAGS || end > FLAGS_END)
        clear(out, count);
    if (end > MASKS && address < MASKS_END) {
        struct part p = shared(address, end, MASKS);
        copy(out + MASKS + p.first - address, r + MASKS_IN + p.first, p.many);
    }
    if (end > FLAGS && address < FLAGS_END) {
        struct part p = shared(address, end, FLAGS);
        if (p.many == BYTES) {
            copy(out + FLAGS - address, r, BYTES);
            clear(r, BYTES);
            clear(r + PENDING_IN, BYTES);
            return 0; /* nothing is pending */
        }
        copy(out + FLAGS + p.first - address, r + p.first, p.many);
        clear(r + p.first, p.many);
        clear(r + PENDING_IN + p.first, p.many);
    }
    return let_through(r) << 8;
}

/* ---- write */

uint32_t direct_dd_write(uint8_t *restrict state, size_t state_len, uint64_t port, uint64_t address, const uint8_t *restrict data,
                         size_t data_len)
{
    /* the bits of the masks 102 to 115, and no bit behind them, where a write may end */
    static const uint8_t bits[BYTES + 3] = {0xff, 0xff, 0xff, 0xff, 0xff, 0xf0, 0xce, 0xff, 0xff, 0xff, 0xff, 0xff, 0xff, 0xff};

    uint32_t refusal = run_refusal(state, state_len, port, address, data_len, ZIKHRODAN_WRITE_MAX);

    if (refusal)
        return refusal;
    uint8_t *r = state + OPERATOR_AT + RECORD * (port - 1);
    if (port == ZIKHRODAN_RECORDER && (address < MASKS || address + data_len > MASKS_END))
        return 7;
    if (address + data_len > MASKS && address < MASKS_END) {
        uint32_t word = word_of(data, data_len), taken = UINT32_MAX >> (32 - 8 * data_len);
        if (address < MASKS) {
            word >>= 8 * (MASKS - address);
            taken >>= 8 * (MASKS - address);
            address = MASKS;
        }
        uint8_t *masks = r + MASKS_IN + address - MASKS;
        taken &= ld32(bits + address - MASKS);
        st32(masks, (ld32(masks) & ~taken) | (word & taken));
    }
    return let_through(r) << 8;
}
