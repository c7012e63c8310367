/* Mending a table in C on bit sets, as the harder yardstick: a row is packed into words of 64 positions; what may be
 * kept is what the cell had where no earlier clashing cell stands; the first of those are taken by counting bits, a word
 * at a time; what changes is what it had, xor what stands, and a change is found by the lowest bit that is set. Only the
 * packing and the changes themselves go position by position. Nothing lent is written before the outcome is known. */
#include "plain.h"
#include "site.h"
#if defined __SSE2__
#include <emmintrin.h>
#elif defined __aarch64__
#include <arm_neon.h>
#endif

typedef struct { uint64_t words[BLOCK_WORDS]; } set;

static inline unsigned ones(uint64_t x)
{
    x -= x >> 1 & 0x5555555555555555;
    x = (x & 0x3333333333333333) + (x >> 2 & 0x3333333333333333);
    x = (x + (x >> 4)) & 0x0f0f0f0f0f0f0f0f;
    return x * 0x0101010101010101 >> 56;
}

/* The positions of 64 table bytes that are 1. */
static inline uint64_t pack_word(const uint8_t *bytes)
{
    uint64_t word = 0;
#if defined __SSE2__
    for (unsigned q = 0; q < 4; q++) {
        __m128i line = _mm_loadu_si128((const __m128i *)(bytes + 16 * q));
        word |= (uint64_t)(uint32_t)_mm_movemask_epi8(_mm_cmpeq_epi8(line, _mm_set1_epi8(1))) << 16 * q;
    }
#elif defined __aarch64__
    const uint8x16_t bits = vreinterpretq_u8_u64(vdupq_n_u64(0x8040201008040201));
    uint8x16_t line[4];
    for (unsigned q = 0; q < 4; q++)
        line[q] = vandq_u8(vceqq_u8(vld1q_u8(bytes + 16 * q), vdupq_n_u8(1)), bits);
    uint8x16_t sum = vpaddq_u8(vpaddq_u8(line[0], line[1]), vpaddq_u8(line[2], line[3]));
    word = vgetq_lane_u64(vreinterpretq_u64_u8(vpaddq_u8(sum, sum)), 0);
#else
    for (unsigned q = 0; q < 8; q++) {
        uint64_t byte = 0;
        for (unsigned b = 0; b < 8; b++)
            byte |= (uint64_t)(bytes[8 * q + b] == 1) << b;
        word |= byte << 8 * q;
    }
#endif
    return word;
}

static void pack_row(uint64_t *set, const uint8_t *row, size_t n)
{
    size_t whole = n / 64;
    for (size_t j = 0; j < whole; j++)
        set[j] = pack_word(row + 64 * j);
    if (n % 64 != 0) {
        uint64_t word = 0;
        for (size_t b = 0; b < n % 64; b++)
            word |= (uint64_t)(row[64 * whole + b] == 1) << b;
        set[whole] = word;
    }
}

/* Leaves the first of a set's positions, so many; gives how many it lacks. */
static unsigned take(uint64_t *set, size_t words, unsigned many)
{
    for (size_t j = 0; j < words; j++) {
        unsigned here = ones(set[j]);
        if (here <= many) {
            many -= here;
            continue;
        }
        uint64_t rest = set[j];
        for (; many != 0; many--)
            rest &= rest - 1;
        set[j] &= ~rest;
    }
    return many;
}

/* The open positions. */
static void open_set(uint64_t *open, const dugg_site *s, size_t words)
{
    size_t n = positions_of(s);
    for (size_t j = 0; j < words; j++)
        open[j] = (n - 64 * j < 64 ? (1ull << (n - 64 * j)) - 1 : ~0ull) & ~s->blocked[j];
}

/* The changes of a cell, listed, and made in its row. */
static uint16_t *change(uint16_t *list, uint8_t *row, const uint64_t *stands, const uint64_t *old, size_t words,
                        unsigned cell)
{
    for (size_t j = 0; j < words; j++)
        for (uint64_t rest = stands[j] ^ old[j]; rest != 0; rest &= rest - 1) {
            unsigned b = __builtin_ctzll(rest), is = stands[j] >> b & 1;
            list[0] = cell + 1, list[1] = 64 * j + b, list[2] = !is, list[3] = is;
            list += 4;
            row[64 * j + b] = is;
        }
    return list;
}

dugg_answer bits_mend(dugg_site site, uint8_t *table, size_t len, uint16_t *changes, size_t count)
{
    dugg_answer f = fault(&site);
    if (f.number != 0)
        return f;
    size_t n = positions_of(&site), words = (n + 63) / 64, total = 0;
    if (len < site.cells * n)
        return answer(4, 0, 0, 0);
    uint32_t mask[CELLS], changed = 0;
    set open, stands[CELLS], old[CELLS];
    clash_masks(&site, mask);
    open_set(open.words, &site, words);
    for (unsigned i = 0; i < site.cells; i++) {
        uint64_t free[BLOCK_WORDS], *here = stands[i].words, *had = old[i].words;
        pack_row(had, table + i * n, n);
        memcpy(free, open.words, words * sizeof free[0]);
        for (uint32_t cells = mask[i] & first_cells(i); cells != 0; cells &= cells - 1) {
            const uint64_t *other = stands[__builtin_ctz(cells)].words;
            for (size_t j = 0; j < words; j++)
                free[j] &= ~other[j];
        }
        for (size_t j = 0; j < words; j++)
            here[j] = free[j] & had[j];
        unsigned left = take(here, words, site.loads[i]);
        if (left != 0) {
            for (size_t j = 0; j < words; j++)
                free[j] &= ~here[j];
            left = take(free, words, left);
            if (left != 0)
                return answer(5, i + 1, left, 0);
            for (size_t j = 0; j < words; j++)
                here[j] |= free[j];
        }
        size_t many = 0;
        for (size_t j = 0; j < words; j++)
            many += ones(here[j] ^ had[j]);
        total += many;
        changed |= (uint32_t)(many != 0) << i;
    }
    if (count / 4 < total)
        return answer(13, total, 0, 0);
    for (; changed != 0; changed &= changed - 1) {
        unsigned i = __builtin_ctz(changed);
        changes = change(changes, table + i * n, stands[i].words, old[i].words, words, i);
    }
    return answer(0, total, 0, 0);
}
