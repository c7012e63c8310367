/* Sets of positions for C on bit sets: unions, intersections and counts work on 64 positions at a time, and only the bytes
 * of the table are as the interface has them.
 *
 * A set holds the positions in blocks of 128, in order. A block is 16 bytes, and bit k of byte b is its position
 * 16k + b. So 16 neighbouring bytes of the table are one bit of 16 neighbouring bytes of the set: packing and unpacking
 * need no shuffle, and the compiler makes vector code of both. */
#ifndef BITSET_H
#define BITSET_H

#include "plain.h"
#include "site.h"

#if __BYTE_ORDER__ != __ORDER_LITTLE_ENDIAN__
#error "byte 0 of a word is taken to be its lowest"
#endif

enum { LINE = 16, LINES = 8, BLOCK = LINE * LINES, BLOCKS = POSITIONS / BLOCK };

typedef struct { uint64_t half[2]; } block;
typedef struct { block blocks[BLOCKS]; } set;

/* One bit of each byte of a word: eight neighbouring positions, the lowest in the lowest byte. */
static const uint64_t EIGHT = 0x0101010101010101;

static inline unsigned ones(uint64_t x)
{
    x -= x >> 1 & 0x5555555555555555;
    x = (x & 0x3333333333333333) + (x >> 2 & 0x3333333333333333);
    x = (x + (x >> 4)) & 0x0f0f0f0f0f0f0f0f;
    return x * EIGHT >> 56;
}

static inline size_t blocks_of(size_t n)
{
    return (n + BLOCK - 1) / BLOCK;
}

/* ---- bytes to bits, bits to bytes ---- */

/* The positions of 128 table bytes that are 1. */
static inline block pack(const uint8_t *restrict bytes)
{
    uint8_t bits[LINE];
    for (unsigned b = 0; b < LINE; b++) {
        const uint8_t *at = bytes + b;
#define BIT(k) (at[LINE * k] == 1 ? 1 << k : 0)
        bits[b] = BIT(0) | BIT(1) | BIT(2) | BIT(3) | BIT(4) | BIT(5) | BIT(6) | BIT(7);
#undef BIT
    }
    block packed;
    memcpy(&packed, bits, sizeof packed);
    return packed;
}

/* The 128 table bytes of a block: 2 where forbidden, 1 where reserved, 0 elsewhere. */
static inline void unpack(uint8_t *restrict bytes, const block *forbidden, const block *reserved)
{
    for (unsigned k = 0; k < LINES; k++)
        for (unsigned h = 0; h < 2; h++) {
            uint64_t eight = (forbidden->half[h] >> k & EIGHT) << 1 | (reserved->half[h] >> k & EIGHT);
            memcpy(bytes + LINE * k + 8 * h, &eight, 8);
        }
}

/* The same for a block in which every position that is not forbidden has one mark, 1 or 0. */
static inline void unpack_marked(uint8_t *restrict bytes, const block *forbidden, unsigned mark)
{
    for (unsigned k = 0; k < LINES; k++)
        for (unsigned h = 0; h < 2; h++) {
            uint64_t eight = ((forbidden->half[h] >> k & EIGHT) << (1 - mark)) + mark * EIGHT;
            memcpy(bytes + LINE * k + 8 * h, &eight, 8);
        }
}

/* "last" is the block where the filling stopped: before it nothing is idle but what is blocked, after it nothing is
 * reserved. */
static inline void unpack_row(uint8_t *row, const set *forbidden, const set *reserved, size_t last, size_t n, bool all_open)
{
    size_t whole = n / BLOCK, rest = n % BLOCK;
    for (size_t k = 0; k < whole; k++)
        if (k < last && all_open)
            unpack_marked(row + BLOCK * k, &forbidden->blocks[k], 1);
        else if (k > last)
            unpack_marked(row + BLOCK * k, &forbidden->blocks[k], 0);
        else
            unpack(row + BLOCK * k, &forbidden->blocks[k], &reserved->blocks[k]);
    if (rest != 0) {
        uint8_t bytes[BLOCK];
        unpack(bytes, &forbidden->blocks[whole], &reserved->blocks[whole]);
        memcpy(row + BLOCK * whole, bytes, rest);
    }
}

/* ---- sets ---- */

/* Adds to a set those of the cells in the mask. */
static inline void unite(set *restrict sum, const set *sets, uint32_t cells, size_t blocks)
{
    for (; cells != 0; cells &= cells - 1) {
        const set *other = &sets[__builtin_ctz(cells)];
        for (size_t k = 0; k < blocks; k++) {
            sum->blocks[k].half[0] |= other->blocks[k].half[0];
            sum->blocks[k].half[1] |= other->blocks[k].half[1];
        }
    }
}

/* The positions of the last block that the site does not have: no cell may take them. */
static inline set beyond(size_t n)
{
    set s = {0};
    if (n % BLOCK != 0) {
        uint8_t bytes[BLOCK];
        memset(bytes, 1, BLOCK);
        memset(bytes, 0, n % BLOCK);
        s.blocks[n / BLOCK] = pack(bytes);
    }
    return s;
}

/* The blocked positions. */
static inline set blocked_set(const dugg_site *s, size_t blocks)
{
    set shut;
    for (size_t k = 0; k < blocks; k++) {
        uint8_t bytes[BLOCK];
        for (size_t b = 0; b < BLOCK; b++)
            bytes[b] = is_blocked(s, BLOCK * k + b);
        shut.blocks[k] = pack(bytes);
    }
    return shut;
}

/* The lowest positions of a block, as many as asked for; there are more. */
static inline block lowest(block idle, unsigned many)
{
    block taken = {{0, 0}};
    for (unsigned k = 0; many != 0; k++)
        for (unsigned h = 0; h < 2; h++) {
            uint64_t here = idle.half[h] >> k & EIGHT, left = here;
            for (; many != 0 && left != 0; many--)
                left &= left - 1;
            taken.half[h] |= (here ^ left) << k;
        }
    return taken;
}

/* Reserves the lowest positions that are neither forbidden nor shut until the load is met; gives what is left of it, and
 * the block where it stopped. */
static inline unsigned fill(set *restrict reserved, size_t *last, const set *restrict forbidden, const set *restrict shut,
                     size_t blocks, unsigned load)
{
    size_t k = 0;
    for (bool met = false; k < blocks && !met; k++) {
        block idle = {{~(forbidden->blocks[k].half[0] | shut->blocks[k].half[0]),
                       ~(forbidden->blocks[k].half[1] | shut->blocks[k].half[1])}};
        unsigned many = ones(idle.half[0]) + ones(idle.half[1]);
        met = many > load;
        reserved->blocks[k] = met ? lowest(idle, load) : idle;
        load -= met ? load : many;
    }
    memset(reserved->blocks + k, 0, (blocks - k) * sizeof(block));
    *last = k - 1;
    return load;
}

/* The positions that no cell may take: those beyond the site's, and the blocked ones. Gives whether none is blocked. */
static inline bool shut_set(set *shut, const dugg_site *s, size_t blocks)
{
    *shut = beyond(positions_of(s));
    if (!any_blocked(s))
        return true;
    set blocked = blocked_set(s, blocks);
    unite(shut, &blocked, 1, blocks);
    return false;
}

#endif
