/* What the plain C and the C on bit sets share: the answer, the faults of a site record, its open positions, who clashes
 * with whom, the share of a flow, and the words of a table.
 * Inside, cells are counted from 0; in answers they are numbered from 1. */
#ifndef SITE_H
#define SITE_H

#include <stdbool.h>
#include <string.h>
#include "../include/duggfrask.h"

enum { CELLS = 32, SLOTS = 128, CHANNELS = 16, POSITIONS = SLOTS * CHANNELS, BLOCK_WORDS = POSITIONS / 64 };

static inline dugg_answer answer(uint64_t number, uint64_t a, uint64_t b, uint64_t c)
{
    return (dugg_answer){number, {a, b, c}};
}

static inline size_t positions_of(const dugg_site *s)
{
    return (size_t)s->slots * s->channels;
}

/* The bits of the first n cells. */
static inline uint32_t first_cells(unsigned n)
{
    return n >= 32 ? 0xffffffffu : (1u << n) - 1;
}

static inline bool sizes_fine(unsigned cells, unsigned slots, unsigned channels)
{
    return cells - 1 < CELLS && slots - 1 < SLOTS && channels - 1 < CHANNELS;
}

static inline bool any_blocked(const dugg_site *s)
{
    uint64_t any = 0;
    for (unsigned w = 0; w < BLOCK_WORDS; w++)
        any |= s->blocked[w];
    return any != 0;
}

/* Refusal 20 for a blocked position that the site does not have, or 0. */
static inline dugg_answer blocked_past(const dugg_site *s)
{
    size_t n = positions_of(s);
    for (size_t w = n / 64; w < BLOCK_WORDS; w++) {
        uint64_t past = w == n / 64 ? s->blocked[w] & ~0ull << n % 64 : s->blocked[w];
        if (past != 0)
            return answer(20, 64 * w + __builtin_ctzll(past), 0, 0);
    }
    return answer(0, 0, 0, 0);
}

static inline dugg_answer fault(const dugg_site *s)
{
    if (!sizes_fine(s->cells, s->slots, s->channels))
        return answer(1, 0, 0, 0);
    if (s->rule != 1 && s->rule != 2)
        return answer(24, 0, 0, 0);
    for (unsigned i = s->cells; i < CELLS; i++)
        if (s->loads[i] != 0)
            return answer(2, i + 1, 0, 0);
    uint32_t used = first_cells(s->cells);
    for (unsigned i = 0; i < CELLS; i++) {
        uint32_t allowed = i < s->cells ? used & ~(1u << i) : 0;
        if (s->reach[i] & ~allowed)
            return answer(3, i + 1, 0, 0);
    }
    return any_blocked(s) ? blocked_past(s) : answer(0, 0, 0, 0);
}

/* How many positions of a sound site are open. */
static inline uint32_t room_of(const dugg_site *s)
{
    uint32_t room = positions_of(s);
    if (any_blocked(s))
        for (unsigned w = 0; w < BLOCK_WORDS; w++)
            room -= __builtin_popcountll(s->blocked[w]);
    return room;
}

static inline bool is_blocked(const dugg_site *s, size_t p)
{
    return s->blocked[p / 64] >> p % 64 & 1;
}

/* Lays one word down at every blocked position. */
static inline void at_blocked(const dugg_site *s, uint32_t *words, uint32_t word)
{
    if (!any_blocked(s))
        return;
    for (unsigned w = 0; w < BLOCK_WORDS; w++)
        for (uint64_t rest = s->blocked[w]; rest != 0; rest &= rest - 1)
            words[64 * w + __builtin_ctzll(rest)] = word;
}

/* Refusal 22 for words where one of these cells stands at a blocked position, or 0. */
static inline dugg_answer stands_blocked(const dugg_site *s, const uint32_t *words, uint32_t cells)
{
    if (!any_blocked(s))
        return answer(0, 0, 0, 0);
    for (unsigned w = 0; w < BLOCK_WORDS; w++)
        for (uint64_t rest = s->blocked[w]; rest != 0; rest &= rest - 1) {
            size_t p = 64 * w + __builtin_ctzll(rest);
            if (words[p] & cells)
                return answer(22, p, __builtin_ctz(words[p] & cells) + 1, 0);
        }
    return answer(0, 0, 0, 0);
}

/* Adds to each cell those with which it reaches a third cell. A sound site has no cell that reaches itself. */
static inline void add_thirds(const dugg_site *s, uint32_t mask[CELLS])
{
    uint32_t who[CELLS] = {0};
    for (unsigned i = 0; i < s->cells; i++)
        for (uint32_t row = s->reach[i]; row != 0; row &= row - 1)
            who[__builtin_ctz(row)] |= 1u << i;
    for (unsigned i = 0; i < s->cells; i++) {
        for (uint32_t row = s->reach[i]; row != 0; row &= row - 1)
            mask[i] |= who[__builtin_ctz(row)];
        mask[i] &= ~(1u << i);
    }
}

/* For each cell, the cells that it clashes with: either reaches the other or, under rule 2, both reach a third cell. */
static inline void clash_masks(const dugg_site *s, uint32_t mask[CELLS])
{
    memcpy(mask, s->reach, sizeof s->reach);
    for (unsigned i = 0; i < s->cells; i++)
        for (uint32_t row = s->reach[i]; row != 0; row &= row - 1)
            mask[__builtin_ctz(row)] |= 1u << i;
    if (s->rule == 2)
        add_thirds(s, mask);
}

/* What a flow needs: its share and its two bounds, or refusal 1, 15 or 16. */
static inline dugg_answer share_of(unsigned slots, unsigned burst, unsigned period, unsigned repeats)
{
    if (slots < 1 || slots > SLOTS)
        return answer(1, 0, 0, 0);
    if (burst == 0 || period == 0 || repeats < 1 || repeats > 4)
        return answer(15, 0, 0, 0);
    uint32_t work = burst * slots;
    uint32_t once = (work + period - 1) / period;
    if (repeats * once > 65535)
        return answer(16, 0, 0, 0);
    return answer(0, repeats * once, burst + once, slots + (work + once - 1) / once);
}

/* Adds one cell's reservations to the words of all positions. */
static inline void gather(uint32_t *restrict words, const uint8_t *restrict row, size_t n, unsigned cell)
{
    for (size_t p = 0; p < n; p++)
        words[p] |= (uint32_t)(row[p] == 1) << cell;
}

#endif
