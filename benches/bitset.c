/* The planner and the checker of document 01 in C on bit sets, as the harder yardstick: each cell has a set of its
 * reserved positions. */
#include "bitset.h"

/* ---- planner ---- */

dugg_answer bits_plan(dugg_site site, uint8_t *table, size_t len)
{
    dugg_answer f = fault(&site);
    if (f.number != 0)
        return f;
    size_t n = positions_of(&site), blocks = blocks_of(n);
    if (len < site.cells * n)
        return answer(4, 0, 0, 0);
    uint32_t mask[CELLS];
    set reserved[CELLS], forbidden, shut;
    bool all_open = shut_set(&shut, &site, blocks);
    clash_masks(&site, mask);
    for (unsigned i = 0; i < site.cells; i++) {
        memset(&forbidden, 0, blocks * sizeof(block));
        unite(&forbidden, reserved, mask[i] & first_cells(i), blocks);
        size_t last;
        unsigned left = fill(&reserved[i], &last, &forbidden, &shut, blocks, site.loads[i]);
        if (left != 0) {
            memset(table, 0, site.cells * n);
            return answer(5, i + 1, left, 0);
        }
        unpack_row(table + i * n, &forbidden, &reserved[i], last, n, all_open);
    }
    return answer(0, 0, 0, 0);
}

/* ---- checker ---- */

static void pack_row(set *s, const uint8_t *row, size_t n)
{
    size_t whole = n / BLOCK, rest = n % BLOCK;
    for (size_t k = 0; k < whole; k++)
        s->blocks[k] = pack(row + BLOCK * k);
    if (rest != 0) {
        uint8_t bytes[BLOCK] = {0};
        memcpy(bytes, row + BLOCK * whole, rest);
        s->blocks[whole] = pack(bytes);
    }
}

static unsigned count(const set *s, size_t blocks)
{
    unsigned many = 0;
    for (size_t k = 0; k < blocks; k++)
        many += ones(s->blocks[k].half[0]) + ones(s->blocks[k].half[1]);
    return many;
}

/* The lowest position of a set that is not empty. */
static size_t first_position(const set *s)
{
    size_t at = 0;
    while ((s->blocks[at].half[0] | s->blocks[at].half[1]) == 0)
        at++;
    for (unsigned k = 0;; k++)
        for (unsigned h = 0; h < 2; h++) {
            uint64_t here = s->blocks[at].half[h] >> k & EIGHT;
            if (here != 0)
                return BLOCK * at + LINE * k + 8 * h + __builtin_ctzll(here) / 8;
        }
}

/* Refusal 6 at a position where two clashing cells transmit. */
static dugg_answer name_pair(const dugg_site *s, const uint32_t mask[CELLS], const uint8_t *table, size_t position)
{
    uint32_t here = 0;
    for (unsigned i = 0; i < s->cells; i++)
        here |= (uint32_t)(table[i * positions_of(s) + position] == 1) << i;
    unsigned first = 0;
    while ((here >> first & 1) == 0 || (here & mask[first]) == 0)
        first++;
    return answer(6, position, first + 1, __builtin_ctz(here & mask[first]) + 1);
}

/* Refusal 22, or 0: the lowest blocked position where a cell transmits, and the lowest cell there. */
static dugg_answer none_blocked(const dugg_site *s, const set reserved[CELLS], const uint8_t *table, size_t blocks)
{
    set shut = blocked_set(s, blocks), sends = {0};
    uint64_t any = 0;
    unite(&sends, reserved, first_cells(s->cells), blocks);
    for (size_t k = 0; k < blocks; k++)
        for (unsigned h = 0; h < 2; h++)
            any |= sends.blocks[k].half[h] &= shut.blocks[k].half[h];
    if (any == 0)
        return answer(0, 0, 0, 0);
    size_t position = first_position(&sends), cell = 0;
    while (table[cell * positions_of(s) + position] != 1)
        cell++;
    return answer(22, position, cell + 1, 0);
}

dugg_answer bits_check(dugg_site site, const uint8_t *table, size_t len)
{
    dugg_answer f = fault(&site);
    if (f.number != 0)
        return f;
    size_t n = positions_of(&site), blocks = blocks_of(n);
    if (len < site.cells * n)
        return answer(4, 0, 0, 0);
    uint32_t mask[CELLS];
    set reserved[CELLS], clashes = {0};
    uint64_t any = 0;
    clash_masks(&site, mask);
    for (unsigned i = 0; i < site.cells; i++) {
        pack_row(&reserved[i], table + i * n, n);
        set earlier = {0};
        unite(&earlier, reserved, mask[i] & first_cells(i), blocks);
        for (size_t k = 0; k < blocks; k++)
            for (unsigned h = 0; h < 2; h++)
                any |= clashes.blocks[k].half[h] |= earlier.blocks[k].half[h] & reserved[i].blocks[k].half[h];
    }
    if (any_blocked(&site)) {
        f = none_blocked(&site, reserved, table, blocks);
        if (f.number != 0)
            return f;
    }
    if (any != 0)
        return name_pair(&site, mask, table, first_position(&clashes));
    for (unsigned i = 0; i < site.cells; i++) {
        unsigned many = count(&reserved[i], blocks);
        if (many != site.loads[i])
            return answer(7, i + 1, many, 0);
    }
    return answer(0, 0, 0, 0);
}
