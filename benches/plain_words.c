/* One word per position, in plain C. The planner goes by stretches: the word of an open position depends only on which
 * cells still have fragments left, so it is laid down for as long as none of its cells runs out. */
#include "plain.h"
#include "site.h"

/* The record's faults, then 4. */
static dugg_answer words_fault(const dugg_site *s, size_t count)
{
    dugg_answer f = fault(s);
    return f.number != 0 || count >= positions_of(s) ? f : answer(4, 0, 0, 0);
}

/* The word where these cells are in need, rising cells first, and the least that is left of one of its cells. */
static uint32_t take(uint32_t need, const uint32_t mask[CELLS], const uint32_t left[CELLS], uint32_t *run)
{
    uint32_t word = 0;
    for (; need != 0; need &= need - 1) {
        unsigned i = __builtin_ctz(need);
        if ((word & mask[i]) == 0) {
            word |= 1u << i;
            *run = left[i] < *run ? left[i] : *run;
        }
    }
    return word;
}

/* Takes so much from what is left of the word's cells; gives those that have run out. */
static uint32_t use(uint32_t word, uint32_t left[CELLS], uint32_t run)
{
    uint32_t met = 0;
    for (; word != 0; word &= word - 1) {
        unsigned i = __builtin_ctz(word);
        left[i] -= run;
        met |= (uint32_t)(left[i] == 0) << i;
    }
    return met;
}

/* Lays a word down at the next so many open positions, and 0 at the blocked ones up to there; gives the place after. */
static size_t lay(const dugg_site *s, uint32_t *words, size_t at, uint32_t word, uint32_t run)
{
    for (; run != 0; at++) {
        uint32_t open = !is_blocked(s, at);
        words[at] = word & -open;
        run -= open;
    }
    return at;
}

dugg_answer NAME(plan_words)(dugg_site site, uint32_t *words, size_t count)
{
    dugg_answer f = words_fault(&site, count);
    if (f.number != 0)
        return f;
    uint32_t mask[CELLS], left[CELLS], need = 0, room = room_of(&site);
    size_t n = positions_of(&site), at = 0;
    bool all_open = room == n;
    clash_masks(&site, mask);
    for (unsigned i = 0; i < CELLS; i++) {
        left[i] = site.loads[i];
        need |= (uint32_t)(left[i] != 0) << i;
    }
    while (room != 0) {
        uint32_t run = room, word = take(need, mask, left, &run);
        if (all_open)
            for (size_t end = at + run; at < end; at++)
                words[at] = word;
        else
            at = lay(&site, words, at, word, run);
        need &= ~use(word, left, run);
        room -= run;
    }
    memset(words + at, 0, (n - at) * sizeof words[0]);
    if (need == 0)
        return answer(0, 0, 0, 0);
    memset(words, 0, n * sizeof words[0]);
    return answer(5, __builtin_ctz(need) + 1, left[__builtin_ctz(need)], 0);
}

dugg_answer NAME(check_words)(dugg_site site, const uint32_t *words, size_t count)
{
    dugg_answer f = words_fault(&site, count);
    if (f.number != 0)
        return f;
    uint32_t mask[CELLS], held[CELLS] = {0}, cells = first_cells(site.cells);
    size_t n = positions_of(&site);
    f = stands_blocked(&site, words, cells);
    if (f.number != 0)
        return f;
    clash_masks(&site, mask);
    for (size_t p = 0; p < n; p++)
        for (uint32_t rest = words[p] & cells; rest != 0; rest &= rest - 1) {
            unsigned a = __builtin_ctz(rest);
            if (rest & mask[a])
                return answer(6, p, a + 1, __builtin_ctz(rest & mask[a]) + 1);
            held[a]++;
        }
    for (unsigned i = 0; i < site.cells; i++)
        if (held[i] != site.loads[i])
            return answer(7, i + 1, held[i], 0);
    return answer(0, 0, 0, 0);
}

/* The same for a table and its words. */
static dugg_answer form_fault(const dugg_site *s, size_t len, size_t count)
{
    dugg_answer f = words_fault(s, count);
    return f.number != 0 || len >= s->cells * positions_of(s) ? f : answer(4, 0, 0, 0);
}

/* A change of form goes row by row where there are few positions or cells, and else eight rows at a time: a plane has a
 * byte for each position, with a bit for each of eight cells. */
enum { EIGHT = 8, FEW = 64 };

/* The plane of eight rows. */
static void join(uint8_t *restrict plane, const uint8_t *restrict t, size_t n)
{
    for (size_t p = 0; p < n; p++)
        plane[p] = (t[p] == 1) | (t[n + p] == 1) << 1 | (t[2 * n + p] == 1) << 2 | (t[3 * n + p] == 1) << 3 |
                   (t[4 * n + p] == 1) << 4 | (t[5 * n + p] == 1) << 5 | (t[6 * n + p] == 1) << 6 | (t[7 * n + p] == 1) << 7;
}

/* Eight rows, of the cells from one on, into the words. */
static void gather_eight(uint32_t *restrict words, const uint8_t *restrict table, size_t n, unsigned cell)
{
    uint8_t plane[POSITIONS];
    join(plane, table + cell * n, n);
    for (size_t p = 0; p < n; p++)
        words[p] |= (uint32_t)plane[p] << cell;
}

/* More than 24 rows into the words, in one pass over them. The last eight may overlap those before. */
static void gather_most(uint32_t *restrict words, const uint8_t *restrict table, size_t n, unsigned cells)
{
    uint8_t a[POSITIONS], b[POSITIONS], c[POSITIONS], d[POSITIONS];
    join(a, table, n);
    join(b, table + 8 * n, n);
    join(c, table + 16 * n, n);
    join(d, table + (cells - 8) * n, n);
    for (size_t p = 0; p < n; p++)
        words[p] = a[p] | (uint32_t)b[p] << 8 | (uint32_t)c[p] << 16 | (uint32_t)d[p] << (cells - 8);
}

dugg_answer NAME(to_words)(dugg_site site, const uint8_t *table, size_t len, uint32_t *words, size_t count)
{
    dugg_answer f = form_fault(&site, len, count);
    if (f.number != 0)
        return f;
    size_t n = positions_of(&site);
    unsigned cells = site.cells, step = n < FEW || cells < EIGHT ? 1 : EIGHT;
    if (step == EIGHT && cells > 24) {
        gather_most(words, table, n, cells);
        return f;
    }
    memset(words, 0, n * sizeof words[0]);
    for (unsigned i = 0; i < cells; i += step)
        if (step == 1)
            gather(words, table + i * n, n, i);
        else
            gather_eight(words, table, n, i + EIGHT <= cells ? i : cells - EIGHT);
    return f;
}

/* One cell's row from the words of all positions. */
static void spread(uint8_t *restrict row, const uint32_t *restrict words, size_t n, unsigned cell)
{
    for (size_t p = 0; p < n; p++)
        row[p] = words[p] >> cell & 1;
}

/* The plane of the eight cells from one on, the row of a bit of it, and the same in its own place. */
static void part(uint8_t *restrict plane, const uint32_t *restrict words, size_t n, unsigned cell)
{
    for (size_t p = 0; p < n; p++)
        plane[p] = words[p] >> cell;
}

static void spread_bit(uint8_t *restrict row, const uint8_t *restrict plane, size_t n, unsigned bit)
{
    uint8_t mask = 1u << bit;
    for (size_t p = 0; p < n; p++)
        row[p] = (plane[p] & mask) != 0;
}

static void keep_bit(uint8_t *plane, size_t n, unsigned bit)
{
    uint8_t mask = 1u << bit;
    for (size_t p = 0; p < n; p++)
        plane[p] = (plane[p] & mask) != 0;
}

/* The rows of these cells, at most eight, from one on. Their plane is laid in the last of the rows. */
static void spread_eight(uint8_t *table, const uint32_t *words, size_t n, unsigned cell, unsigned cells)
{
    uint8_t *plane = table + (cell + cells - 1) * n;
    part(plane, words, n, cell);
    for (unsigned b = 0; b + 1 < cells; b++)
        spread_bit(table + (cell + b) * n, plane, n, b);
    keep_bit(plane, n, cells - 1);
}

dugg_answer NAME(to_bytes)(dugg_site site, const uint32_t *words, size_t count, uint8_t *table, size_t len)
{
    dugg_answer f = form_fault(&site, len, count);
    if (f.number != 0)
        return f;
    size_t n = positions_of(&site);
    unsigned cells = site.cells, step = n < FEW ? 1 : EIGHT;
    for (unsigned i = 0; i < cells; i += step)
        if (step == 1)
            spread(table + i * n, words, n, i);
        else
            spread_eight(table, words, n, i, cells - i < EIGHT ? cells - i : EIGHT);
    return f;
}
