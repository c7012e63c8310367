/* Mending a table, in plain C. What stands is kept as one word for each position, with a bit for each cell; where it is
 * blocked every cell counts as standing there. Nothing lent is written before the outcome is known. */
#include "plain.h"
#include "site.h"

typedef struct {
    uint32_t kept, held;
} tally;

/* Keeps the cell's reservations where no cell of the mask stands, until the load is met; counts them, and all that it
 * had. */
static tally keep(uint32_t *restrict words, const uint8_t *restrict row, size_t n, unsigned cell, uint32_t mask,
                  uint32_t load)
{
    uint32_t taken = mask | 1u << cell;
    tally t = {0, 0};
    for (size_t p = 0; p < n; p++) {
        uint32_t one = row[p] == 1;
        uint32_t stays = one & ((words[p] & taken) == 0) & (t.kept < load);
        words[p] |= stays << cell;
        t.kept += stays;
        t.held += one;
    }
    return t;
}

/* Adds the lowest positions where neither the cell nor one of the mask stands; gives what is left. */
static uint32_t add(uint32_t *words, size_t n, unsigned cell, uint32_t mask, uint32_t left)
{
    uint32_t taken = mask | 1u << cell;
    for (size_t p = 0; p < n && left != 0; p++)
        if ((words[p] & taken) == 0) {
            words[p] |= 1u << cell;
            left--;
        }
    return left;
}

/* Lists the changes of a cell and makes them in its row. */
static uint16_t *change(uint16_t *list, uint8_t *row, const uint32_t *words, size_t n, unsigned cell)
{
    for (size_t p = 0; p < n; p++) {
        unsigned was = row[p] == 1, is = words[p] >> cell & 1;
        if (was != is) {
            list[0] = cell + 1, list[1] = p, list[2] = was, list[3] = is;
            list += 4;
            row[p] = is;
        }
    }
    return list;
}

dugg_answer NAME(mend)(dugg_site site, uint8_t *table, size_t len, uint16_t *changes, size_t count)
{
    dugg_answer f = fault(&site);
    if (f.number != 0)
        return f;
    size_t n = positions_of(&site), total = 0;
    if (len < site.cells * n)
        return answer(4, 0, 0, 0);
    uint32_t mask[CELLS], words[POSITIONS], changed = 0;
    clash_masks(&site, mask);
    memset(words, 0, n * sizeof words[0]);
    at_blocked(&site, words, ~0u);
    for (unsigned i = 0; i < site.cells; i++) {
        tally t = keep(words, table + i * n, n, i, mask[i], site.loads[i]);
        uint32_t more = site.loads[i] - t.kept, left = add(words, n, i, mask[i], more);
        if (left != 0)
            return answer(5, i + 1, left, 0);
        total += t.held - t.kept + more;
        changed |= (uint32_t)(t.held - t.kept + more != 0) << i;
    }
    if (count / 4 < total)
        return answer(13, total, 0, 0);
    at_blocked(&site, words, 0);
    for (; changed != 0; changed &= changed - 1) {
        unsigned i = __builtin_ctz(changed);
        changes = change(changes, table + i * n, words, n, i);
    }
    return answer(0, total, 0, 0);
}
