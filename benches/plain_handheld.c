/* One load changes on the handheld, in plain C: a word for each position has the cells of the rows so far; from it the next
 * row is made, and held to the table or laid into it. */
#include "plain.h"
#include "site.h"

/* The greedy row of a cell: forbidden where a cell of "near" stands, reserved at the first open positions that are left.
 * Gives what is left of the load. */
static unsigned make_row(const dugg_site *s, uint8_t *restrict row, const uint32_t *restrict words, uint32_t near, unsigned load)
{
    size_t n = positions_of(s);
    for (size_t p = 0; p < n; p++)
        row[p] = words[p] & near ? 2 : 0;
    bool all_open = !any_blocked(s);
    for (size_t p = 0; p < n && load != 0; p++)
        if (row[p] == 0 && (all_open || !is_blocked(s, p))) {
            row[p] = 1;
            load--;
        }
    return load;
}

/* Is the table the greedy plan of the site? If so the words have all its rows. */
static bool is_plan(const dugg_site *s, const uint32_t mask[CELLS], const uint8_t *table, uint32_t *words)
{
    size_t n = positions_of(s);
    uint8_t row[POSITIONS];
    for (unsigned i = 0; i < s->cells; i++) {
        if (make_row(s, row, words, mask[i], s->loads[i]) != 0 || memcmp(row, table + i * n, n) != 0)
            return false;
        gather(words, row, n, i);
    }
    return true;
}

dugg_answer NAME(change_load)(dugg_site *site, uint16_t cell, uint16_t load, uint8_t *table, size_t len)
{
    dugg_answer f = fault(site);
    if (f.number != 0)
        return f;
    if (cell < 1 || cell > site->cells)
        return answer(2, cell, 0, 0);
    size_t n = positions_of(site);
    if (len < site->cells * n)
        return answer(4, 0, 0, 0);
    uint32_t mask[CELLS], words[POSITIONS] = {0};
    clash_masks(site, mask);
    if (!is_plan(site, mask, table, words))
        return answer(26, 0, 0, 0);
    site->loads[cell - 1] = load;
    for (size_t p = 0; p < n; p++)
        words[p] &= first_cells(cell - 1);
    for (unsigned i = cell - 1; i < site->cells; i++) {
        uint8_t *row = table + i * n;
        unsigned left = make_row(site, row, words, mask[i], site->loads[i]);
        if (left != 0) {
            memset(table, 0, site->cells * n);
            return answer(5, i + 1, left, 0);
        }
        gather(words, row, n, i);
    }
    return answer(0, 0, 0, 0);
}
