/* A plan by any way in plain C: the planner, the heaviest clash, the cells in new numbers, the search; and whether a set of
 * cells is over. */
#include "plain.h"
#include "site.h"

/* Plans the site in new numbers, on words, and lays each cell's row by its new number. */
static dugg_answer in_new_numbers(const dugg_renumbered *anew, uint8_t *table)
{
    static const dugg_answer plan = {0, {0, 2, 0}}, none = {0, {1, 2, 0}};
    size_t n = positions_of(&anew->site);
    uint32_t words[POSITIONS];
    if (NAME(plan_words)(anew->site, words, n).number != 0)
        return none;
    for (unsigned i = 0; i < anew->site.cells; i++) {
        unsigned bit = anew->new_of_old[i] - 1;
        for (size_t k = 0; k < n; k++)
            table[i * n + k] = words[k] >> bit & 1;
    }
    return plan;
}

dugg_answer NAME(find)(dugg_site site, uint64_t limit, uint8_t *table, size_t len)
{
    dugg_answer planned = NAME(plan)(site, table, len);
    if (planned.number != 5)
        return planned;
    dugg_answer heavy = NAME(heaviest)(site);
    if (heavy.value[0] > room_of(&site))
        return answer(0, 1, 1, heavy.value[1]);
    dugg_renumbered anew = NAME(renumber)(site);
    if (anew.answer.number == 0)
        return in_new_numbers(&anew, table);
    dugg_answer found = NAME(search)(site, limit, table, len);
    return found.number == 0 ? answer(0, found.value[0], 3, found.value[1]) : answer(0, 2, 3, 0);
}

dugg_answer NAME(over_full)(dugg_site site, uint32_t cells)
{
    dugg_answer f = fault(&site);
    if (f.number != 0)
        return f;
    uint32_t own = cells & first_cells(site.cells), mask[CELLS];
    uint64_t load = 0, over = 1;
    for (uint32_t rest = own; rest != 0; rest &= rest - 1)
        load += site.loads[__builtin_ctz(rest)];
    if (cells != own || load <= room_of(&site))
        return answer(0, 0, load, 0);
    clash_masks(&site, mask);
    for (uint32_t rest = own; rest != 0; rest &= rest - 1) {
        unsigned a = __builtin_ctz(rest);
        over &= (cells & ~(mask[a] | 1u << a)) == 0;
    }
    return answer(0, over, load, 0);
}
