/* The numbering in plain C: the last number goes to the highest cell whose clashing cells all clash with one another, then
 * the same for those left; and tables carried back. */
#include <string.h>
#include "plain.h"
#include "site.h"

/* Do the cells of a word all clash with one another? */
static bool all_clash(const uint32_t mask[CELLS], uint32_t near)
{
    for (uint32_t rest = near; rest != 0; rest &= rest - 1) {
        unsigned a = __builtin_ctz(rest);
        if ((near & ~(mask[a] | 1u << a)) != 0)
            return false;
    }
    return true;
}

/* The old number of each new one, both from 0; false where there is no numbering. */
static bool number(const dugg_site *s, uint8_t old[CELLS])
{
    uint32_t mask[CELLS], left = first_cells(s->cells);
    clash_masks(s, mask);
    for (unsigned m = s->cells; m-- > 0;) {
        uint32_t cand = left;
        while (cand != 0) {
            unsigned i = 31 - __builtin_clz(cand);
            if (all_clash(mask, mask[i] & left)) {
                old[m] = i;
                left &= ~(1u << i);
                break;
            }
            cand &= ~(1u << i);
        }
        if (cand == 0)
            return false;
    }
    return true;
}

dugg_renumbered NAME(renumber)(dugg_site site)
{
    dugg_renumbered r = {.site = site, .answer = NAME(fault)(site)};
    uint8_t old[CELLS];
    if (r.answer.number != 0)
        return r;
    if (!number(&site, old)) {
        r.answer.number = 23;
        return r;
    }
    for (unsigned a = 0; a < site.cells; a++) {
        uint32_t row = 0;
        for (unsigned b = 0; b < site.cells; b++)
            row |= (site.reach[old[a]] >> old[b] & 1) << b;
        r.site.reach[a] = row;
        r.site.loads[a] = site.loads[old[a]];
        r.old_of_new[a] = old[a] + 1;
        r.new_of_old[old[a]] = a + 1;
    }
    return r;
}

dugg_answer NAME(carry)(dugg_site site, const uint8_t *new_table, size_t new_len, uint8_t *old_table, size_t old_len)
{
    dugg_answer answer = NAME(fault)(site);
    size_t n = (size_t)site.slots * site.channels;
    uint8_t old[CELLS];
    if (answer.number != 0)
        return answer;
    if (!number(&site, old))
        answer.number = 23;
    else if (new_len < site.cells * n || old_len < site.cells * n)
        answer.number = 4;
    else
        for (unsigned a = 0; a < site.cells; a++)
            memcpy(old_table + old[a] * n, new_table + a * n, n);
    return answer;
}
