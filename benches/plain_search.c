/* The search where greedy gives up, in plain C: an explicit stack of fragments. The open positions are counted by their
 * index, so that what the lower clashing cells took is one word for each fragment. */
#include "plain.h"
#include "site.h"

enum { FRAGMENTS = 24, OPEN = 64 };

typedef struct {
    unsigned fragments, open;
    unsigned owner[FRAGMENTS], at[FRAGMENTS], position[OPEN];
    uint32_t mask[CELLS];
} hunt;

/* The fragments and the open positions, or false where there are too many. */
static bool list(hunt *h, const dugg_site *s)
{
    size_t n = positions_of(s);
    for (unsigned i = 0; i < s->cells; i++) {
        if (s->loads[i] > FRAGMENTS - h->fragments)
            return false;
        for (unsigned l = 0; l < s->loads[i]; l++)
            h->owner[h->fragments++] = i;
    }
    for (size_t k = 0; k < n; k++) {
        if (s->blocked[k / 64] >> k % 64 & 1)
            continue;
        if (h->open == OPEN)
            return false;
        h->position[h->open++] = k;
    }
    return true;
}

/* What the fragments before number d took of the positions of its cell. */
static uint64_t taken_for(const hunt *h, unsigned d)
{
    unsigned cell = h->owner[d];
    uint64_t taken = 0;
    for (unsigned k = 0; k < d; k++)
        if (h->mask[cell] >> h->owner[k] & 1)
            taken |= 1ull << h->at[k];
    return taken;
}

dugg_answer NAME(search)(dugg_site site, uint64_t limit, uint8_t *table, size_t len)
{
    dugg_answer f = fault(&site);
    if (f.number != 0)
        return f;
    size_t n = positions_of(&site);
    if (len < site.cells * n)
        return answer(4, 0, 0, 0);
    hunt h = {0};
    if (!list(&h, &site))
        return answer(25, 0, 0, 0);
    clash_masks(&site, h.mask);
    memset(table, 0, site.cells * n);
    uint64_t taken[FRAGMENTS] = {0}, tries = 0;
    unsigned d = 0, i = 0;
    while (d < h.fragments) {
        if (i == h.open) {
            if (d == 0)
                return answer(0, 1, tries, 0);
            i = h.at[--d] + 1;
            continue;
        }
        if (tries == limit)
            return answer(0, 2, tries, 0);
        tries++;
        if (taken[d] >> i & 1) {
            i++;
            continue;
        }
        h.at[d++] = i;
        if (d == h.fragments)
            break;
        bool same_cell = h.owner[d] == h.owner[d - 1];
        taken[d] = same_cell ? taken[d - 1] : taken_for(&h, d);
        i = same_cell ? i + 1 : 0;
    }
    for (unsigned k = 0; k < h.fragments; k++)
        table[h.owner[k] * n + h.position[h.at[k]]] = 1;
    return answer(0, 0, tries, 0);
}
