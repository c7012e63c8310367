/* The heaviest clash in plain C: of all sets of cells that clash with one another the one with the greatest load; of
 * equals, the one with the smallest word. Two searches with a bound: one finds a heavy set early, and one, in rising
 * order of the words, the first set with the greatest load. */
#include "plain.h"
#include "site.h"

typedef struct {
    uint32_t mask[CELLS];
    const uint16_t *loads;
    uint32_t cells, load;
} hunt;

static unsigned last_of(uint32_t cells)
{
    return 31 - __builtin_clz(cells);
}

/* No cells of a word that clash with one another have more load: cells that do not clash count the greatest load of
 * them. */
static uint32_t most_of(const hunt *h, uint32_t cells)
{
    uint32_t most = 0;
    while (cells != 0) {
        uint32_t greatest = 0;
        for (uint32_t apart = cells; apart != 0;) {
            unsigned i = last_of(apart);
            greatest = h->loads[i] > greatest ? h->loads[i] : greatest;
            cells &= ~(1u << i);
            apart &= ~(1u << i) & ~h->mask[i];
        }
        most += greatest;
    }
    return most;
}

/* Is there nothing better among the sets that add to `cells` some of `left`? A set with nothing left is kept if it is
 * heavier than what was met before. */
static bool done_with(hunt *h, uint32_t cells, uint32_t load, uint32_t left)
{
    if (left != 0)
        return load + most_of(h, left) <= h->load;
    if (load > h->load)
        h->cells = cells, h->load = load;
    return true;
}

static void heavy_first(hunt *h, uint32_t cells, uint32_t load, uint32_t left)
{
    if (done_with(h, cells, load, left))
        return;
    unsigned i = last_of(left);
    left &= ~(1u << i);
    heavy_first(h, cells | 1u << i, load + h->loads[i], left & h->mask[i]);
    heavy_first(h, cells, load, left);
}

static void rising(hunt *h, uint32_t cells, uint32_t load, uint32_t left)
{
    if (done_with(h, cells, load, left))
        return;
    unsigned i = last_of(left);
    left &= ~(1u << i);
    rising(h, cells, load, left);
    rising(h, cells | 1u << i, load + h->loads[i], left & h->mask[i]);
}

dugg_answer NAME(heaviest)(dugg_site site)
{
    dugg_answer f = fault(&site);
    if (f.number != 0)
        return f;
    hunt h = {.loads = site.loads};
    clash_masks(&site, h.mask);
    uint32_t loaded = 0;
    for (unsigned i = 0; i < CELLS; i++)
        loaded |= (uint32_t)(site.loads[i] != 0) << i;
    heavy_first(&h, 0, 0, loaded);
    if (h.load != 0) {
        h.load--;
        rising(&h, 0, 0, loaded);
    }
    return answer(0, h.load, h.cells, 0);
}
