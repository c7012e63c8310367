/* Which flows to admit, in plain C: a search depth first over the flows from the highest, the sets without a flow
 * before those with it, so that sets are met in rising number. A part is cut where the values left cannot beat the
 * best, and where a cell's demand is over the room. */
#include "plain.h"
#include "flows.h"

/* What each flow adds to the demand of each cell: its own, and the later ones that clash with it. */
typedef struct {
    uint32_t weight[FLOWS][CELLS], value[FLOWS], room;
} search_in;

typedef struct {
    uint32_t set, worth;
} found;

static void weigh(search_in *in, const flow_list *list, const uint32_t mask[CELLS])
{
    for (unsigned k = 0; k < list->count; k++) {
        unsigned cell = list->cell[k];
        uint32_t in_cells = (mask[cell] & ~first_cells(cell)) | 1u << cell;
        for (unsigned i = 0; i < CELLS; i++)
            in->weight[k][i] = (in_cells >> i & 1) * list->share[k];
        in->value[k] = list->value[k];
    }
}

/* The better of `best` and the best of the sets that have, from flow k on, the flows of `set`. */
static found search(const search_in *in, unsigned k, uint32_t set, uint32_t worth, uint32_t rest,
                    const uint32_t used[CELLS], found best)
{
    if (worth + rest <= best.worth)
        return best;
    if (k == 0)
        return (found){set, worth};
    k--;
    rest -= in->value[k];
    best = search(in, k, set, worth, rest, used, best);
    uint32_t next[CELLS], over = 0;
    for (unsigned i = 0; i < CELLS; i++) {
        next[i] = used[i] + in->weight[k][i];
        over |= next[i] > in->room;
    }
    return over ? best : search(in, k, set | 1u << k, worth + in->value[k], rest, next, best);
}

/* On top of the site's loads, whose demands are used from the start, or with these set aside. */
static dugg_answer searched(dugg_site site, bool beside, const dugg_flow *flows, size_t count)
{
    dugg_answer f = fault(&site);
    if (f.number != 0)
        return f;
    uint32_t mask[CELLS], start[CELLS], used[CELLS] = {0}, rest = 0;
    flow_list list;
    search_in in;
    clash_masks(&site, mask);
    start_of(&site, beside, start);
    in.room = room_of(&site);
    f = read_flows(&site, start, mask, in.room, flows, count, &list);
    if (f.number != 0)
        return f;
    for (unsigned i = 0; beside && i < site.cells; i++)
        used[i] = demand_of(start, mask, i);
    weigh(&in, &list, mask);
    for (unsigned k = 0; k < list.count; k++)
        rest += list.value[k];
    return answer(0, search(&in, list.count, 0, 0, rest, used, (found){0, 0}).set, 0, 0);
}

dugg_answer NAME(admit)(dugg_site site, const dugg_flow *flows, size_t count)
{
    return searched(site, false, flows, count);
}

dugg_answer NAME(admit_beside)(dugg_site site, const dugg_flow *flows, size_t count)
{
    return searched(site, true, flows, count);
}
