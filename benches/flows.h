/* What both searches for the flows to admit begin with: the refusals, and the list as numbers. */
#ifndef FLOWS_H
#define FLOWS_H

#include "site.h"

enum { FLOWS = 16 };

typedef struct {
    uint32_t cell[FLOWS], share[FLOWS], value[FLOWS];
    unsigned count;
} flow_list;

/* Is the site nested, all cells counted as loaded? */
static inline bool all_nested(const uint32_t mask[CELLS], unsigned cells)
{
    for (unsigned i = 0; i < cells; i++) {
        for (uint32_t near = mask[i] & first_cells(i); near != 0; near &= near - 1) {
            if ((near & (near - 1) & ~mask[__builtin_ctz(near)]) != 0)
                return false;
        }
    }
    return true;
}

/* The loads that the flows come on top of: the site's own, or none. */
static inline void start_of(const dugg_site *s, bool beside, uint32_t start[CELLS])
{
    for (unsigned i = 0; i < CELLS; i++)
        start[i] = beside ? s->loads[i] : 0;
}

/* A cell's load and those of its lower clashing cells. */
static inline uint32_t demand_of(const uint32_t loads[CELLS], const uint32_t mask[CELLS], unsigned i)
{
    uint32_t sum = loads[i];
    for (uint32_t lower = mask[i] & first_cells(i); lower != 0; lower &= lower - 1)
        sum += loads[__builtin_ctz(lower)];
    return sum;
}

/* All refusals in their order, and where there is none the list as numbers, cells counted from 0. */
static inline dugg_answer read_flows(const dugg_site *s, const uint32_t start[CELLS], const uint32_t mask[CELLS],
                                     uint32_t room, const dugg_flow *flows, size_t count, flow_list *list)
{
    if (count > FLOWS)
        return answer(18, 0, 0, 0);
    if (!all_nested(mask, s->cells))
        return answer(19, 0, 0, 0);
    for (unsigned i = 0; i < s->cells; i++) {
        uint32_t sum = start[i] == 0 ? 0 : demand_of(start, mask, i);
        if (sum > room)
            return answer(5, i + 1, sum - room, 0);
    }
    for (unsigned k = 0; k < count; k++) {
        if (flows[k].cell < 1 || flows[k].cell > s->cells)
            return answer(2, k + 1, 0, 0);
        dugg_answer share = share_of(s->slots, flows[k].burst, flows[k].period, flows[k].repeats);
        if (share.number != 0)
            return answer(share.number, k + 1, 0, 0);
        list->cell[k] = flows[k].cell - 1;
        list->share[k] = share.value[0];
        list->value[k] = flows[k].value;
    }
    list->count = count;
    return answer(0, 0, 0, 0);
}

#endif
