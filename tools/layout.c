/* Prints size and offsets of every record of the header, a line each: what the bindings are held to. */
#include <stdio.h>
#include "duggfrask.h"

#define SIZE(record) printf(#record " %zu\n", sizeof(record))
#define AT(record, field) printf(#record "." #field " %zu\n", offsetof(record, field))

int main(void)
{
    SIZE(dugg_site);
    AT(dugg_site, cells);
    AT(dugg_site, slots);
    AT(dugg_site, channels);
    AT(dugg_site, loads);
    AT(dugg_site, reach);
    AT(dugg_site, blocked);
    AT(dugg_site, rule);
    SIZE(dugg_blocked);
    AT(dugg_blocked, bits);
    SIZE(dugg_answer);
    AT(dugg_answer, number);
    AT(dugg_answer, value);
    SIZE(dugg_edited);
    AT(dugg_edited, site);
    AT(dugg_edited, answer);
    SIZE(dugg_plan_read);
    AT(dugg_plan_read, cells);
    AT(dugg_plan_read, slots);
    AT(dugg_plan_read, channels);
    AT(dugg_plan_read, answer);
    SIZE(dugg_renumbered);
    AT(dugg_renumbered, site);
    AT(dugg_renumbered, new_of_old);
    AT(dugg_renumbered, old_of_new);
    AT(dugg_renumbered, answer);
    SIZE(dugg_flow);
    AT(dugg_flow, cell);
    AT(dugg_flow, burst);
    AT(dugg_flow, period);
    AT(dugg_flow, repeats);
    AT(dugg_flow, value);
    return 0;
}
