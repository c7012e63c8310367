/* The search: a full site, a plannable one and one that meets its limit, all hard, and small ones, beside plain C with the
 * same count of tries. */
#include <stdio.h>
#include <string.h>
#include "bench.h"

enum { ROWS = 5, HARD = 2 };

typedef struct {
    const char *name;
    dugg_site site;
    uint64_t limit, tries;
} order;

static order orders[ROWS];
static uint8_t table[MOST];

/* Every second pair or so clashes, each cell has one fragment, and each slot one channel. */
static void scattered(dugg_site *s, unsigned cells, unsigned slots, uint64_t seed)
{
    size(s, cells, slots, 1);
    for (unsigned a = 0; a < cells; a++) {
        s->loads[a] = 1;
        for (unsigned b = a + 1; b < cells; b++)
            s->reach[a] |= (uint32_t)(chance(&seed) % 2) << b;
    }
}

static void make_orders(void)
{
    orders[0] = (order){.name = site_name(P1), .site = site_of(P1), .limit = UINT64_MAX};
    orders[1].name = "4 cells, where greedy gives up";
    size(&orders[1].site, 4, 2, 1);
    for (unsigned i = 0; i < 4; i++)
        orders[1].site.loads[i] = 1;
    orders[1].site.reach[0] = 4, orders[1].site.reach[1] = 8, orders[1].site.reach[2] = 8;
    orders[1].limit = UINT64_MAX;
    orders[HARD].name = "hard and full: 14 cells, 5 positions";
    scattered(&orders[HARD].site, 14, 5, 15);
    orders[HARD].limit = UINT64_MAX;
    orders[HARD + 1].name = "hard and plannable: 20 cells, 6 positions";
    scattered(&orders[HARD + 1].site, 20, 6, 21);
    orders[HARD + 1].limit = UINT64_MAX;
    orders[HARD + 2].name = "meets its limit: 24 fragments, 20 positions, all clash";
    size(&orders[HARD + 2].site, 24, 20, 1);
    for (unsigned a = 0; a < 24; a++) {
        orders[HARD + 2].site.loads[a] = 1;
        orders[HARD + 2].site.reach[a] = 0xffffffu & ~(1u << a);
    }
    orders[HARD + 2].limit = 1000000;
}

/* ---- agreement ---- */

static int agree(order *o)
{
    static uint8_t first[MOST], other[MOST];
    int fine = 1;
    memset(first, 0xA5, MOST);
    dugg_answer is = makers[LIBRARY].search(o->site, o->limit, first, MOST);
    o->tries = is.value[1];
    for (int m = LIBRARY + 1; m <= C3; m++) {
        memset(other, 0xA5, MOST);
        dugg_answer said = makers[m].search(o->site, o->limit, other, MOST);
        if (memcmp(&is, &said, sizeof is) != 0 || memcmp(first, other, MOST) != 0) {
            printf("%s, search: the library and %s disagree\n", o->name, makers[m].name);
            fine = 0;
        }
    }
    return fine;
}

/* The sites; and each with a limit of one try less, with one position more than 64, and with a cell that reaches itself. */
int search_agree(void)
{
    int fine = 1;
    make_orders();
    for (int k = 0; k < ROWS; k++) {
        fine &= agree(&orders[k]);
        order wrong = orders[k];
        wrong.limit = wrong.tries - 1;
        fine &= agree(&wrong);
        wrong.site.slots = 65;
        fine &= agree(&wrong);
        wrong.site.reach[1] |= 2;
        fine &= agree(&wrong);
    }
    return fine;
}

/* ---- the table ---- */

static void call(int column, const void *of)
{
    const order *o = of;
    makers[column].search(o->site, o->limit, table, MOST);
}

void search_table(void)
{
    static const char *const names[MAKERS] = {"library", "second", "C -O2", "C -O3"};
    static const bool there[MAKERS] = {true, true, true, true, false};
    double worst = 0;
    printf("\n### The search where greedy gives up\n\n");
    printf("`second` asks the table for each try; the C searches as the library does, and makes as many tries.\n\n");
    print_head("Call | Site", names, BITS);
    for (int k = 0; k < ROWS; k++) {
        double best[MAKERS];
        measure(call, &orders[k], there, best);
        printf("| search | %s; %llu tries", orders[k].name, (unsigned long long)orders[k].tries);
        print_times(best, BITS);
        if (k >= HARD && best[LIBRARY] / best[C3] > worst)
            worst = best[LIBRARY] / best[C3];
        if (k >= HARD)
            orders[k].limit = (uint64_t)(orders[k].tries * 1e3 / best[LIBRARY]);
    }
    printf("\nMillions of tries a second by the library:");
    for (int k = HARD; k < ROWS; k++)
        printf(" %llu%s", (unsigned long long)orders[k].limit, k + 1 < ROWS ? "," : ".");
    printf(" The worst ratio to C -O3 on these three is %.2f, %s 1.25.\n", worst, worst <= 1.25 ? "within" : "NOT within");
}
