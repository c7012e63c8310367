/* The heaviest clash: small, middle and largest sites, and dense ones that are made up to be hard, beside plain C. */
#include <stdio.h>
#include <string.h>
#include "bench.h"

enum { ROWS = 9, MADE_UP = 7, ASKED = 50000 };

typedef struct {
    const char *name;
    dugg_site site;
} order;

static order orders[ROWS];

/* All cells clash but those that `apart` says, asked with the lower cell first, both counted from 0. */
static void all_but(dugg_site *s, bool (*apart)(unsigned, unsigned))
{
    size(s, 32, 128, 16);
    for (unsigned a = 0; a < s->cells; a++) {
        s->loads[a] = 1;
        for (unsigned b = a + 1; b < s->cells; b++)
            s->reach[a] |= (uint32_t)!apart(a, b) << b;
    }
}

static bool matched(unsigned a, unsigned b)
{
    return a / 2 == b / 2;
}

/* Neighbours in a ring of five; six rings, and two cells alone. */
static bool in_a_ring(unsigned a, unsigned b)
{
    return a / 5 == b / 5 && b < 30 && (b - a == 1 || b - a == 4);
}

/* Every second pair or so clashes, and loads are any up to a bound. */
static void scattered(dugg_site *s, unsigned cells, unsigned most, uint64_t seed)
{
    size(s, cells, 128, 16);
    for (unsigned a = 0; a < cells; a++) {
        s->loads[a] = 1 + chance(&seed) % most;
        for (unsigned b = a + 1; b < cells; b++)
            s->reach[a] |= (uint32_t)(chance(&seed) % 2) << b;
    }
}

static void make_orders(void)
{
    orders[0] = (order){site_name(P1), site_of(P1)};
    orders[1].name = "middle: 16 cells, every second pair clashes";
    scattered(&orders[1].site, 16, 100, 2025);
    orders[2].name = "32 cells, every second pair clashes, loads of 1 to 100";
    scattered(&orders[2].site, 32, 100, 2026);
    orders[3].name = "32 cells, every second pair clashes, loads of 1 to 65,535";
    scattered(&orders[3].site, 32, 65535, 2027);
    orders[4] = (order){site_name(TUNNEL), site_of(TUNNEL)};
    orders[5] = (order){site_name(MIXED), site_of(MIXED)};
    orders[6] = (order){site_name(ALL_CLASH), site_of(ALL_CLASH)};
    orders[MADE_UP].name = "made up: 32 cells, all clash but 1 and 2, 3 and 4 and so on";
    all_but(&orders[MADE_UP].site, matched);
    orders[MADE_UP + 1].name = "made up: 32 cells, all clash but neighbours in six rings of five";
    all_but(&orders[MADE_UP + 1].site, in_a_ring);
}

/* ---- agreement ---- */

static int agree(const order *o)
{
    int fine = 1;
    dugg_answer first = makers[LIBRARY].heaviest(o->site);
    for (int m = LIBRARY + 1; m <= C3; m++) {
        dugg_answer other = makers[m].heaviest(o->site);
        if (memcmp(&first, &other, sizeof first) != 0) {
            printf("%s, heaviest: the library and %s disagree\n", o->name, makers[m].name);
            fine = 0;
        }
    }
    return fine;
}

/* The sites, and each with a spare cell, with no load at all, and with a cell that reaches itself. */
int heaviest_agree(void)
{
    int fine = 1;
    make_orders();
    for (int k = 0; k < ROWS; k++) {
        order wrong = orders[k];
        fine &= agree(&wrong);
        wrong.site.loads[1] = 0;
        fine &= agree(&wrong);
        memset(wrong.site.loads, 0, sizeof wrong.site.loads);
        fine &= agree(&wrong);
        wrong.site.reach[1] |= 2;
        fine &= agree(&wrong);
    }
    return fine;
}

/* ---- the table ---- */

static void call(int column, const void *of)
{
    const order *o = of;
    makers[column].heaviest(o->site);
}

void heaviest_table(void)
{
    static const char *const names[MAKERS] = {"library", "second", "C -O2", "C -O3"};
    static const bool there[MAKERS] = {true, true, true, true, false};
    double worst = 0, longest = 0;
    printf("\n### The heaviest clash\n\n");
    printf("`second` goes through every set that cannot be added to; the C searches as the library does.\n\n");
    print_head("Call | Site", names, BITS);
    for (int k = 0; k < ROWS; k++) {
        double best[MAKERS];
        measure(call, &orders[k], there, best);
        printf("| heaviest | %s", orders[k].name);
        print_times(best, BITS);
        if (best[LIBRARY] / best[C3] > worst)
            worst = best[LIBRARY] / best[C3];
        if (k < MADE_UP && best[LIBRARY] > longest)
            longest = best[LIBRARY];
    }
    printf("\nThe worst ratio to C -O3 is %.2f. But for the made-up sites the longest takes %.1f microseconds, %s 50.\n", worst,
           longest / 1e3, longest <= ASKED ? "within" : "NOT within");
}
