/* Renumbering and carrying: small, middle and largest sites, tunnels whose cells are numbered in any order, a side drift, and
 * a site that has no numbering, beside plain C. */
#include <stdio.h>
#include <string.h>
#include "bench.h"

enum { ROWS = 7, ASKED = 5000 };

typedef struct {
    const char *name;
    dugg_site site;
    uint8_t table[MOST];
} order;

static order orders[ROWS];
static uint8_t lent[MOST];

/* The cells of a site in any order. */
static void shuffle(dugg_site *s, uint64_t seed)
{
    dugg_site was = *s;
    unsigned to[32];
    for (unsigned a = 0; a < s->cells; a++)
        to[a] = a;
    for (unsigned a = s->cells; a-- > 1;) {
        unsigned b = chance(&seed) % (a + 1), c = to[a];
        to[a] = to[b];
        to[b] = c;
    }
    memset(s->reach, 0, sizeof s->reach);
    for (unsigned a = 0; a < s->cells; a++) {
        s->loads[to[a]] = was.loads[a];
        for (unsigned b = 0; b < s->cells; b++)
            s->reach[to[a]] |= (was.reach[a] >> b & 1) << to[b];
    }
}

static void any_order(int row, const char *name, unsigned cells, unsigned width)
{
    orders[row].name = name;
    size(&orders[row].site, cells, 128, 16);
    tunnel(&orders[row].site, width);
    shuffle(&orders[row].site, 2030 + row);
}

static void make_orders(void)
{
    orders[0].name = site_name(P1);
    orders[0].site = site_of(P1);
    any_order(1, "middle: 16 cells of a tunnel in any order, each clashes with 2 on either side", 16, 2);
    any_order(2, "32 cells of a tunnel in any order, each clashes with 1 on either side", 32, 1);
    any_order(3, "32 cells of a tunnel in any order, each clashes with 4 on either side", 32, 4);
    any_order(4, "32 cells of a tunnel in any order, each clashes with 12 on either side", 32, 12);
    orders[5].name = site_name(ALL_CLASH);
    orders[5].site = site_of(ALL_CLASH);
    orders[6].name = "32 cells in a ring: no numbering";
    size(&orders[6].site, 32, 128, 16);
    for (unsigned a = 0; a < 32; a++)
        orders[6].site.reach[a] = 1u << (a + 1) % 32;
    for (int k = 0; k < ROWS; k++)
        for (size_t b = 0; b < MOST; b++)
            orders[k].table[b] = b * 7 % 3;
}

/* ---- agreement ---- */

static size_t entries(const dugg_site *s)
{
    return (size_t)s->cells * s->slots * s->channels;
}

static int agree(const order *o, size_t from, size_t to)
{
    static uint8_t first[MOST], other[MOST];
    int fine = 1;
    dugg_renumbered r = makers[LIBRARY].renumber(o->site);
    memset(first, 9, MOST);
    dugg_answer a = makers[LIBRARY].carry(o->site, o->table, from, first, to);
    for (int m = LIBRARY + 1; m <= C3; m++) {
        dugg_renumbered x = makers[m].renumber(o->site);
        memset(other, 9, MOST);
        dugg_answer b = makers[m].carry(o->site, o->table, from, other, to);
        bool same = memcmp(&r.site, &x.site, sizeof r.site) == 0 && memcmp(r.new_of_old, x.new_of_old, sizeof r.new_of_old) == 0
                    && memcmp(r.old_of_new, x.old_of_new, sizeof r.old_of_new) == 0 && memcmp(&r.answer, &x.answer, sizeof a) == 0;
        if (!same || memcmp(&a, &b, sizeof a) != 0 || memcmp(first, other, MOST) != 0) {
            printf("%s, numbering: the library and %s disagree\n", o->name, makers[m].name);
            fine = 0;
        }
    }
    return fine;
}

/* The sites, each with a short table, and with a cell that reaches itself. */
int number_agree(void)
{
    int fine = 1;
    make_orders();
    for (int k = 0; k < ROWS; k++) {
        static order wrong;
        wrong = orders[k];
        size_t all = entries(&wrong.site);
        fine &= agree(&wrong, all, all) & agree(&wrong, all - 1, all) & agree(&wrong, all, all - 1);
        wrong.site.reach[1] |= 2;
        fine &= agree(&wrong, all, all);
    }
    return fine;
}

/* ---- the table ---- */

static void renumber(int column, const void *of)
{
    const order *o = of;
    makers[column].renumber(o->site);
}

static void carry(int column, const void *of)
{
    const order *o = of;
    makers[column].carry(o->site, o->table, entries(&o->site), lent, MOST);
}

void number_table(void)
{
    static const char *const names[MAKERS] = {"library", "second", "C -O2", "C -O3"};
    static const bool there[MAKERS] = {true, true, true, true, false};
    double worst = 0, longest = 0;
    printf("\n### The numbering\n\n");
    print_head("Call | Site", names, BITS);
    for (int k = 0; k < ROWS; k++) {
        double best[MAKERS];
        measure(renumber, &orders[k], there, best);
        printf("| renumber | %s", orders[k].name);
        print_times(best, BITS);
        if (best[LIBRARY] / best[C3] > worst)
            worst = best[LIBRARY] / best[C3];
        if (best[LIBRARY] > longest)
            longest = best[LIBRARY];
        measure(carry, &orders[k], there, best);
        printf("| carry | %s", orders[k].name);
        print_times(best, BITS);
    }
    printf("\nRenumbering is %s a quarter of C -O3: the worst ratio is %.2f. The longest takes %.1f microseconds, %s 5.\n",
           worst <= 1.25 ? "within" : "NOT within", worst, longest / 1e3, longest <= ASKED ? "within" : "NOT within");
}
