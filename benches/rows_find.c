/* A plan by any way, and whether a set of cells is over: small, middle and largest sites, one at least for each way, beside
 * plain C. */
#include <stdio.h>
#include <string.h>
#include "bench.h"

enum { ROWS = 8, SETS = 3, LIMIT = 1000000 };

typedef struct {
    const char *name, *way;
    dugg_site site;
    uint64_t limit;
    size_t len;
} order;

typedef struct {
    const char *name;
    dugg_site site;
    uint32_t cells;
} set;

static order orders[ROWS];
static set sets[SETS];
static uint8_t table[MOST];

/* Blocks of four cells, 1 and 3, 2 and 4, 3 and 4 of each clashing, each cell with half of the positions: the planner's order
 * finds no room for the fourth, and in new numbers there is room. */
static void fours(dugg_site *s, unsigned cells, unsigned slots, unsigned channels)
{
    size(s, cells, slots, channels);
    for (unsigned i = 0; i < cells; i++)
        s->loads[i] = slots * channels / 2;
    for (unsigned i = 0; i < cells; i += 4)
        s->reach[i] = 4u << i, s->reach[i + 1] = 8u << i, s->reach[i + 2] = 8u << i;
}

/* A ring in which cell k of the order reaches the next. */
static void ring(dugg_site *s, const unsigned *cells, unsigned count)
{
    size(s, count, 2, 1);
    for (unsigned k = 0; k < count; k++) {
        s->loads[k] = 1;
        s->reach[cells[k]] |= 1u << cells[(k + 1) % count];
    }
}

static void make_orders(void)
{
    static const unsigned five[] = {0, 1, 2, 3, 4}, six[] = {0, 2, 4, 1, 3, 5};
    orders[0] = (order){.name = site_name(P1), .way = "the planner", .site = site_of(P1)};
    orders[1] = (order){.name = "small: 4 cells, 2 positions", .way = "in new numbers"};
    fours(&orders[1].site, 4, 2, 1);
    orders[2] = (order){.name = "small: 6 cells in a ring", .way = "the search"};
    ring(&orders[2].site, six, 6);
    orders[3] = (order){.name = "small: 5 cells in a ring", .way = "none, the search"};
    ring(&orders[3].site, five, 5);
    orders[4] = (order){.name = "middle: all clash, one fragment too many", .way = "none, a set", .site = site_of(MIDDLE_ALL)};
    orders[4].site.loads[7]++;
    orders[5] = (order){.name = site_name(TUNNEL), .way = "the planner", .site = site_of(TUNNEL)};
    orders[6] = (order){.name = "largest: all clash, one fragment too many", .way = "none, a set", .site = site_of(ALL_CLASH)};
    orders[6].site.loads[7]++;
    orders[7] = (order){.name = "largest: 8 rows of 4 cells, just full", .way = "in new numbers"};
    fours(&orders[7].site, 32, 128, 16);
    for (int k = 0; k < ROWS; k++)
        orders[k].limit = LIMIT, orders[k].len = MOST;
    sets[0] = (set){"small: 2 cells of P1", site_of(P1), 3};
    sets[1] = (set){"middle: 16 cells that clash, one fragment too many", orders[4].site, 0xffff};
    sets[2] = (set){"largest: 32 cells that clash, one fragment too many", orders[6].site, 0xffffffff};
}

/* ---- agreement ---- */

static int agree(const order *o)
{
    static uint8_t first[MOST], other[MOST];
    int fine = 1;
    memset(first, 0xA5, MOST);
    dugg_answer is = makers[LIBRARY].find(o->site, o->limit, first, o->len);
    for (int m = LIBRARY + 1; m <= C3; m++) {
        memset(other, 0xA5, MOST);
        dugg_answer said = makers[m].find(o->site, o->limit, other, o->len);
        if (memcmp(&is, &said, sizeof is) != 0 || memcmp(first, other, MOST) != 0) {
            printf("%s, find: the library and %s disagree\n", o->name, makers[m].name);
            fine = 0;
        }
    }
    return fine;
}

static int sets_agree(const set *s)
{
    int fine = 1;
    dugg_answer is = makers[LIBRARY].over_full(s->site, s->cells);
    for (int m = LIBRARY + 1; m <= C3; m++) {
        dugg_answer said = makers[m].over_full(s->site, s->cells);
        if (memcmp(&is, &said, sizeof is) != 0) {
            printf("%s, over full: the library and %s disagree\n", s->name, makers[m].name);
            fine = 0;
        }
    }
    return fine;
}

/* The sites; and each without a try, with a table that is a byte short, and with a cell that reaches itself. The sets; and each
 * with no cell, with every cell, and of a site with a cell that reaches itself. */
int find_agree(void)
{
    int fine = 1;
    make_orders();
    for (int k = 0; k < ROWS; k++) {
        fine &= agree(&orders[k]);
        order wrong = orders[k];
        wrong.limit = 0;
        fine &= agree(&wrong);
        wrong.len = (size_t)wrong.site.cells * wrong.site.slots * wrong.site.channels - 1;
        fine &= agree(&wrong);
        wrong.site.reach[1] |= 2;
        fine &= agree(&wrong);
    }
    for (int k = 0; k < SETS; k++) {
        fine &= sets_agree(&sets[k]);
        set wrong = sets[k];
        wrong.cells = 0;
        fine &= sets_agree(&wrong);
        wrong.cells = 0xffffffff;
        fine &= sets_agree(&wrong);
        wrong.site.reach[1] |= 2;
        fine &= sets_agree(&wrong);
    }
    return fine;
}

/* ---- the table ---- */

static void find(int column, const void *of)
{
    const order *o = of;
    makers[column].find(o->site, o->limit, table, MOST);
}

static void over_full(int column, const void *of)
{
    const set *s = of;
    makers[column].over_full(s->site, s->cells);
}

void find_table(void)
{
    static const char *const names[MAKERS] = {"library", "second", "C -O2", "C -O3"};
    static const bool there[MAKERS] = {true, true, true, true, false};
    double worst = 0, best[MAKERS];
    printf("\n### A plan by any way, and a set of cells that is over\n\n");
    printf("The way that says it is in the row. The C asks the same ways in the same order.\n\n");
    print_head("Call | Site", names, BITS);
    for (int k = 0; k < ROWS; k++) {
        measure(find, &orders[k], there, best);
        printf("| find | %s: %s", orders[k].name, orders[k].way);
        print_times(best, BITS);
        worst = best[LIBRARY] / best[C3] > worst ? best[LIBRARY] / best[C3] : worst;
    }
    for (int k = 0; k < SETS; k++) {
        measure(over_full, &sets[k], there, best);
        printf("| over full | %s", sets[k].name);
        print_times(best, BITS);
        worst = best[LIBRARY] / best[C3] > worst ? best[LIBRARY] / best[C3] : worst;
    }
    printf("\nThe worst ratio to C -O3 is %.2f.\n", worst);
}
