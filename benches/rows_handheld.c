/* One load changes on the handheld: the last cell of small, middle and largest sites, and the first, beside a fresh plan of
 * the edited site and beside plain C and C on bit sets. Each call takes a fragment away, and the next gives it back. */
#include <stdio.h>
#include <string.h>
#include "bench.h"

enum { ROWS = 6 };

typedef struct {
    const char *name;
    dugg_site site;
    uint16_t cell;
    size_t len;
    uint8_t table[MOST];
} edit;

static edit edits[ROWS];

/* The record and the table of each column, as its last call left them. */
static edit held[MAKERS];

static void make_edits(void)
{
    static const struct {
        int site;
        bool first;
    } rows[ROWS] = {{P1, false}, {MIDDLE_TUNNEL, false}, {MIDDLE_ALL, false}, {TUNNEL, false}, {ALL_CLASH, false}, {ALL_CLASH, true}};
    for (int k = 0; k < ROWS; k++) {
        edit *e = &edits[k];
        e->name = site_name(rows[k].site);
        e->site = site_of(rows[k].site);
        e->cell = rows[k].first ? 1 : e->site.cells;
        e->len = (size_t)e->site.cells * e->site.slots * e->site.channels;
        plain2_plan(e->site, e->table, e->len);
    }
}

/* ---- agreement ---- */

static bool same_record(const dugg_site *a, const dugg_site *b)
{
    return a->cells == b->cells && a->slots == b->slots && a->channels == b->channels && a->rule == b->rule &&
           memcmp(a->loads, b->loads, sizeof a->loads) == 0 && memcmp(a->reach, b->reach, sizeof a->reach) == 0 &&
           memcmp(a->blocked, b->blocked, sizeof a->blocked) == 0;
}

static int agree(const edit *e, uint16_t load)
{
    static edit first, other;
    int fine = 1;
    first = *e;
    dugg_answer is = makers[LIBRARY].change_load(&first.site, e->cell, load, first.table, e->len);
    for (int m = LIBRARY + 1; m < MAKERS; m++) {
        other = *e;
        dugg_answer said = makers[m].change_load(&other.site, e->cell, load, other.table, e->len);
        if (memcmp(&is, &said, sizeof is) != 0 || !same_record(&first.site, &other.site) ||
            memcmp(first.table, other.table, MOST) != 0) {
            printf("%s, change of a load: the library and %s disagree\n", e->name, makers[m].name);
            fine = 0;
        }
    }
    return fine;
}

/* A fragment less and one more, which some sites have no room for; a cell that is not there; a short table; a last byte
 * that is not the plan's; a cell that reaches itself. */
int handheld_agree(void)
{
    static edit wrong;
    int fine = 1;
    make_edits();
    for (int k = 0; k < ROWS; k++) {
        uint16_t own = edits[k].site.loads[edits[k].cell - 1];
        fine &= agree(&edits[k], own - 1) & agree(&edits[k], own + 1);
        wrong = edits[k];
        wrong.cell = wrong.site.cells + 1;
        fine &= agree(&wrong, 1);
        wrong = edits[k];
        wrong.len--;
        fine &= agree(&wrong, own - 1);
        wrong = edits[k];
        wrong.table[wrong.len - 1] ^= 2;
        fine &= agree(&wrong, own - 1);
        wrong = edits[k];
        wrong.site.reach[1] |= 2;
        fine &= agree(&wrong, own - 1);
    }
    return fine;
}

/* ---- the table ---- */

static void change(int column, const void *of)
{
    const edit *e = of;
    edit *h = &held[column];
    uint16_t own = e->site.loads[e->cell - 1];
    uint16_t load = h->site.loads[e->cell - 1] == own ? own - 1 : own;
    makers[column].change_load(&h->site, e->cell, load, h->table, e->len);
}

static void fresh(int column, const void *of)
{
    const edit *e = of;
    makers[column].plan(e->site, held[column].table, e->len);
}

void handheld_table(void)
{
    static const bool all[MAKERS] = {true, true, true, true, true};
    const char *names[MAKERS];
    double worst = 0, farthest = 0;
    for (int m = 0; m < MAKERS; m++)
        names[m] = makers[m].name;
    printf("\n### One load changes on the handheld\n\n");
    printf("A change tests the table, row by row, and then plans from the cell on; below it a fresh plan of the site.\n\n");
    print_head("Call | Site and cell", names, MAKERS);
    for (int k = 0; k < ROWS; k++) {
        double best[MAKERS];
        for (int m = 0; m < MAKERS; m++)
            held[m] = edits[k];
        measure(change, &edits[k], all, best);
        printf("| change of a load | %s; cell %u of %u", edits[k].name, edits[k].cell, edits[k].site.cells);
        print_times(best, MAKERS);
        if (best[LIBRARY] / best[C3] > worst)
            worst = best[LIBRARY] / best[C3];
        if (best[LIBRARY] / best[BITS] > farthest)
            farthest = best[LIBRARY] / best[BITS];
        measure(fresh, &edits[k], all, best);
        printf("| fresh plan | %s", edits[k].name);
        print_times(best, MAKERS);
    }
    printf("\nA change of a load is %s a quarter of C -O3: the worst ratio is %.2f. To C bits it is %.2f.\n",
           worst <= 1.25 ? "within" : "NOT within", worst, farthest);
}
