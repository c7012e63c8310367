/* Mending: a valid table, one with a tenth of its reservations moved, and noise, beside plain C and C on bit sets. */
#include <stdio.h>
#include <string.h>
#include "bench.h"

enum { ROWS = 12, KINDS = 3 };

enum { VALID, TENTH, NOISE };

static const int sites[ROWS / KINDS] = {P1, MIDDLE_TUNNEL, TUNNEL, ALL_CLASH};
static const char *const kinds[KINDS] = {"valid", "a tenth moved", "noise"};

/* A site and a table to mend, how many changes that takes, and how many numbers are lent for the list. */
typedef struct {
    const char *site_name, *kind;
    dugg_site site;
    size_t table_len, changes, list_len;
    uint8_t table[MOST];
} order;

/* What a call leaves behind. */
typedef struct {
    dugg_answer answer;
    uint8_t table[MOST];
    uint16_t list[4 * MOST];
} left;

/* Lays the table out and mends it. */
static void run(const maker *m, const order *o, left *l)
{
    memcpy(l->table, o->table, o->table_len);
    l->answer = m->mend(o->site, l->table, o->table_len, l->list, o->list_len);
}

/* ---- the tables ---- */

static void move_a_tenth(order *o, size_t n, uint64_t *seed)
{
    for (size_t k = 0; k < o->table_len; k++) {
        size_t to = k / n * n + chance(seed) % n;
        if (o->table[k] == 1 && o->table[to] != 1 && chance(seed) % 10 == 0) {
            o->table[k] = 0;
            o->table[to] = 1;
        }
    }
}

/* Gives whether the site has a plan and the table was mended. */
static int make_order(order *o, int site, int kind)
{
    uint64_t seed = 2009 + KINDS * site + kind;
    o->site_name = site_name(site);
    o->kind = kinds[kind];
    o->site = site_of(site);
    size_t n = (size_t)o->site.slots * o->site.channels;
    o->table_len = o->site.cells * n;
    if (plain2_plan(o->site, o->table, o->table_len).number != 0)
        return 0;
    if (kind == TENTH)
        move_a_tenth(o, n, &seed);
    if (kind == NOISE)
        for (size_t k = 0; k < o->table_len; k++)
            o->table[k] = chance(&seed) % 4;
    static left l;
    o->list_len = 4 * MOST;
    run(&makers[C2], o, &l);
    o->changes = l.answer.value[0];
    return l.answer.number == 0;
}

/* ---- agreement ---- */

static int agree(const order *o)
{
    static left first, other;
    int fine = 1;
    memset(&first, 0xA5, sizeof first);
    run(&makers[LIBRARY], o, &first);
    for (int m = LIBRARY + 1; m < MAKERS; m++) {
        memset(&other, 0xA5, sizeof other);
        run(&makers[m], o, &other);
        if (memcmp(&first, &other, sizeof first) != 0) {
            printf("%s, %s, mend: the library and %s disagree\n", o->site_name, o->kind, makers[m].name);
            fine = 0;
        }
    }
    return fine;
}

/* The same orders made wrong: room for all changes and for one less, a byte too few, a load that has no room. */
static int agree_when_wrong(const order *o)
{
    static order wrong;
    wrong = *o;
    wrong.list_len = 4 * o->changes;
    int fine = agree(&wrong);
    if (o->changes != 0) {
        wrong.list_len--;
        fine &= agree(&wrong);
    }
    wrong.table_len--;
    fine &= agree(&wrong);
    wrong = *o;
    wrong.site.loads[o->site.cells - 1] = 65535;
    return fine & agree(&wrong);
}

static order orders[ROWS];

int mend_agree(void)
{
    int fine = 1;
    for (int k = 0; k < ROWS; k++) {
        if (!make_order(&orders[k], sites[k / KINDS], k % KINDS)) {
            printf("%s, %s: is not mended\n", orders[k].site_name, orders[k].kind);
            return 0;
        }
        fine &= agree(&orders[k]) & agree_when_wrong(&orders[k]);
    }
    return fine;
}

/* ---- the table ---- */

static void call(int column, const void *of)
{
    static left l;
    run(&makers[column], of, &l);
}

/* Lays the table out, and no more: the time of this is taken from the others. */
static void lay_out(int column, const void *of)
{
    static left l;
    const order *o = of;
    (void)column;
    memcpy(l.table, o->table, o->table_len);
}

void mend_table(void)
{
    static const bool all[MAKERS] = {true, true, true, true, true}, one[MAKERS] = {true};
    const char *names[MAKERS];
    double worst = 0, farthest = 0;
    for (int m = 0; m < MAKERS; m++)
        names[m] = makers[m].name;
    printf("\n### Mending a table\n\n");
    printf("The time of laying out the table that is mended is not in these.\n\n");
    print_head("Call | Site, table and changes", names, MAKERS);
    for (int k = 0; k < ROWS; k++) {
        const order *o = &orders[k];
        double best[MAKERS], out[MAKERS];
        measure(call, o, all, best);
        measure(lay_out, o, one, out);
        for (int m = 0; m < MAKERS; m++)
            best[m] -= out[0];
        printf("| mend | %s; %s, %zu changes", o->site_name, o->kind, o->changes);
        print_times(best, MAKERS);
        if (o->table_len == MOST && best[LIBRARY] / best[C3] > worst)
            worst = best[LIBRARY] / best[C3];
        if (o->table_len == MOST && best[LIBRARY] / best[BITS] > farthest)
            farthest = best[LIBRARY] / best[BITS];
    }
    printf("\nMending on the largest sites is %s a quarter of C -O3: the worst ratio is %.2f. To C bits it is %.2f.\n",
           worst <= 1.25 ? "within" : "NOT within", worst, farthest);
}
