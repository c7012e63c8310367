/* Sites under rule 2, where cells clash also when both reach a third cell: the calls that need to know who clashes, and the
 * site file, beside plain C. */
#include <stdio.h>
#include <string.h>
#include "bench.h"

enum { ROWS = 4 };

enum { PLAN, CHECK, CLASH, LOAD_TEST, CHAIN, READ_SITE, WRITE_SITE, OPERATIONS };

static const char *const operations[OPERATIONS] = {
    "plan", "check", "clash", "load test", "chain", "read site", "write site",
};

/* A rule 2 site with its planned table and its file, and two cells of it. */
typedef struct {
    const char *name;
    dugg_site site;
    size_t table_len, file_len;
    uint8_t table[MOST], file[4096];
    uint16_t a, b;
} work;

/* What a call leaves behind. */
typedef struct {
    dugg_answer answer;
    dugg_site site;
    uint8_t bytes[MOST];
} left;

static bool has(const maker *m, int operation)
{
    switch (operation) {
    case PLAN: return m->plan != NULL;
    case CHECK: return m->check != NULL;
    default: return m->clash != NULL;
    }
}

static void read_site(const maker *m, const work *w, left *l)
{
    dugg_edited read = m->read_site(w->file, w->file_len);
    l->answer = read.answer;
    l->site = read.site;
}

static void run(const maker *m, int operation, const work *w, left *l)
{
    switch (operation) {
    case PLAN: l->answer = m->plan(w->site, l->bytes, w->table_len); break;
    case CHECK: l->answer = m->check(w->site, w->table, w->table_len); break;
    case CLASH: l->answer = m->clash(w->site, w->a, w->b); break;
    case LOAD_TEST: l->answer = m->load_test(w->site); break;
    case CHAIN: l->answer = m->chain(w->site); break;
    case READ_SITE: read_site(m, w, l); break;
    default: l->answer = m->write_site(w->site, l->bytes, sizeof l->bytes); break;
    }
}

/* ---- the sites ---- */

/* Each cell reaches a few on either side, so that under rule 2 it clashes with twice as many. The loads of neighbours fill
 * the site. */
static void two_way(dugg_site *s, unsigned width, const uint16_t *loads)
{
    for (unsigned i = 0; i < s->cells; i++) {
        s->loads[i] = loads[i % (2 * width + 1)];
        for (unsigned j = 0; j < s->cells; j++)
            s->reach[i] |= (uint32_t)(i != j && i + width >= j && j + width >= i) << j;
    }
}

/* All cells reach the first, so that under rule 2 all clash. */
static void star(dugg_site *s, uint16_t load)
{
    for (unsigned i = 0; i < s->cells; i++) {
        s->loads[i] = load;
        s->reach[i] = i != 0;
    }
}

/* Gives whether the site has a plan. */
static bool make(work *w, int k)
{
    static const char *const names[ROWS] = {
        "small: 3 cells, all reach cell 1, just full",
        "middle: tunnel, 2 neighbours reached either side, just full",
        "largest: tunnel, 3 neighbours reached either side, just full",
        "largest: all reach cell 1, just full",
    };
    dugg_site *s = &w->site;
    w->name = names[k];
    switch (k) {
    case 0: size(s, 3, 3, 2), star(s, 2); break;
    case 1: size(s, 12, 32, 4), two_way(s, 2, (const uint16_t[]){30, 28, 26, 24, 20}); break;
    case 2: size(s, 32, 128, 16), two_way(s, 3, (const uint16_t[]){400, 348, 300, 250, 250, 250, 250}); break;
    default: size(s, 32, 128, 16), star(s, 64); break;
    }
    s->rule = 2;
    w->a = 2, w->b = 3;
    w->table_len = (size_t)s->cells * s->slots * s->channels;
    dugg_answer file = plain2_write_site(*s, w->file, sizeof w->file);
    w->file_len = file.value[0];
    return plain2_plan(*s, w->table, w->table_len).number == 0 && file.number == 0;
}

/* ---- agreement ---- */

/* Records given back have bytes between their fields that belong to none. */
static bool same(const left *a, const left *b)
{
    return memcmp(&a->answer, &b->answer, sizeof a->answer) == 0 && a->site.cells == b->site.cells &&
           a->site.slots == b->site.slots && a->site.channels == b->site.channels && a->site.rule == b->site.rule &&
           memcmp(a->site.loads, b->site.loads, sizeof a->site.loads) == 0 &&
           memcmp(a->site.reach, b->site.reach, sizeof a->site.reach) == 0 &&
           memcmp(a->site.blocked, b->site.blocked, sizeof a->site.blocked) == 0 &&
           memcmp(a->bytes, b->bytes, sizeof a->bytes) == 0;
}

static int agree(const work *w)
{
    static left first, other;
    int fine = 1;
    for (int operation = 0; operation < OPERATIONS; operation++) {
        memset(&first, 0xA5, sizeof first);
        run(&makers[LIBRARY], operation, w, &first);
        for (int m = LIBRARY + 1; m < MAKERS; m++) {
            if (!has(&makers[m], operation))
                continue;
            memset(&other, 0xA5, sizeof other);
            run(&makers[m], operation, w, &other);
            if (!same(&first, &other)) {
                printf("%s, %s: the library and %s disagree\n", w->name, operations[operation], makers[m].name);
                fine = 0;
            }
        }
    }
    return fine;
}

/* The same under rule 1, with rule 3 and a file that says rule 1, with a load too large and a file cut, and with a table in
 * which the last cell sends throughout. */
static int agree_when_wrong(const work *w)
{
    static work wrong;
    wrong = *w;
    wrong.site.rule = 1;
    wrong.a = 1;
    int fine = agree(&wrong);
    wrong.site.rule = 3;
    wrong.file[10] = 1;
    fine &= agree(&wrong);
    wrong = *w;
    wrong.site.loads[w->site.cells - 1]++;
    wrong.b = w->a;
    wrong.file_len--;
    fine &= agree(&wrong);
    wrong = *w;
    size_t row = w->table_len / w->site.cells;
    memset(wrong.table + w->table_len - row, 1, row);
    wrong.b = w->site.cells + 1;
    wrong.file[2] = 1;
    return fine & agree(&wrong);
}

static work works[ROWS];

int rules_agree(void)
{
    int fine = 1;
    for (int k = 0; k < ROWS; k++) {
        if (!make(&works[k], k)) {
            printf("%s, rule 2: has no plan\n", works[k].name);
            return 0;
        }
        fine &= agree(&works[k]) & agree_when_wrong(&works[k]);
    }
    return fine;
}

/* ---- the table ---- */

static void call(int column, const void *of)
{
    static left l;
    const call_on *j = of;
    run(&makers[column], j->call, &works[j->site], &l);
}

static void label(int site, int operation)
{
    printf("| %s | %s", operations[operation], works[site].name);
}

static bool counts(int site, int operation)
{
    return (operation == PLAN || operation == CHECK) && works[site].table_len == MOST;
}

void rules_table(void)
{
    double worst = print_calls(&(call_table){
        .title = "Rule 2",
        .note = "Cells clash also when both reach a third cell. Clash is asked of cells 2 and 3.",
        .first = "Call | Site",
        .sites = ROWS,
        .calls = OPERATIONS,
        .has = has,
        .run = call,
        .label = label,
        .counts = counts,
    });
    printf("\nUnder rule 2, plan and check on the largest sites are %s a quarter of C -O3: the worst ratio is %.2f.\n",
           worst <= 1.25 ? "within" : "NOT within", worst);
}
