/* Half of the site blocked: every second position, or the second half of the channels in every slot. The calls that ask
 * whether a position is open, and the site file, beside plain C. */
#include <stdio.h>
#include <string.h>
#include "bench.h"

enum { ROWS = 7, WORDS = 2048 };

enum { PLAN, CHECK, LOAD_TEST, PLAN_WORDS, CHECK_WORDS, MEND, READ_SITE, WRITE_SITE, OPERATIONS };

static const char *const operations[OPERATIONS] = {
    "plan", "check", "load test", "plan words", "check words", "mend", "read site", "write site",
};

static const struct { int site; bool by_channels; } rows[ROWS] = {
    {P1, true},      {MIDDLE_TUNNEL, false}, {MIDDLE_TUNNEL, true}, {TUNNEL, false},
    {TUNNEL, true}, {ALL_CLASH, false},     {ALL_CLASH, true},
};

/* A site, half of it blocked, with its planned table in both forms and its file. The table is mended without a change. */
typedef struct {
    const char *name, *half;
    dugg_site site;
    size_t table_len, count, file_len;
    uint8_t table[MOST], file[4096];
    uint32_t words[WORDS];
} work;

/* What a call leaves behind. */
typedef struct {
    dugg_answer answer;
    dugg_site site;
    uint8_t bytes[MOST];
    uint32_t words[WORDS];
    uint16_t list[4 * MOST];
} left;

static bool has(const maker *m, int operation)
{
    switch (operation) {
    case PLAN: return m->plan != NULL;
    case CHECK: return m->check != NULL;
    case MEND: return m->mend != NULL;
    default: return m->read_site != NULL;
    }
}

static void mend(const maker *m, const work *w, left *l)
{
    memcpy(l->bytes, w->table, w->table_len);
    l->answer = m->mend(w->site, l->bytes, w->table_len, l->list, sizeof l->list / sizeof l->list[0]);
}

static void read_site(const maker *m, const work *w, left *l)
{
    dugg_edited read = m->read_site(w->file, w->file_len);
    l->answer = read.answer;
    l->site = read.site;
}

static void run(const maker *m, int operation, const work *w, left *l)
{
    switch (operation) {
    case PLAN: l->answer = m->plan(w->site, l->bytes, w->table_len); break;
    case CHECK: l->answer = m->check(w->site, w->table, w->table_len); break;
    case LOAD_TEST: l->answer = m->load_test(w->site); break;
    case PLAN_WORDS: l->answer = m->plan_words(w->site, l->words, w->count); break;
    case CHECK_WORDS: l->answer = m->check_words(w->site, w->words, w->count); break;
    case MEND: mend(m, w, l); break;
    case READ_SITE: read_site(m, w, l); break;
    default: l->answer = m->write_site(w->site, l->bytes, sizeof l->bytes); break;
    }
}

/* ---- the sites ---- */

/* Gives whether the site has a plan. */
static bool make(work *w, int k)
{
    w->name = site_name(rows[k].site);
    w->half = rows[k].by_channels ? "half of the channels" : "every second position";
    w->site = site_of(rows[k].site);
    block_half(&w->site, rows[k].by_channels);
    w->count = (size_t)w->site.slots * w->site.channels;
    w->table_len = w->site.cells * w->count;
    dugg_answer file = plain2_write_site(w->site, w->file, sizeof w->file);
    w->file_len = file.value[0];
    return plain2_plan(w->site, w->table, w->table_len).number == 0 &&
           plain2_plan_words(w->site, w->words, w->count).number == 0 && file.number == 0;
}

/* ---- agreement ---- */

/* Records given back have bytes between their fields that belong to none. */
static bool same(const left *a, const left *b)
{
    return memcmp(&a->answer, &b->answer, sizeof a->answer) == 0 && a->site.cells == b->site.cells &&
           a->site.slots == b->site.slots && a->site.channels == b->site.channels &&
           memcmp(a->site.loads, b->site.loads, sizeof a->site.loads) == 0 &&
           memcmp(a->site.reach, b->site.reach, sizeof a->site.reach) == 0 &&
           memcmp(a->site.blocked, b->site.blocked, sizeof a->site.blocked) == 0 && a->site.rule == b->site.rule &&
           memcmp(a->bytes, b->bytes, sizeof a->bytes) == 0 && memcmp(a->words, b->words, sizeof a->words) == 0 &&
           memcmp(a->list, b->list, sizeof a->list) == 0;
}

static int agree(const work *w)
{
    static left first, other;
    int fine = 1;
    for (int operation = 0; operation < OPERATIONS; operation++) {
        memset(&first, 0xA5, sizeof first);
        run(&makers[LIBRARY], operation, w, &first);
        for (int m = LIBRARY + 1; m < MAKERS; m++) {
            if (!has(&makers[m], operation))
                continue;
            memset(&other, 0xA5, sizeof other);
            run(&makers[m], operation, w, &other);
            if (!same(&first, &other)) {
                printf("%s, %s blocked, %s: the library and %s disagree\n", w->name, w->half, operations[operation],
                       makers[m].name);
                fine = 0;
            }
        }
    }
    return fine;
}

/* The same inputs made wrong: nothing blocked any more, all blocked, a reservation at the last position and at the second,
 * a load too large, a position that the site does not have, the file a byte shorter and longer. */
static int agree_when_wrong(const work *w)
{
    static work wrong;
    unsigned last = w->site.cells - 1, full = w->count % 64;
    wrong = *w;
    memset(wrong.site.blocked, 0, sizeof wrong.site.blocked);
    wrong.file_len--;
    int fine = agree(&wrong);
    wrong.file_len += 2;
    for (size_t p = 0; p < w->count; p++)
        wrong.site.blocked[p / 64] |= 1ull << p % 64;
    fine &= agree(&wrong);
    wrong = *w;
    wrong.table[last * w->count + w->count - 1] = 1;
    wrong.words[w->count - 1] |= 1u << last;
    wrong.site.loads[0] = 65535;
    fine &= agree(&wrong);
    wrong.table[last * w->count + 1] = 1;
    wrong.words[1] |= 1u << last | 1;
    memset(wrong.file + w->file_len - (w->count + 7) / 8, 0, (w->count + 7) / 8);
    fine &= agree(&wrong);
    wrong = *w;
    if (w->count < WORDS)
        wrong.site.blocked[w->count / 64] |= 1ull << full;
    if (w->count % 8 != 0)
        wrong.file[w->file_len - 1] |= 128;
    return fine & agree(&wrong);
}

static work works[ROWS];

int blocked_agree(void)
{
    int fine = 1;
    for (int k = 0; k < ROWS; k++) {
        if (!make(&works[k], k)) {
            printf("%s, %s blocked: has no plan\n", works[k].name, works[k].half);
            return 0;
        }
        fine &= agree(&works[k]) & agree_when_wrong(&works[k]);
    }
    return fine;
}

/* ---- the table ---- */

static void call(int column, const void *of)
{
    static left l;
    const call_on *j = of;
    run(&makers[column], j->call, &works[j->site], &l);
}

static void label(int site, int operation)
{
    printf("| %s | %s; %s", operations[operation], works[site].name, works[site].half);
}

static bool counts(int site, int operation)
{
    return operation == PLAN || operation == CHECK;
}

void blocked_table(void)
{
    double worst = print_calls(&(call_table){
        .title = "Half of the site blocked",
        .note = "The loads are half of those above. Mending a valid table has the time of laying it out in it.",
        .first = "Call | Site and what is blocked",
        .sites = ROWS,
        .calls = OPERATIONS,
        .has = has,
        .run = call,
        .label = label,
        .counts = counts,
    });
    printf("\nWith half of the site blocked, plan and check are %s a quarter of C -O3: the worst ratio is %.2f.\n",
           worst <= 1.25 ? "within" : "NOT within", worst);
}
