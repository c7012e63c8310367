/* The benchmark: the time per call of the proved library, the second program, plain C (-O2 and -O3) and C on bit sets,
 * in one run and on the same inputs. It first checks that all give the same answers and the same bytes. It prints
 * markdown. */
#include <stdio.h>
#include <stdlib.h>
#include <string.h>
#include "bench.h"

enum { SITES = 5 };

static const int sites[SITES] = {P1, MIDDLE_TUNNEL, MIDDLE_ALL, TUNNEL, ALL_CLASH};

#define MAKER(name, P)                                                                                                \
    {name,              P##fault,      P##set_load,   P##set_reach,   P##clear_reach,                                 \
     P##plan,           P##check,      P##load_test,  P##chain,       P##class,       P##least,                       \
     P##read_site,      P##write_site, P##read_plan,  P##write_plan,  P##read_sheet, P##write_sheet,                  \
     P##share_repeated, P##admit,      P##admit_beside,                                                               \
     P##plan_words,     P##check_words, P##to_words,  P##to_bytes,                                                    \
     P##mend,           P##heaviest,   P##renumber,   P##carry,       P##clash,      P##search,      P##find,         \
     P##over_full,      P##change_load, P##tidy}

const maker makers[MAKERS] = {
    [LIBRARY] = MAKER("library", dugg_),
    [SECOND] = MAKER("second", second_),
    [C2] = MAKER("C -O2", plain2_),
    [C3] = MAKER("C -O3", plain3_),
    [BITS] = {.name = "C bits", .plan = bits_plan, .check = bits_check, .mend = bits_mend, .change_load = bits_change_load},
};

enum {
    FAULT, SET_LOAD, SET_REACH, CLEAR_REACH, PLAN, CHECK, LOAD_TEST, CHAIN, CLASS, LEAST, READ_SITE, WRITE_SITE, READ_PLAN,
    WRITE_PLAN, READ_SHEET, WRITE_SHEET, SHARE, OPERATIONS
};

static const char *const operations[OPERATIONS] = {
    "fault", "set load", "set reach", "clear reach", "plan", "check", "load test", "chain", "nested", "least", "read site",
    "write site", "read plan", "write plan", "read sheet", "write sheet", "share with repeats",
};

/* A site with its planned table, its two files and its sheet, a flow on it, a cell whose load is edited, and pairs of cells
 * for the edits of reach. */
typedef struct {
    const char *name;
    dugg_site site;
    size_t table_len, site_len, plan_len, sheet_len;
    uint8_t table[MOST], site_file[4096], plan_file[MOST], sheet[4096];
    uint16_t burst, period, repeats;
    uint16_t cell, from, to;
} work;

/* What a call leaves behind. */
typedef struct {
    dugg_answer answer;
    dugg_site site;
    uint8_t bytes[MOST];
} left;

/* Is the call there? */
static bool has(const maker *m, int operation)
{
    switch (operation) {
    case FAULT: return m->fault != NULL;
    case SET_LOAD: return m->set_load != NULL;
    case SET_REACH: return m->set_reach != NULL;
    case CLEAR_REACH: return m->clear_reach != NULL;
    case PLAN: return m->plan != NULL;
    case CHECK: return m->check != NULL;
    case LOAD_TEST: return m->load_test != NULL;
    case CHAIN: return m->chain != NULL;
    case CLASS: return m->class != NULL;
    case LEAST: return m->least != NULL;
    case READ_SITE: return m->read_site != NULL;
    case WRITE_SITE: return m->write_site != NULL;
    case READ_PLAN: return m->read_plan != NULL;
    case WRITE_PLAN: return m->write_plan != NULL;
    case READ_SHEET: return m->read_sheet != NULL;
    case WRITE_SHEET: return m->write_sheet != NULL;
    default: return m->share_repeated != NULL;
    }
}

static void keep(left *l, dugg_edited read)
{
    l->answer = read.answer;
    l->site = read.site;
}

static dugg_blocked blocked_of(const dugg_site *s)
{
    dugg_blocked blocked;
    memcpy(blocked.bits, s->blocked, sizeof blocked.bits);
    return blocked;
}

static void run(const maker *m, int operation, const work *w, left *l)
{
    switch (operation) {
    case FAULT: l->answer = m->fault(w->site); break;
    case SET_LOAD: keep(l, m->set_load(w->site, w->cell, 7)); break;
    case SET_REACH: keep(l, m->set_reach(w->site, w->cell, w->from)); break;
    case CLEAR_REACH: keep(l, m->clear_reach(w->site, w->from, w->to)); break;
    case PLAN: l->answer = m->plan(w->site, l->bytes, w->table_len); break;
    case CHECK: l->answer = m->check(w->site, w->table, w->table_len); break;
    case LOAD_TEST: l->answer = m->load_test(w->site); break;
    case CHAIN: l->answer = m->chain(w->site); break;
    case CLASS: l->answer = m->class(w->site); break;
    case LEAST: l->answer = m->least(w->site); break;
    case READ_SITE: keep(l, m->read_site(w->site_file, w->site_len)); break;
    case WRITE_SITE: l->answer = m->write_site(w->site, l->bytes, sizeof l->bytes); break;
    case READ_PLAN: {
        dugg_plan_read read = m->read_plan(w->plan_file, w->plan_len, l->bytes, w->table_len);
        l->answer = read.answer;
        l->site.cells = read.cells, l->site.slots = read.slots, l->site.channels = read.channels;
        break;
    }
    case WRITE_PLAN: l->answer = m->write_plan(w->site, w->table, w->table_len, l->bytes, sizeof l->bytes); break;
    case READ_SHEET: {
        dugg_blocked blocked = blocked_of(&w->site);
        keep(l, m->read_sheet(w->sheet, w->sheet_len, w->site.slots, w->site.channels, blocked, w->site.rule));
        break;
    }
    case WRITE_SHEET: l->answer = m->write_sheet(w->site, l->bytes, sizeof l->bytes); break;
    case SHARE: l->answer = m->share_repeated(w->site.slots, w->burst, w->period, w->repeats); break;
    }
}

/* ---- the sites ---- */

/* The bursts, periods and repeats of a flow on each. */
static const uint16_t flows[SITES][3] = {{3, 4, 2}, {40, 500, 2}, {1000, 777, 3}, {65535, 1024, 4}, {65535, 65535, 4}};

static void flow(work *w, unsigned burst, unsigned period, unsigned repeats)
{
    w->burst = burst, w->period = period, w->repeats = repeats;
}

static bool largest(const work *w)
{
    return w->table_len == MOST;
}

/* The table and the files of a site, made by plain C. Gives how many of the site's own operations were refused. */
static int make_files(work *w)
{
    w->table_len = (size_t)w->site.cells * w->site.slots * w->site.channels;
    dugg_answer planned = plain2_plan(w->site, w->table, w->table_len);
    dugg_answer site = plain2_write_site(w->site, w->site_file, sizeof w->site_file);
    dugg_answer plan = plain2_write_plan(w->site, w->table, w->table_len, w->plan_file, sizeof w->plan_file);
    dugg_answer sheet = plain2_write_sheet(w->site, w->sheet, sizeof w->sheet);
    w->site_len = site.value[0];
    w->plan_len = plan.value[0];
    w->sheet_len = sheet.value[0];
    return (planned.number != 0) + (site.number != 0) + (plan.number != 0) + (sheet.number != 0);
}

/* ---- agreement ---- */

static int same_site(const dugg_site *a, const dugg_site *b)
{
    return a->cells == b->cells && a->slots == b->slots && a->channels == b->channels &&
           memcmp(a->loads, b->loads, sizeof a->loads) == 0 && memcmp(a->reach, b->reach, sizeof a->reach) == 0 &&
           memcmp(a->blocked, b->blocked, sizeof a->blocked) == 0 && a->rule == b->rule;
}

/* Do all that have a call answer alike, and leave the same bytes? */
static int agree(const work *w)
{
    static left first, other;
    int fine = 1;
    for (int operation = 0; operation < OPERATIONS; operation++) {
        memset(&first, 0xA5, sizeof first);
        run(&makers[LIBRARY], operation, w, &first);
        for (int m = LIBRARY + 1; m < MAKERS; m++) {
            if (!has(&makers[m], operation))
                continue;
            memset(&other, 0xA5, sizeof other);
            run(&makers[m], operation, w, &other);
            if (memcmp(&first.answer, &other.answer, sizeof first.answer) != 0 ||
                !same_site(&first.site, &other.site) || memcmp(first.bytes, other.bytes, MOST) != 0) {
                printf("%s, %s: the library and %s disagree\n", w->name, operations[operation], makers[m].name);
                fine = 0;
            }
        }
    }
    return fine;
}

/* The same inputs made wrong in a few ways: a load one more or one less, a chain that is broken, a table too short, files
 * cut, a table of 1 throughout, a table whose last forbidden position is reserved; repeats of 0 and of 5, a period of 0,
 * too large a share; an edit of a cell that is not there, and of the reach of a cell to itself. */
static int agree_when_wrong(const work *w)
{
    static work wrong;
    wrong = *w;
    wrong.site.loads[w->site.cells - 1]++;
    wrong.repeats = 0;
    wrong.cell = w->site.cells + 1;
    wrong.to = 0;
    int fine = agree(&wrong);
    wrong.site.loads[w->site.cells - 1] -= 2;
    wrong.repeats = 5;
    wrong.cell = 0;
    wrong.to = w->site.cells + 1;
    fine &= agree(&wrong);
    wrong = *w;
    wrong.site.reach[0] = 1u << (w->site.cells - 1);
    wrong.site.reach[1] &= ~1u;
    fine &= agree(&wrong);
    wrong = *w;
    wrong.table_len--, wrong.site_len--, wrong.plan_len--, wrong.sheet_len--;
    flow(&wrong, 65535, 1, 2);
    wrong.cell = wrong.to = wrong.from;
    fine &= agree(&wrong);
    wrong = *w;
    memset(wrong.table, 1, wrong.table_len);
    wrong.site_file[4] = wrong.plan_file[4] = 33;
    wrong.sheet[w->sheet_len - 3] = '2';
    wrong.period = 0;
    fine &= agree(&wrong);
    wrong = *w;
    size_t last = w->table_len - 1;
    while (w->table[last] != 2)
        last--;
    wrong.table[last] = 1;
    return fine & agree(&wrong);
}

/* ---- time ---- */

/* One operation on one site. */
typedef struct {
    int operation;
    const work *w;
} job;

static void call(int m, const void *of)
{
    static left l;
    const job *j = of;
    run(&makers[m], j->operation, j->w, &l);
}

/* How much a call has to do, in words. */
static void print_size(int operation, const work *w)
{
    switch (operation) {
    case FAULT:
    case SET_LOAD:
    case SET_REACH:
    case CLEAR_REACH: printf("record of %u cells", w->site.cells); break;
    case PLAN:
    case CHECK: printf("table of %zu bytes", w->table_len); break;
    case LOAD_TEST:
    case CHAIN:
    case CLASS:
    case LEAST: printf("%u cells", w->site.cells); break;
    case READ_SITE:
    case WRITE_SITE: printf("file of %zu bytes", w->site_len); break;
    case READ_SHEET:
    case WRITE_SHEET: printf("sheet of %zu bytes", w->sheet_len); break;
    case SHARE: printf("burst of %u, period of %u, sent %u times", w->burst, w->period, w->repeats); break;
    default: printf("file of %zu bytes, table of %zu", w->plan_len, w->table_len); break;
    }
}

/* Prints a site's table; raises, for the largest sites, the worst ratios of plan and check, and of the sheet to C -O3. */
static void table_of(const work *w, double worst[MAKERS], double *sheet)
{
    const char *names[MAKERS];
    for (int m = 0; m < MAKERS; m++)
        names[m] = makers[m].name;
    printf("\n### %s\n\n", w->name);
    printf("%u cells, %u slots, %u channels.\n\n", w->site.cells, w->site.slots, w->site.channels);
    print_head("Call | Size of the work", names, MAKERS);
    for (int operation = 0; operation < OPERATIONS; operation++) {
        double best[MAKERS];
        bool there[MAKERS];
        for (int m = 0; m < MAKERS; m++)
            there[m] = has(&makers[m], operation);
        measure(call, &(job){operation, w}, there, best);
        printf("| %s | ", operations[operation]);
        print_size(operation, w);
        print_times(best, MAKERS);
        for (int m = LIBRARY + 1; m < MAKERS; m++) {
            double ratio = best[m] == 0 ? 0 : best[LIBRARY] / best[m];
            if ((operation == PLAN || operation == CHECK) && largest(w) && ratio > worst[m])
                worst[m] = ratio;
            if ((operation == READ_SHEET || operation == WRITE_SHEET) && largest(w) && m == C3 && ratio > *sheet)
                *sheet = ratio;
        }
    }
}

int main(void)
{
    static work w[SITES];
    int fine = 1;
    for (int k = 0; k < SITES; k++) {
        w[k].name = site_name(sites[k]);
        w[k].site = site_of(sites[k]);
        flow(&w[k], flows[k][0], flows[k][1], flows[k][2]);
        w[k].cell = w[k].site.cells, w[k].from = 2, w[k].to = 3;
        if (make_files(&w[k]) != 0) {
            printf("%s: has no plan\n", w[k].name);
            return 1;
        }
        fine &= agree(&w[k]) & agree_when_wrong(&w[k]);
    }
    fine &= admit_agree() & words_agree() & mend_agree() & heaviest_agree() & number_agree() & blocked_agree() & rules_agree() & search_agree() &
            find_agree() & handheld_agree() & tidy_agree();
    if (!fine)
        return 1;
    printf("All gave the same answers and the same bytes on these inputs before they were timed.\n");
    double worst[MAKERS] = {0}, sheet = 0;
    for (int k = 0; k < SITES; k++)
        table_of(&w[k], worst, &sheet);
    admit_table();
    words_table();
    mend_table();
    heaviest_table();
    number_table();
    search_table();
    find_table();
    handheld_table();
    blocked_table();
    rules_table();
    tidy_table();
    printf("\nPlan and check on the largest sites are %s a quarter of C -O3: the worst ratio is %.2f.\n",
           worst[C3] <= 1.25 ? "within" : "NOT within", worst[C3]);
    printf("\nReading and writing the sheets of the largest sites take %s twice the time of C -O3: the worst ratio is %.2f.\n",
           sheet <= 2 ? "at most" : "MORE THAN", sheet);
    printf("\nTo C bits, the worst ratio of plan and check on the largest sites is %.2f.\n", worst[BITS]);
    return 0;
}
