/* One word per position: plan, check and both changes of form, beside plain C and beside the calls over bytes. */
#include <stdio.h>
#include <string.h>
#include "bench.h"

enum { ROWS = 7, WORDS = 2048 };

enum { PLAN_WORDS, CHECK_WORDS, TO_WORDS, TO_BYTES, FORMS };

static const int sites[ROWS] = {P1, MIDDLE_TUNNEL, TUNNEL, ALL_CLASH, NONE_CLASH, MIXED, NONE_MIXED};
static const char *const forms[FORMS] = {"plan words", "check words", "to words", "to bytes"};

/* A site with its planned table in both forms. */
typedef struct {
    const char *name;
    dugg_site site;
    size_t table_len, count;
    uint8_t table[MOST];
    uint32_t words[WORDS];
} both;

/* What a call leaves behind. */
typedef struct {
    dugg_answer answer;
    uint8_t table[MOST];
    uint32_t words[WORDS];
} left;

static void run(const maker *m, int form, const both *b, left *l)
{
    switch (form) {
    case PLAN_WORDS: l->answer = m->plan_words(b->site, l->words, b->count); break;
    case CHECK_WORDS: l->answer = m->check_words(b->site, b->words, b->count); break;
    case TO_WORDS: l->answer = m->to_words(b->site, b->table, b->table_len, l->words, b->count); break;
    default: l->answer = m->to_bytes(b->site, b->words, b->count, l->table, b->table_len); break;
    }
}

/* ---- agreement ---- */

static int agree(const both *b)
{
    static left first, other;
    int fine = 1;
    for (int form = 0; form < FORMS; form++) {
        memset(&first, 0xA5, sizeof first);
        run(&makers[LIBRARY], form, b, &first);
        for (int m = LIBRARY + 1; m <= C3; m++) {
            memset(&other, 0xA5, sizeof other);
            run(&makers[m], form, b, &other);
            if (memcmp(&first, &other, sizeof first) != 0) {
                printf("%s, %s: the library and %s disagree\n", b->name, forms[form], makers[m].name);
                fine = 0;
            }
        }
    }
    return fine;
}

/* The same inputs made wrong: a load one more or one less, a word or a byte too few, all bits set, all bytes 1, a cell
 * added at the last position. */
static int agree_when_wrong(const both *b)
{
    static both wrong;
    unsigned last = b->site.cells - 1;
    wrong = *b;
    wrong.site.loads[last]++;
    int fine = agree(&wrong);
    wrong.site.loads[last] -= 2;
    fine &= agree(&wrong);
    wrong = *b;
    wrong.count--;
    fine &= agree(&wrong);
    wrong = *b;
    wrong.table_len--;
    fine &= agree(&wrong);
    wrong = *b;
    memset(wrong.words, 0xFF, sizeof wrong.words);
    memset(wrong.table, 1, sizeof wrong.table);
    fine &= agree(&wrong);
    wrong = *b;
    wrong.words[b->count - 1] ^= 1u << last | (last < 31 ? 1u << 31 : 0);
    return fine & agree(&wrong);
}

static both tables[ROWS];

int words_agree(void)
{
    int fine = 1;
    for (int k = 0; k < ROWS; k++) {
        both *b = &tables[k];
        b->name = site_name(sites[k]);
        b->site = site_of(sites[k]);
        b->count = (size_t)b->site.slots * b->site.channels;
        b->table_len = b->site.cells * b->count;
        if (plain2_plan(b->site, b->table, b->table_len).number != 0 ||
            plain2_plan_words(b->site, b->words, b->count).number != 0) {
            printf("%s: has no plan\n", b->name);
            return 0;
        }
        fine &= agree(b) & agree_when_wrong(b);
    }
    return fine;
}

/* ---- the table ---- */

typedef struct {
    int form;
    const both *b;
} job;

/* In the last column stands the library's own call over bytes. */
static void call(int column, const void *of)
{
    static left l;
    const job *j = of;
    if (column != BITS)
        run(&makers[column], j->form, j->b, &l);
    else if (j->form == PLAN_WORDS)
        makers[LIBRARY].plan(j->b->site, l.table, j->b->table_len);
    else
        makers[LIBRARY].check(j->b->site, j->b->table, j->b->table_len);
}

/* The larger of a number and a ratio, where the site is of the largest size. */
static double larger(double worst, double a, double b, const both *of)
{
    return of->table_len == MOST && a / b > worst ? a / b : worst;
}

void words_table(void)
{
    static const char *const names[MAKERS] = {"library", "second", "C -O2", "C -O3", "library, bytes"};
    double plan = 0, bytes = 0, check = 0;
    printf("\n### One word per position\n\n");
    printf("`library, bytes` is the library's own plan or check over the table of bytes.\n\n");
    print_head("Call | Site", names, MAKERS);
    for (int k = 0; k < ROWS; k++)
        for (int form = 0; form < FORMS; form++) {
            const both *b = &tables[k];
            const bool there[MAKERS] = {true, true, true, true, form == PLAN_WORDS || form == CHECK_WORDS};
            double best[MAKERS];
            measure(call, &(job){form, b}, there, best);
            printf("| %s | %s", forms[form], b->name);
            print_times(best, MAKERS);
            if (form == PLAN_WORDS) {
                plan = larger(plan, best[LIBRARY], best[C3], b);
                bytes = larger(bytes, best[LIBRARY], best[BITS], b);
            }
            if (form == CHECK_WORDS)
                check = larger(check, best[LIBRARY], best[C3], b);
        }
    printf("\nPlanning words on the largest sites is %s a half of C -O3: the worst ratio is %.2f.",
           plan <= 1.5 ? "within" : "NOT within", plan);
    printf(" It takes %s a tenth of the time of planning bytes: the worst ratio is %.3f.\n",
           bytes <= 0.1 ? "at most" : "MORE THAN", bytes);
    printf("\nChecking words on the largest sites is %s a quarter of C -O3: the worst ratio is %.2f.\n",
           check <= 1.25 ? "within" : "NOT within", check);
}
