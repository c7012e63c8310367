/* What the parts of the benchmark share: who is timed, how, and how a table is printed. */
#ifndef BENCH_H
#define BENCH_H

#include <stdbool.h>
#include "plain.h"

CALLS(second_)
CALLS(plain2_)
CALLS(plain3_)

enum { MOST = 65536 };

/* The columns of a table. The last is the C on bit sets, or what a table has in its place. */
enum { LIBRARY, SECOND, C2, C3, BITS, MAKERS };

/* Who is timed: its name and its calls. One that a maker lacks is NULL. */
typedef struct {
    const char *name;
    dugg_answer (*fault)(dugg_site);
    dugg_edited (*set_load)(dugg_site, uint16_t, uint16_t);
    dugg_edited (*set_reach)(dugg_site, uint16_t, uint16_t);
    dugg_edited (*clear_reach)(dugg_site, uint16_t, uint16_t);
    dugg_answer (*plan)(dugg_site, uint8_t *, size_t);
    dugg_answer (*check)(dugg_site, const uint8_t *, size_t);
    dugg_answer (*load_test)(dugg_site);
    dugg_answer (*chain)(dugg_site);
    dugg_answer (*class)(dugg_site);
    dugg_answer (*least)(dugg_site);
    dugg_edited (*read_site)(const uint8_t *, size_t);
    dugg_answer (*write_site)(dugg_site, uint8_t *, size_t);
    dugg_plan_read (*read_plan)(const uint8_t *, size_t, uint8_t *, size_t);
    dugg_answer (*write_plan)(dugg_site, const uint8_t *, size_t, uint8_t *, size_t);
    dugg_edited (*read_sheet)(const uint8_t *, size_t, uint16_t, uint16_t, dugg_blocked, uint16_t);
    dugg_answer (*write_sheet)(dugg_site, uint8_t *, size_t);
    dugg_answer (*share_repeated)(uint16_t, uint16_t, uint16_t, uint16_t);
    dugg_answer (*admit)(dugg_site, const dugg_flow *, size_t);
    dugg_answer (*admit_beside)(dugg_site, const dugg_flow *, size_t);
    dugg_answer (*plan_words)(dugg_site, uint32_t *, size_t);
    dugg_answer (*check_words)(dugg_site, const uint32_t *, size_t);
    dugg_answer (*to_words)(dugg_site, const uint8_t *, size_t, uint32_t *, size_t);
    dugg_answer (*to_bytes)(dugg_site, const uint32_t *, size_t, uint8_t *, size_t);
    dugg_answer (*mend)(dugg_site, uint8_t *, size_t, uint16_t *, size_t);
    dugg_answer (*heaviest)(dugg_site);
    dugg_renumbered (*renumber)(dugg_site);
    dugg_answer (*carry)(dugg_site, const uint8_t *, size_t, uint8_t *, size_t);
    dugg_answer (*clash)(dugg_site, uint16_t, uint16_t);
    dugg_answer (*search)(dugg_site, uint64_t, uint8_t *, size_t);
    dugg_answer (*find)(dugg_site, uint64_t, uint8_t *, size_t);
    dugg_answer (*over_full)(dugg_site, uint32_t);
    dugg_answer (*change_load)(dugg_site *, uint16_t, uint16_t, uint8_t *, size_t);
    dugg_answer (*tidy)(const uint8_t *, size_t, uint8_t *, size_t);
} maker;

extern const maker makers[MAKERS];

/* ---- sites ---- */

/* The sites of the tables. From TUNNEL on they are of the largest size. */
enum { P1, MIDDLE_TUNNEL, MIDDLE_ALL, TUNNEL, ALL_CLASH, NONE_CLASH, MIXED, NONE_MIXED, NAMED_SITES };

const char *site_name(int site);
dugg_site site_of(int site);

/* A site of this size and of rule 1, without loads, in which nobody reaches anybody. */
void size(dugg_site *s, unsigned cells, unsigned slots, unsigned channels);

/* Each cell reaches the next few, one way. */
void tunnel(dugg_site *s, unsigned width);

/* Blocks half of the site, every second position or in every slot the second half of the channels, and halves the loads. */
void block_half(dugg_site *s, bool by_channels);

/* A random number, the same in every run for the same seed (splitmix64). */
uint64_t chance(uint64_t *seed);

/* ---- time ---- */

/* What a column does in a row. */
typedef void column_call(int column, const void *job);

/* The time of one call, in nanoseconds, over so many calls. */
double time_calls(column_call *call, int column, const void *job, long calls);

/* The best time per call of each column, in nanoseconds, or 0 for one that is not there. */
void measure(column_call *call, const void *job, const bool there[MAKERS], double best[MAKERS]);

/* ---- tables ---- */

/* The two lines above a table: the two columns that come first, then the times of so many makers and their ratios. */
void print_head(const char *first, const char *const names[MAKERS], int columns);

/* The times and ratios of a row. A time of 0 is a dash. */
void print_times(const double best[MAKERS], int columns);

/* A table with a row for each call on each site. */
typedef struct {
    const char *title, *note, *first;          /* its heading, the line below it, and the columns that come first */
    int sites, calls;
    bool (*has)(const maker *m, int call);     /* whether a maker has the call */
    column_call *run;                          /* the job is a call_on */
    void (*label)(int site, int call);         /* prints the columns that come first */
    bool (*counts)(int site, int call);        /* whether the ratio to C -O3 counts for the worst */
} call_table;

typedef struct {
    int site, call;
} call_on;

/* Times and prints the table, with every maker in it. The worst ratio to C -O3 of the rows that count. */
double print_calls(const call_table *t);

/* ---- the parts: agreement before the time, then the table ---- */

int admit_agree(void);
void admit_table(void);
int words_agree(void);
void words_table(void);
int mend_agree(void);
void mend_table(void);
int heaviest_agree(void);
void heaviest_table(void);
int number_agree(void);
void number_table(void);
int search_agree(void);
void search_table(void);
int find_agree(void);
void find_table(void);
int tidy_agree(void);
void tidy_table(void);
int handheld_agree(void);
void handheld_table(void);
int blocked_agree(void);
void blocked_table(void);
int rules_agree(void);
void rules_table(void);

#endif
