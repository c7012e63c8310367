/* How long calls take, and the tables of it. */
#include <stdio.h>
#include <time.h>
#include "bench.h"

enum { REPEATS = 15, PAGE = 4096 };

/* Compiled with -DCOUNTED it is instructions executed, not nanoseconds: benches/count has them counted in the file at
 * descriptor 3. Counts need few calls. */
#ifdef COUNTED
#include <stdlib.h>
#include <unistd.h>
#define UNIT "instructions"
enum { ENOUGH = 50000 };

static double now(void)
{
    uint64_t count;
    if (pread(3, &count, sizeof count, 0) != sizeof count)
        abort();
    return count;
}
#else
#define UNIT "ns"
enum { ENOUGH = 2000000 };

static double now(void)
{
    struct timespec t;
    clock_gettime(CLOCK_MONOTONIC, &t);
    return t.tv_sec * 1e9 + t.tv_nsec;
}
#endif

double time_calls(column_call *call, int column, const void *job, long calls)
{
    double start = now();
    for (long k = 0; k < calls; k++)
        call(column, job);
    return (now() - start) / calls;
}

/* The same with the stack so many bytes lower. */
static double time_lower(column_call *call, int column, const void *job, long calls, int bytes)
{
    volatile char room[bytes];
    room[0] = 0;
    double t = time_calls(call, column, job, calls);
    room[0] = 1;
    return t;
}

/* The columns take turns, so that all meet the same weather. A processor that reads a table waits for what was just
 * stored whole pages away, as a record's copy on the stack may be. So the stack lies elsewhere in its page from repeat
 * to repeat, for every column alike. */
void measure(column_call *call, const void *job, const bool there[MAKERS], double best[MAKERS])
{
    long calls[MAKERS];
    for (int m = 0; m < MAKERS; m++) {
        best[m] = there[m] ? time_calls(call, m, job, 3) : 0;
        calls[m] = best[m] == 0 ? 0 : best[m] > ENOUGH ? 1 : ENOUGH / best[m];
    }
    for (int repeat = 0; repeat < REPEATS; repeat++)
        for (int m = 0; m < MAKERS; m++) {
            double t = calls[m] == 0 ? 0 : time_lower(call, m, job, calls[m], 16 + repeat * (PAGE / REPEATS));
            if (t < best[m])
                best[m] = t;
        }
}

void print_head(const char *first, const char *const names[MAKERS], int columns)
{
    printf("| %s", first);
    for (int m = 0; m < columns; m++)
        printf(" | %s " UNIT, names[m]);
    for (int m = LIBRARY + 1; m < columns; m++)
        printf(" | library / %s", names[m]);
    printf(" |\n|---|---");
    for (int m = 0; m < 2 * columns - 1; m++)
        printf("|---:");
    printf("|\n");
}

/* A number in a column, or a dash for 0. */
static void print_number(double number, int digits)
{
    if (number == 0)
        printf(" | -");
    else
        printf(" | %.*f", digits, number);
}

void print_times(const double best[MAKERS], int columns)
{
    for (int m = 0; m < columns; m++)
        print_number(best[m], 0);
    for (int m = LIBRARY + 1; m < columns; m++)
        print_number(best[m] == 0 ? 0 : best[LIBRARY] / best[m], 2);
    printf(" |\n");
}

double print_calls(const call_table *t)
{
    const char *names[MAKERS];
    double best[MAKERS], worst = 0;
    bool there[MAKERS];
    for (int m = 0; m < MAKERS; m++)
        names[m] = makers[m].name;
    printf("\n### %s\n\n%s\n\n", t->title, t->note);
    print_head(t->first, names, MAKERS);
    for (int site = 0; site < t->sites; site++)
        for (int call = 0; call < t->calls; call++) {
            for (int m = 0; m < MAKERS; m++)
                there[m] = t->has(&makers[m], call);
            measure(t->run, &(call_on){site, call}, there, best);
            t->label(site, call);
            print_times(best, MAKERS);
            if (t->counts(site, call) && best[LIBRARY] / best[C3] > worst)
                worst = best[LIBRARY] / best[C3];
        }
    return worst;
}
