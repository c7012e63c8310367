/* Which flows to admit: small, middle and full lists, beside the search in plain C and a quicker one. */
#include <stdio.h>
#include <string.h>
#include "bench.h"

enum { FLOWS = 16, LISTS = 200, ROWS = 7 };

/* A site and a list of flows for it, on top of its loads or with these set aside. */
typedef struct {
    const char *name;
    dugg_site site;
    dugg_flow flows[FLOWS + 1];
    size_t count;
    bool beside;
} offer;

static dugg_answer admit(int column, const offer *o)
{
    if (o->beside)
        return (column == BITS ? sets_admit_beside : makers[column].admit_beside)(o->site, o->flows, o->count);
    return (column == BITS ? sets_admit : makers[column].admit)(o->site, o->flows, o->count);
}

static void call(int column, const void *job)
{
    admit(column, job);
}

/* ---- the lists ---- */

/* Flows in any cells, with shares up to a bound; with a period of T a share is the burst. Values are any, or rise from
 * flow to flow, or about double, which is the hardest order: the last flow is the first to be decided. */
static void draw(offer *o, uint64_t *seed, unsigned most_share)
{
    unsigned kind = chance(seed) % 3, spread = 1 + chance(seed) % 20000, bound = 1 + chance(seed) % most_share;
    o->count = FLOWS;
    for (unsigned k = 0; k < FLOWS; k++) {
        unsigned step = kind == 0 ? 0 : kind == 1 ? 2500 * k : (1u << k) - 1;
        unsigned value = step + chance(seed) % (kind == 2 ? (1u << k) : spread);
        o->flows[k] = (dugg_flow){1 + chance(seed) % o->site.cells, 1 + chance(seed) % bound, o->site.slots, 1, value};
    }
}

/* Of 200 lists, the one that takes the library longest, by the best of some repeats, so that what else the machine does does not choose it. A
 * running site has a load in every cell, about a fifth of the room in a cell and the three before it. */
static void draw_hardest(offer *o, unsigned width, unsigned most_share)
{
    size(&o->site, 32, 128, 16);
    tunnel(&o->site, width);
    for (unsigned i = 0; o->beside && i < 32; i++)
        o->site.loads[i] = 64 + i;
    uint64_t seed = 2015 + width;
    double longest = 0;
    offer tried = *o;
    for (int k = 0; k < LISTS; k++) {
        draw(&tried, &seed, most_share);
        double t = time_calls(call, LIBRARY, &tried, 3);
        for (int again = 0; again < 8; again++) {
            double other = time_calls(call, LIBRARY, &tried, 3);
            t = other < t ? other : t;
        }
        if (t > longest) {
            longest = t;
            *o = tried;
        }
    }
}

static void make_offers(offer o[ROWS])
{
    o[0] = (offer){.name = "small: 3 cells, 3 flows", .count = 3,
                   .flows = {{1, 3, 4, 1, 39}, {2, 6, 7, 1, 41}, {3, 4, 11, 1, 20}}};
    size(&o[0].site, 3, 3, 2);
    tunnel(&o[0].site, 1);

    o[1] = (offer){.name = "middle: 12 cells in a tunnel, 9 flows", .count = 9};
    size(&o[1].site, 12, 32, 4);
    tunnel(&o[1].site, 2);
    for (unsigned k = 0; k < 9; k++)
        o[1].flows[k] = (dugg_flow){1 + k * 5 % 12, 20 + k * 7 % 30, 32, 1 + k % 2, 10 + k};

    o[2].name = "32 cells, all clash, 16 flows";
    draw_hardest(&o[2], 31, 512);
    o[3].name = "32 cells in a tunnel, 3 neighbours either side, 16 flows";
    draw_hardest(&o[3], 3, 2048);
    o[4].name = "32 cells, none clash, 16 flows";
    draw_hardest(&o[4], 0, 4096);

    o[6] = (offer){.name = "the same tunnel, 16 flows on top of its loads", .beside = true};
    draw_hardest(&o[6], 3, 2048);

    /* In rising order each set is the best so far, so that the plain C leaves none out. */
    o[5] = (offer){.name = "32 cells, none clash, 16 flows, values double", .count = FLOWS};
    size(&o[5].site, 32, 128, 16);
    for (unsigned k = 0; k < FLOWS; k++)
        o[5].flows[k] = (dugg_flow){1 + k, 100, 128, 1, 1u << k};
}

/* ---- agreement ---- */

static int agree(const offer *o)
{
    int fine = 1;
    dugg_answer first = admit(LIBRARY, o);
    for (int m = LIBRARY + 1; m < MAKERS; m++) {
        dugg_answer other = admit(m, o);
        if (memcmp(&first, &other, sizeof first) != 0) {
            printf("%s, admit: the library and column %d disagree\n", o->name, m + 1);
            fine = 0;
        }
    }
    return fine;
}

static offer offers[ROWS];

/* The lists, and each made wrong: a load above the room, a flow too many, a cell that is not there, no repeats, a site that is not nested. */
int admit_agree(void)
{
    int fine = 1;
    make_offers(offers);
    for (int k = 0; k < ROWS; k++) {
        offer wrong = offers[k];
        fine &= agree(&wrong);
        wrong.site.loads[1] = 65535;
        fine &= agree(&wrong);
        wrong.flows[1].repeats = 0;
        fine &= agree(&wrong);
        wrong.flows[1].cell = wrong.site.cells + 1;
        fine &= agree(&wrong);
        wrong.site.reach[0] = 4;
        wrong.site.reach[1] = 4;
        fine &= agree(&wrong);
        wrong.count = FLOWS + 1;
        fine &= agree(&wrong);
    }
    return fine;
}

/* ---- the table ---- */

void admit_table(void)
{
    static const char *const names[MAKERS] = {"library", "second", "C -O2", "C -O3", "C bits"};
    static const bool there[MAKERS] = {true, true, true, true, true};
    double worst = 0, longest = 0;
    printf("\n### Which flows to admit\n\n");
    printf("The lists of 16 flows are each the one of %d random lists that took the library longest, and one for"
           " which the plain C looks at every set. `second` always tries every set; `C bits` tries the most valuable flows first.\n\n",
           LISTS);
    print_head("Call | Site and flows", names, MAKERS);
    for (int k = 0; k < ROWS; k++) {
        double best[MAKERS];
        measure(call, &offers[k], there, best);
        printf("| %s | %s", offers[k].beside ? "admit beside" : "admit", offers[k].name);
        print_times(best, MAKERS);
        if (offers[k].count == FLOWS && best[LIBRARY] / best[C3] > worst)
            worst = best[LIBRARY] / best[C3];
        if (best[LIBRARY] > longest)
            longest = best[LIBRARY];
    }
    printf("\nAdmission of 16 flows is %s a quarter of C -O3: the worst ratio is %.2f.",
           worst <= 1.25 ? "within" : "NOT within", worst);
    printf(" The longest takes %.0f microseconds, %s 2 milliseconds.\n", longest / 1e3,
           longest <= 2e6 ? "within" : "NOT within");
}
