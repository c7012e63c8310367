/* Times plan, check and mend of the native library for benches/web/times.mjs, which times the same in WebAssembly: native SITE.. prints a line for each site, with nanoseconds and
 * how many changes the mend made. native --make FILE writes a site of the largest size in which each cell reaches the eight after it and is not reached. */
#define _POSIX_C_SOURCE 199309L
#include <stdio.h>
#include <string.h>
#include <time.h>
#include "duggfrask.h"

enum { TABLE = 65536, BROKEN = 2000 };

static uint8_t file[TABLE], table[TABLE], broken[TABLE], work[TABLE];
static uint16_t changes[4 * TABLE];

static double now(void)
{
    struct timespec t;
    clock_gettime(CLOCK_MONOTONIC, &t);
    return t.tv_sec * 1e9 + t.tv_nsec;
}

static int make(const char *name)
{
    dugg_site site = {.cells = 32, .slots = 128, .channels = 16, .rule = 1};
    for (int i = 0; i < 32; i++) {
        site.loads[i] = 120;
        for (int j = i + 1; j <= i + 8 && j < 32; j++)
            site.reach[i] |= 1u << j;
    }
    dugg_answer written = dugg_write_site(site, file, TABLE);
    FILE *to = fopen(name, "wb");
    return written.number != 0 || to == NULL || fwrite(file, 1, written.value[0], to) != written.value[0] || fclose(to) != 0;
}

/* The table with some bytes changed; the same in times.mjs. */
static void break_table(void)
{
    uint32_t r = 1;
    memcpy(broken, table, TABLE);
    for (int i = 0; i < BROKEN; i++) {
        r = r * 1103515245u + 12345u;
        broken[(r >> 8) % TABLE] ^= 1;
    }
}

#define BEST(calls, before, call)                                                                                     \
    for (int round = 0; round < 80; round++) {                                                                        \
        double spent = 0;                                                                                             \
        for (int k = 0; k < (calls); k++) {                                                                           \
            before;                                                                                                   \
            double start = now();                                                                                     \
            call;                                                                                                     \
            spent += now() - start;                                                                                   \
        }                                                                                                             \
        if (round == 0 || spent / (calls) < best)                                                                     \
            best = spent / (calls);                                                                                   \
    }                                                                                                                 \
    printf(" %.0f", best)

int main(int argc, char **argv)
{
    if (argc == 3 && strcmp(argv[1], "--make") == 0)
        return make(argv[2]);
    for (int k = 1; k < argc; k++) {
        FILE *from = fopen(argv[k], "rb");
        if (from == NULL)
            return 1;
        size_t n = fread(file, 1, TABLE, from);
        fclose(from);
        dugg_site site = dugg_read_site(file, n).site;
        if (dugg_plan(site, table, TABLE).number != 0)
            return 1;
        break_table();
        double best = 0;
        printf("%s", argv[k]);
        BEST(40, memset(work, 0, TABLE), dugg_plan(site, work, TABLE));
        BEST(40, , dugg_check(site, table, TABLE));
        BEST(5, memcpy(work, broken, TABLE), dugg_mend(site, work, TABLE, changes, 4 * TABLE));
        memcpy(work, broken, TABLE);
        printf(" %llu\n", (unsigned long long)dugg_mend(site, work, TABLE, changes, 4 * TABLE).value[0]);
    }
    return 0;
}
