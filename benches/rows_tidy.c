/* Tidying in the benchmark: a good sheet, and the same sheet as an export with a byte order mark, semicolons, quotes, LF
 * alone, crosses for marks and no last end. */
#include <stdio.h>
#include <string.h>
#include "bench.h"

enum { SHEETS = 3, ROWS = 2 * SHEETS, MOST_BYTES = 4096, EXPORT_BYTES = 16384 };

typedef struct {
    const char *name;
    size_t len, out_len;
    uint8_t bytes[EXPORT_BYTES];
} order;

static order orders[ROWS];

/* The sheet of a site, with loads of five digits where it is the largest. */
static void good_sheet(order *o, const char *name, int site)
{
    dugg_site s = site_of(site);
    for (unsigned i = 0; site == ALL_CLASH && i < s.cells; i++)
        s.loads[i] = 65535;
    o->name = name;
    o->len = plain2_write_sheet(s, o->bytes, MOST_BYTES).value[0];
    o->out_len = MOST_BYTES;
}

static void add(order *o, const char *text)
{
    size_t n = strlen(text);
    memcpy(o->bytes + o->len, text, n);
    o->len += n;
}

static void export_of(order *o, const char *name, const order *good)
{
    unsigned line = 1, column = 1;
    o->name = name, o->len = 0, o->out_len = MOST_BYTES;
    add(o, "\xEF\xBB\xBF\"");
    for (size_t k = 0; k + 2 < good->len; k++) {
        uint8_t byte = good->bytes[k];
        if (byte == ',') {
            add(o, "\";\"");
            column++;
        } else if (byte == '\r') {
            add(o, "\"");
        } else if (byte == '\n') {
            add(o, "\n\"");
            line++, column = 1;
        } else if (line == 1 || column < 3) {
            o->bytes[o->len++] = byte;
        } else if (byte == '1') {
            add(o, "x");
        }
    }
    add(o, "\"");
}

static void make_orders(void)
{
    static const int sites[SHEETS] = {P1, MIDDLE_ALL, ALL_CLASH};
    static const char *const names[ROWS] = {
        "small: good sheet", "middle: good sheet", "largest: good sheet", "small: export", "middle: export", "largest: export",
    };
    for (int k = 0; k < SHEETS; k++) {
        good_sheet(&orders[k], names[k], sites[k]);
        export_of(&orders[SHEETS + k], names[SHEETS + k], &orders[k]);
    }
}

/* ---- agreement ---- */

static int agree(const order *o)
{
    static uint8_t first[MOST_BYTES], other[MOST_BYTES];
    int fine = 1;
    memset(first, 0xA5, MOST_BYTES);
    dugg_answer is = makers[LIBRARY].tidy(o->bytes, o->len, first, o->out_len);
    for (int m = LIBRARY + 1; m <= C3; m++) {
        memset(other, 0xA5, MOST_BYTES);
        dugg_answer said = makers[m].tidy(o->bytes, o->len, other, o->out_len);
        if (memcmp(&is, &said, sizeof is) != 0 || memcmp(first, other, MOST_BYTES) != 0) {
            printf("%s, tidy: the library and %s disagree\n", o->name, makers[m].name);
            fine = 0;
        }
    }
    return fine;
}

/* Is an export tidied into its good sheet? */
static int made_right(const order *o, const order *good)
{
    static uint8_t out[MOST_BYTES];
    dugg_answer is = makers[LIBRARY].tidy(o->bytes, o->len, out, MOST_BYTES);
    if (is.number == 0 && is.value[0] == good->len && memcmp(out, good->bytes, good->len) == 0)
        return 1;
    printf("%s: is not tidied into its sheet\n", o->name);
    return 0;
}

/* The sheets; and each with an output of just enough bytes and of one too few, cut, with no byte, and with each byte in turn
 * made a blank, a quote, an x, a comma, a CR or an LF. */
int tidy_agree(void)
{
    static order wrong;
    int fine = 1;
    make_orders();
    for (int k = 0; k < ROWS; k++) {
        const order *good = &orders[k % SHEETS];
        fine &= agree(&orders[k]) & made_right(&orders[k], good);
        wrong = orders[k];
        wrong.out_len = good->len;
        fine &= agree(&wrong);
        wrong.out_len--;
        fine &= agree(&wrong);
        wrong = orders[k];
        wrong.len /= 2;
        fine &= agree(&wrong);
        wrong.len = 0;
        fine &= agree(&wrong);
        wrong = orders[k];
        for (size_t at = 0; at < wrong.len; at++) {
            wrong.bytes[at] = " \"x,\r\n"[at % 6];
            fine &= agree(&wrong);
            wrong.bytes[at] = orders[k].bytes[at];
        }
    }
    return fine;
}

/* ---- the table ---- */

static void tidy(int column, const void *of)
{
    static uint8_t out[MOST_BYTES];
    const order *o = of;
    makers[column].tidy(o->bytes, o->len, out, o->out_len);
}

void tidy_table(void)
{
    static const char *const names[MAKERS] = {"library", "second", "C -O2", "C -O3"};
    static const bool there[MAKERS] = {true, true, true, true, false};
    double worst = 0, best[MAKERS];
    printf("\n### Tidying\n\n");
    printf("The exports have a byte order mark, semicolons, quotes, LF alone, crosses for marks and no last end. The C goes field by field.\n\n");
    print_head("Sheet | Size of the work", names, BITS);
    for (int k = 0; k < ROWS; k++) {
        measure(tidy, &orders[k], there, best);
        printf("| %s | %zu bytes", orders[k].name, orders[k].len);
        print_times(best, BITS);
        worst = best[LIBRARY] / best[C3] > worst ? best[LIBRARY] / best[C3] : worst;
    }
    printf("\nThe worst ratio to C -O3 is %.2f.\n", worst);
}
