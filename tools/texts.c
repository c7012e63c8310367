/* Prints what the calls that give text say: dugg_words of every call and number, with room and without, and dugg_list and dugg_why of the site files that are named.
 * tools/try-arm compares it on both processors, and tools/try-wasm as WebAssembly. */
#include <stdio.h>
#include <string.h>
#include "duggfrask.h"

enum { WORDS = 512, WHY = 65536 };    /* no answer in words is longer, and no why */

static uint8_t file[4096], out[1 << 19];

static void words(void)
{
    for (uint64_t call = 0; call <= DUGG_CALL_VERSION + 1; call++)
        for (uint64_t number = 0; number <= DUGG_NOT_THE_PLAN + 1; number++)
            for (uint64_t a = 0; a < 3; a++) {
                dugg_answer given = {number, {a, 3, UINT64_MAX}};
                dugg_answer r = dugg_words(given, call, out, WORDS);
                fwrite(out, 1, (size_t)r.value[0], stdout);
                r = dugg_words(given, call, out, 3);
                printf(DUGG_ANSWER_FORMAT "\n", DUGG_ANSWER_VALUES(r));
            }
}

/* What is printed of a site, and that an output of one byte less is left as it was. */
static void why(dugg_site site)
{
    dugg_answer r = dugg_why(site, out, WHY);
    printf("why " DUGG_ANSWER_FORMAT "\n", DUGG_ANSWER_VALUES(r));
    if (r.number != DUGG_DONE)
        return;
    fwrite(out, 1, (size_t)r.value[0], stdout);
    memset(out, 7, sizeof out);
    r = dugg_why(site, out, (size_t)r.value[0] - 1);
    printf("short " DUGG_ANSWER_FORMAT " %d\n", DUGG_ANSWER_VALUES(r), out[0]);
}

int main(int argc, char **argv)
{
    printf("version " DUGG_ANSWER_FORMAT "\n", DUGG_ANSWER_VALUES(dugg_version()));
    words();
    for (int i = 1; i < argc; i++) {
        FILE *in = fopen(argv[i], "rb");
        if (in == NULL)
            return 1;
        size_t len = fread(file, 1, sizeof file, in);
        fclose(in);
        dugg_answer r = dugg_list(file, len, out, sizeof out);
        printf("list " DUGG_ANSWER_FORMAT "\n", DUGG_ANSWER_VALUES(r));
        fwrite(out, 1, (size_t)r.value[0], stdout);
        why(dugg_read_site(file, len).site);
    }
    return 0;
}
