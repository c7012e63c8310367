/* An example of calling the library: reads a site file, plans it, and prints the answer's number and the rows.
 *
 *     gcc -I include docs/example.c dist/libduggfrask.a -o example
 *     ./example samples/p1.site
 */
#include <stdio.h>
#include "duggfrask.h"

static uint8_t file[4096], table[65536];

int main(int argc, char **argv)
{
    FILE *in = argc == 2 ? fopen(argv[1], "rb") : NULL;
    if (in == NULL) {
        fprintf(stderr, "usage: example SITE-FILE\n");
        return 2;
    }
    size_t len = fread(file, 1, sizeof file, in);
    fclose(in);

    dugg_edited read = dugg_read_site(file, len);
    if (read.answer.number != 0) {
        printf("refused %d at byte %d\n", (int)read.answer.number, (int)read.answer.value[0]);
        return 1;
    }

    dugg_answer plan = dugg_plan(read.site, table, sizeof table);
    printf("plan answers %d\n", (int)plan.number);
    if (plan.number != 0) {
        printf("cell %d is short of %d\n", (int)plan.value[0], (int)plan.value[1]);
        return 1;
    }
    int positions = read.site.slots * read.site.channels;
    for (int cell = 1; cell <= read.site.cells; cell++) {
        printf("cell %d: ", cell);
        for (int position = 0; position < positions; position++)
            putchar('0' + table[(cell - 1) * positions + position]);
        putchar('\n');
    }
    return 0;
}
