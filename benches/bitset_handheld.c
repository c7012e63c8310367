/* One load changes on the handheld, in C on bit sets, as the harder yardstick: each row is made as a set of what is
 * forbidden and a set of what is reserved, and held to the bytes of the table, a block at a time. The sets of the rows
 * before the cell stay, and the rows from it on are made anew and laid out. */
#include "bitset.h"

/* A site with its clashes, what no cell may take, the sets of its rows so far, and what the last one was forbidden, with
 * the cells that forbid it. */
typedef struct {
    size_t n, blocks;
    bool all_open;
    uint32_t mask[CELLS], near;
    set shut, forbidden, reserved[CELLS];
} work;

static void forbid_none(work *w)
{
    memset(&w->forbidden, 0, w->blocks * sizeof(block));
    w->near = 0;
}

/* The row of a cell, from those before it; gives what is left of the load, and the block where the filling stopped.
 * Where all the cells that forbid the row before clash with this one too, only the others are added. */
static unsigned make_row(work *w, unsigned i, unsigned load, size_t *last)
{
    uint32_t near = w->mask[i] & first_cells(i);
    if ((w->near & ~near) != 0)
        forbid_none(w);
    unite(&w->forbidden, w->reserved, near & ~w->near, w->blocks);
    w->near = near;
    return fill(&w->reserved[i], last, &w->forbidden, &w->shut, w->blocks, load);
}

/* Not 0 where the 128 table bytes are not those of a block. */
static inline uint64_t differ(const uint8_t *bytes, const block *forbidden, const block *reserved)
{
    uint64_t other[2] = {0, 0};
    for (unsigned k = 0; k < LINES; k++)
        for (unsigned h = 0; h < 2; h++) {
            uint64_t is, eight = (forbidden->half[h] >> k & EIGHT) << 1 | (reserved->half[h] >> k & EIGHT);
            memcpy(&is, bytes + LINE * k + 8 * h, 8);
            other[h] |= is ^ eight;
        }
    return other[0] | other[1];
}

/* The same for a block in which every position that is not forbidden has one mark, 1 or 0. */
static inline uint64_t differ_marked(const uint8_t *bytes, const block *forbidden, unsigned mark)
{
    uint64_t other[2] = {0, 0};
    for (unsigned k = 0; k < LINES; k++)
        for (unsigned h = 0; h < 2; h++) {
            uint64_t is, eight = ((forbidden->half[h] >> k & EIGHT) << (1 - mark)) + mark * EIGHT;
            memcpy(&is, bytes + LINE * k + 8 * h, 8);
            other[h] |= is ^ eight;
        }
    return other[0] | other[1];
}

/* Whether the table has the row of a cell. As unpack_row, with "last" the block where its filling stopped. */
static bool same_row(const uint8_t *row, const work *w, unsigned i, size_t last)
{
    size_t whole = w->n / BLOCK, rest = w->n % BLOCK;
    const block *forbidden = w->forbidden.blocks, *reserved = w->reserved[i].blocks;
    uint64_t other = 0;
    for (size_t k = 0; k < whole; k++)
        if (k < last && w->all_open)
            other |= differ_marked(row + BLOCK * k, &forbidden[k], 1);
        else if (k > last)
            other |= differ_marked(row + BLOCK * k, &forbidden[k], 0);
        else
            other |= differ(row + BLOCK * k, &forbidden[k], &reserved[k]);
    if (rest != 0) {
        uint8_t bytes[BLOCK];
        unpack(bytes, &forbidden[whole], &reserved[whole]);
        other |= memcmp(row + BLOCK * whole, bytes, rest) != 0;
    }
    return other == 0;
}

dugg_answer bits_change_load(dugg_site *site, uint16_t cell, uint16_t load, uint8_t *table, size_t len)
{
    dugg_answer f = fault(site);
    if (f.number != 0)
        return f;
    if (cell < 1 || cell > site->cells)
        return answer(2, cell, 0, 0);
    work w;
    w.n = positions_of(site), w.blocks = blocks_of(w.n);
    if (len < site->cells * w.n)
        return answer(4, 0, 0, 0);
    w.all_open = shut_set(&w.shut, site, w.blocks);
    clash_masks(site, w.mask);
    size_t last;
    forbid_none(&w);
    for (unsigned i = 0; i < site->cells; i++)
        if (make_row(&w, i, site->loads[i], &last) != 0 || !same_row(table + i * w.n, &w, i, last))
            return answer(26, 0, 0, 0);
    site->loads[cell - 1] = load;
    forbid_none(&w);
    for (unsigned i = cell - 1; i < site->cells; i++) {
        unsigned left = make_row(&w, i, site->loads[i], &last);
        if (left != 0) {
            memset(table, 0, site->cells * w.n);
            return answer(5, i + 1, left, 0);
        }
        unpack_row(table + i * w.n, &w.forbidden, &w.reserved[i], last, w.n, w.all_open);
    }
    return answer(0, 0, 0, 0);
}
