/* The rules of docs/RULES.md in plain C, as a yardstick for the speed of the proved library: fast, but nothing out of
 * the ordinary. Compile with -DPREFIX=name_ : with the other files plain_*.c, every call of include/duggfrask.h is then
 * there under that prefix. */
#include "plain.h"
#include "site.h"

/* ---- the site ---- */

dugg_answer NAME(fault)(dugg_site site)
{
    return fault(&site);
}

dugg_answer NAME(clash)(dugg_site site, uint16_t a, uint16_t b)
{
    dugg_answer f = fault(&site);
    if (f.number != 0)
        return f;
    if (a < 1 || a > site.cells || b < 1 || b > site.cells || a == b)
        return answer(0, 0, 0, 0);
    uint32_t first = site.reach[a - 1], second = site.reach[b - 1];
    bool third = site.rule == 2 && (first & second) != 0;
    return answer(0, third | ((first >> (b - 1) | second >> (a - 1)) & 1), 0, 0);
}

dugg_edited NAME(set_load)(dugg_site site, uint16_t cell, uint16_t load)
{
    dugg_answer f = fault(&site);
    if (f.number == 0) {
        if (cell < 1 || cell > site.cells)
            f = answer(2, cell, 0, 0);
        else
            site.loads[cell - 1] = load;
    }
    return (dugg_edited){site, f};
}

/* May an edit name this pair? If not, refusal 3 with its "from". */
static dugg_answer pair_fault(const dugg_site *s, unsigned from, unsigned to)
{
    dugg_answer f = fault(s);
    if (f.number == 0 && (from < 1 || from > s->cells || to < 1 || to > s->cells || from == to))
        f = answer(3, from, 0, 0);
    return f;
}

dugg_edited NAME(set_reach)(dugg_site site, uint16_t from, uint16_t to)
{
    dugg_answer f = pair_fault(&site, from, to);
    if (f.number == 0)
        site.reach[from - 1] |= 1u << (to - 1);
    return (dugg_edited){site, f};
}

dugg_edited NAME(clear_reach)(dugg_site site, uint16_t from, uint16_t to)
{
    dugg_answer f = pair_fault(&site, from, to);
    if (f.number == 0)
        site.reach[from - 1] &= ~(1u << (to - 1));
    return (dugg_edited){site, f};
}

/* ---- load test, chain, nested sites and how many channel-slots do, about the cells with load above 0 ---- */

static uint32_t loaded_cells(const dugg_site *s)
{
    uint32_t cells = 0;
    for (unsigned i = 0; i < CELLS; i++)
        cells |= (uint32_t)(s->loads[i] != 0) << i;
    return cells;
}

/* The record's faults; where there is none, the clash masks. */
static dugg_answer judged(const dugg_site *s, uint32_t mask[CELLS])
{
    dugg_answer f = fault(s);
    if (f.number == 0)
        clash_masks(s, mask);
    return f;
}

/* The load of a cell, and the loads of its lower-numbered clashing cells. */
static uint32_t sum_at(const dugg_site *s, const uint32_t mask[CELLS], unsigned i)
{
    uint32_t sum = s->loads[i];
    for (uint32_t lower = mask[i] & first_cells(i); lower != 0; lower &= lower - 1)
        sum += s->loads[__builtin_ctz(lower)];
    return sum;
}

dugg_answer NAME(load_test)(dugg_site site)
{
    uint32_t mask[CELLS];
    dugg_answer f = judged(&site, mask);
    if (f.number != 0)
        return f;
    uint32_t room = room_of(&site);
    for (unsigned i = 0; i < site.cells; i++) {
        if (site.loads[i] == 0)
            continue;
        uint32_t sum = sum_at(&site, mask, i);
        if (sum > room)
            return answer(0, i + 1, sum - room, 0);
    }
    return answer(0, 0, 0, 0);
}

/* The first a, b, c that break the chain, or three zeros. */
static dugg_answer first_gap(const uint32_t mask[CELLS], uint32_t loaded)
{
    for (uint32_t left = loaded; left != 0; left &= left - 1) {
        /* The lowest later loaded cell that does not clash with a, and the lowest clashing one after that. */
        unsigned a = __builtin_ctz(left);
        uint32_t after = loaded & ~first_cells(a + 1), gaps = ~mask[a] & after;
        if (gaps == 0)
            continue;
        unsigned b = __builtin_ctz(gaps);
        uint32_t beyond = loaded & mask[a] & ~first_cells(b + 1);
        if (beyond != 0)
            return answer(0, a + 1, b + 1, __builtin_ctz(beyond) + 1);
    }
    return answer(0, 0, 0, 0);
}

dugg_answer NAME(chain)(dugg_site site)
{
    uint32_t mask[CELLS];
    dugg_answer f = judged(&site, mask);
    if (f.number != 0)
        return f;
    return first_gap(mask, loaded_cells(&site));
}

/* The first a, b, i where a and b are lower cells that clash with i and not with one another, or three zeros. */
static dugg_answer first_split(const uint32_t mask[CELLS], uint32_t loaded)
{
    for (uint32_t left = loaded; left != 0; left &= left - 1) {
        unsigned i = __builtin_ctz(left);
        for (uint32_t near = loaded & mask[i] & first_cells(i); near != 0; near &= near - 1) {
            unsigned a = __builtin_ctz(near);
            uint32_t apart = near & (near - 1) & ~mask[a];
            if (apart != 0)
                return answer(0, a + 1, __builtin_ctz(apart) + 1, i + 1);
        }
    }
    return answer(0, 0, 0, 0);
}

dugg_answer NAME(class)(dugg_site site)
{
    uint32_t mask[CELLS];
    dugg_answer f = judged(&site, mask);
    if (f.number != 0)
        return f;
    return first_split(mask, loaded_cells(&site));
}

dugg_answer NAME(least)(dugg_site site)
{
    uint32_t mask[CELLS];
    dugg_answer f = judged(&site, mask);
    if (f.number != 0)
        return f;
    uint32_t loaded = loaded_cells(&site), most = 0;
    for (uint32_t left = loaded; left != 0; left &= left - 1) {
        uint32_t sum = sum_at(&site, mask, __builtin_ctz(left));
        most = sum > most ? sum : most;
    }
    return answer(0, most, first_split(mask, loaded).value[0] != 0, 0);
}

/* ---- planner and checker ---- */

/* Marks a position forbidden wherever the other row has a reservation. */
static void forbid(uint8_t *restrict row, const uint8_t *restrict other, size_t n)
{
    for (size_t p = 0; p < n; p++)
        row[p] = other[p] == 1 ? 2 : row[p];
}

/* Reserves idle positions, slot by slot and channel by channel, until the load is met; gives what is left of it. */
static unsigned fill(uint8_t *row, unsigned slots, unsigned channels, unsigned load)
{
    for (unsigned t = 0; t < slots; t++)
        for (unsigned f = 0; f < channels; f++) {
            if (load == 0)
                return 0;
            uint8_t *at = &row[t * channels + f];
            if (*at == 0) {
                *at = 1;
                load--;
            }
        }
    return load;
}

/* The same over open positions alone. */
static unsigned fill_open(const dugg_site *s, uint8_t *row, size_t n, unsigned load)
{
    for (size_t p = 0; p < n && load != 0; p++)
        if (row[p] == 0 && !is_blocked(s, p)) {
            row[p] = 1;
            load--;
        }
    return load;
}

dugg_answer NAME(plan)(dugg_site site, uint8_t *table, size_t len)
{
    dugg_answer f = fault(&site);
    if (f.number != 0)
        return f;
    size_t n = positions_of(&site);
    if (len < site.cells * n)
        return answer(4, 0, 0, 0);
    uint32_t mask[CELLS];
    bool all_open = !any_blocked(&site);
    clash_masks(&site, mask);
    for (unsigned i = 0; i < site.cells; i++) {
        uint8_t *row = table + i * n;
        memset(row, 0, n);
        for (uint32_t lower = mask[i] & first_cells(i); lower != 0; lower &= lower - 1)
            forbid(row, table + __builtin_ctz(lower) * n, n);
        unsigned left = all_open ? fill(row, site.slots, site.channels, site.loads[i])
                                 : fill_open(&site, row, n, site.loads[i]);
        if (left != 0) {
            memset(table, 0, site.cells * n);
            return answer(5, i + 1, left, 0);
        }
    }
    return answer(0, 0, 0, 0);
}

static unsigned count(const uint8_t *row, size_t n)
{
    unsigned ones = 0;
    for (size_t p = 0; p < n; p++)
        ones += row[p] == 1;
    return ones;
}

dugg_answer NAME(check)(dugg_site site, const uint8_t *table, size_t len)
{
    dugg_answer f = fault(&site);
    if (f.number != 0)
        return f;
    size_t n = positions_of(&site);
    if (len < site.cells * n)
        return answer(4, 0, 0, 0);
    uint32_t mask[CELLS], words[POSITIONS];
    clash_masks(&site, mask);
    memset(words, 0, n * sizeof words[0]);
    for (unsigned i = 0; i < site.cells; i++)
        gather(words, table + i * n, n, i);
    f = stands_blocked(&site, words, ~0u);
    if (f.number != 0)
        return f;
    for (size_t p = 0; p < n; p++)
        for (uint32_t rest = words[p]; rest != 0; rest &= rest - 1) {
            unsigned a = __builtin_ctz(rest);
            if (rest & mask[a])
                return answer(6, p, a + 1, __builtin_ctz(rest & mask[a]) + 1);
        }
    for (unsigned i = 0; i < site.cells; i++) {
        unsigned ones = count(table + i * n, n);
        if (ones != site.loads[i])
            return answer(7, i + 1, ones, 0);
    }
    return answer(0, 0, 0, 0);
}

/* ---- share ---- */

dugg_answer NAME(share_repeated)(uint16_t slots, uint16_t burst, uint16_t period, uint16_t repeats)
{
    return share_of(slots, burst, period, repeats);
}

/* The repeats of a caller that gives none. */
enum { NO_REPEATS_GIVEN = 2 };

dugg_answer NAME(share)(uint16_t slots, uint16_t burst, uint16_t period)
{
    return share_of(slots, burst, period, NO_REPEATS_GIVEN);
}

/* ---- house files ---- */

static unsigned word(const uint8_t *p)
{
    return p[0] | (unsigned)p[1] << 8;
}

static uint8_t *put_word(uint8_t *p, unsigned x)
{
    p[0] = x & 255;
    p[1] = x >> 8;
    return p + 2;
}

/* Opens the record at an offset. A fixed length must be met; length 0 stands for kind 3's rule, even and at least 2.
 * Gives the refusal's number, or 0. */
static unsigned open(const uint8_t *bytes, size_t len, size_t at, unsigned kind, unsigned length)
{
    if (len - at < 4)
        return 8;
    unsigned has = word(bytes + at);
    if (word(bytes + at + 2) != kind)
        return 9;
    if (length != 0 ? has != length : has < 2 || has % 2 != 0)
        return 10;
    if (len - at - 2 < has)
        return 8;
    return 0;
}

/* The head record, of kind 1 or with its rule of kind 5; it is at offset 0, so refusals carry 0. */
static unsigned read_head(const uint8_t *bytes, size_t len, bool ruled, dugg_site *s)
{
    unsigned bad = ruled ? open(bytes, len, 0, 5, 10) : open(bytes, len, 0, 1, 8);
    if (bad != 0)
        return bad;
    unsigned cells = word(bytes + 4), slots = word(bytes + 6), channels = word(bytes + 8);
    if (!sizes_fine(cells, slots, channels))
        return 1;
    if (ruled && word(bytes + 10) != 2)
        return 24;
    s->rule = ruled ? 2 : 1;
    s->cells = cells;
    s->slots = slots;
    s->channels = channels;
    return 0;
}

/* Takes the pairs of kind 3 into the site: each pair 3, then 11. */
static unsigned read_pairs(const uint8_t *pair, const uint8_t *end, dugg_site *s)
{
    unsigned before = 0;
    for (; pair < end; pair += 2) {
        unsigned from = pair[0], to = pair[1], now = from << 8 | to;
        if (from < 1 || from > s->cells || to < 1 || to > s->cells || from == to)
            return 3;
        if (now <= before)
            return 11;
        before = now;
        s->reach[from - 1] |= 1u << (to - 1);
    }
    return 0;
}

static dugg_edited refused_read(unsigned number, size_t at)
{
    dugg_edited r;
    memset(&r, 0, sizeof r);
    r.answer = answer(number, at, 0, 0);
    return r;
}

/* Kind 6 at the end of a site file: 14 for a left-over bit, then 21, then 12. */
static dugg_edited read_blocked(const uint8_t *bytes, size_t len, size_t at, const dugg_edited *read)
{
    dugg_edited r = *read;
    size_t n = positions_of(&r.site), size = (n + 7) / 8, end = at + 4 + size;
    unsigned bad = open(bytes, len, at, 6, 2 + size);
    if (bad != 0)
        return refused_read(bad, at);
    const uint8_t *body = bytes + at + 4;
    if (n % 8 != 0 && body[size - 1] >> n % 8 != 0)
        return refused_read(14, at);
    for (size_t k = 0; k < size; k++)
        r.site.blocked[k / 8] |= (uint64_t)body[k] << 8 * (k % 8);
    if (!any_blocked(&r.site))
        return refused_read(21, at);
    return end < len ? refused_read(12, end) : r;
}

dugg_edited NAME(read_site)(const uint8_t *bytes, size_t len)
{
    dugg_edited r = refused_read(0, 0);
    bool ruled = len >= 4 && word(bytes + 2) == 5;
    unsigned bad = read_head(bytes, len, ruled, &r.site);
    if (bad != 0)
        return refused_read(bad, 0);
    size_t at = ruled ? 12 : 10;
    unsigned cells = r.site.cells;
    bad = open(bytes, len, at, 2, 2 + 2 * cells);
    if (bad != 0)
        return refused_read(bad, at);
    for (unsigned i = 0; i < cells; i++)
        r.site.loads[i] = word(bytes + at + 4 + 2 * i);
    at += 4 + 2 * cells;
    bad = open(bytes, len, at, 3, 0);
    if (bad != 0)
        return refused_read(bad, at);
    size_t end = at + 2 + word(bytes + at);
    bad = read_pairs(bytes + at + 4, bytes + end, &r.site);
    if (bad != 0)
        return refused_read(bad, at);
    return end < len ? read_blocked(bytes, len, end, &r) : r;
}

static uint8_t *put_sizes(uint8_t *p, const dugg_site *s)
{
    return put_word(put_word(put_word(p, s->cells), s->slots), s->channels);
}

dugg_answer NAME(write_site)(dugg_site site, uint8_t *out, size_t len)
{
    dugg_answer f = fault(&site);
    if (f.number != 0)
        return f;
    unsigned pairs = 0;
    for (unsigned i = 0; i < site.cells; i++)
        pairs += __builtin_popcount(site.reach[i]);
    size_t bits = any_blocked(&site) ? (positions_of(&site) + 7) / 8 : 0;
    bool ruled = site.rule == 2;
    size_t need = (ruled ? 20 : 18) + 2 * site.cells + 2 * pairs + (bits == 0 ? 0 : 4 + bits);
    if (len < need)
        return answer(13, need, 0, 0);
    uint8_t *p = put_sizes(put_word(put_word(out, ruled ? 10 : 8), ruled ? 5 : 1), &site);
    if (ruled)
        p = put_word(p, 2);
    p = put_word(put_word(p, 2 + 2 * site.cells), 2);
    for (unsigned i = 0; i < site.cells; i++)
        p = put_word(p, site.loads[i]);
    p = put_word(put_word(p, 2 + 2 * pairs), 3);
    for (unsigned i = 0; i < site.cells; i++)
        for (uint32_t row = site.reach[i]; row != 0; row &= row - 1) {
            *p++ = i + 1;
            *p++ = __builtin_ctz(row) + 1;
        }
    if (bits != 0)
        p = put_word(put_word(p, 2 + bits), 6);
    for (size_t k = 0; k < bits; k++)
        *p++ = site.blocked[k / 8] >> 8 * (k % 8);
    return answer(0, need, 0, 0);
}

static dugg_plan_read refused_plan(unsigned number, size_t at)
{
    return (dugg_plan_read){0, 0, 0, answer(number, at, 0, 0)};
}

/* One byte of a plan as eight table bytes: a multiplication puts bit k of it into byte k, for all but the highest, and a
 * mask clears the rest. */
static void unpack_byte(uint8_t *table, uint8_t byte)
{
    uint64_t eight = ((uint64_t)(byte & 127) * 0x0002040810204081 & 0x0101010101010101) | (uint64_t)(byte >> 7) << 56;
#if __BYTE_ORDER__ != __ORDER_LITTLE_ENDIAN__
    eight = __builtin_bswap64(eight);
#endif
    memcpy(table, &eight, sizeof eight);
}

/* One byte of a plan as up to eight table bytes. */
static void unpack(uint8_t *table, uint8_t byte, size_t bits)
{
    for (size_t k = 0; k < bits; k++)
        table[k] = byte >> k & 1;
}

dugg_plan_read NAME(read_plan)(const uint8_t *bytes, size_t len, uint8_t *table, size_t table_len)
{
    dugg_site s;
    unsigned bad = read_head(bytes, len, false, &s);
    if (bad != 0)
        return refused_plan(bad, 0);
    size_t bits = s.cells * positions_of(&s), size = (bits + 7) / 8;
    bad = open(bytes, len, 10, 4, 2 + size);
    if (bad != 0)
        return refused_plan(bad, 10);
    const uint8_t *body = bytes + 14;
    if (bits % 8 != 0 && body[size - 1] >> bits % 8 != 0)
        return refused_plan(14, 10);
    if (14 + size < len)
        return refused_plan(12, 14 + size);
    if (table_len < bits)
        return refused_plan(4, 0);
    for (size_t k = 0; k < bits / 8; k++)
        unpack_byte(table + 8 * k, body[k]);
    if (bits % 8 != 0)
        unpack(table + bits / 8 * 8, body[size - 1], bits % 8);
    return (dugg_plan_read){s.cells, s.slots, s.channels, answer(0, 0, 0, 0)};
}

/* Up to eight table bytes as one byte of a plan. */
static uint8_t pack(const uint8_t *table, size_t bits)
{
    uint8_t byte = 0;
    for (size_t k = 0; k < bits; k++)
        byte |= (table[k] == 1) << k;
    return byte;
}

dugg_answer NAME(write_plan)(dugg_site site, const uint8_t *table, size_t table_len, uint8_t *out, size_t len)
{
    dugg_answer f = fault(&site);
    if (f.number != 0)
        return f;
    size_t bits = site.cells * positions_of(&site), size = (bits + 7) / 8;
    if (table_len < bits)
        return answer(4, 0, 0, 0);
    if (len < 14 + size)
        return answer(13, 14 + size, 0, 0);
    uint8_t *p = put_sizes(put_word(put_word(out, 8), 1), &site);
    p = put_word(put_word(p, 2 + size), 4);
    for (size_t k = 0; k < bits / 8; k++)
        p[k] = pack(table + 8 * k, 8);
    if (bits % 8 != 0)
        p[size - 1] = pack(table + bits / 8 * 8, bits % 8);
    return answer(0, 14 + size, 0, 0);
}

/* ---- range sheets ---- */

/* The place after a text that stands at p, or NULL; NULL stays NULL. */
static const uint8_t *after(const uint8_t *p, const uint8_t *end, const char *text, size_t n)
{
    return p != NULL && (size_t)(end - p) >= n && memcmp(p, text, n) == 0 ? p + n : NULL;
}

static bool is_digit(const uint8_t *p, const uint8_t *end)
{
    return p < end && *p >= '0' && *p <= '9';
}

/* The place after a number of up to 65,535 without leading zeros, or NULL. */
static const uint8_t *number_at(const uint8_t *p, const uint8_t *end, unsigned *x)
{
    if (p == NULL || !is_digit(p, end))
        return NULL;
    unsigned v = *p++ - '0';
    if (v != 0)
        for (; is_digit(p, end); p++) {
            v = 10 * v + *p - '0';
            if (v > 65535)
                return NULL;
        }
    *x = v;
    return p;
}

/* The first line: the place after it, or NULL, and how many cells it has. */
static const uint8_t *head_line(const uint8_t *p, const uint8_t *end, unsigned *cells)
{
    unsigned n = 0, x;
    p = after(p, end, "cell,load", 9);
    while (p != NULL && p < end && *p == ',') {
        p = number_at(p + 1, end, &x);
        if (p == NULL || x != ++n || n > CELLS)
            return NULL;
    }
    *cells = n;
    return n == 0 ? NULL : after(p, end, "\r\n", 2);
}

/* The line of cell k, counted from 0. */
static const uint8_t *cell_line(const uint8_t *p, const uint8_t *end, unsigned k, dugg_site *s)
{
    unsigned x, load;
    p = number_at(p, end, &x);
    if (p == NULL || x != k + 1)
        return NULL;
    p = number_at(after(p, end, ",", 1), end, &load);
    if (p == NULL || (size_t)(end - p) < 2 * s->cells)
        return NULL;
    uint32_t row = 0;
    for (unsigned b = 0; b < s->cells; b++, p += 2) {
        unsigned mark = p[1] - '0';
        if (p[0] != ',' || mark > 1)
            return NULL;
        row |= mark << b;
    }
    s->loads[k] = load;
    s->reach[k] = row;
    return after(p, end, "\r\n", 2);
}

dugg_edited NAME(read_sheet)(const uint8_t *bytes, size_t len, uint16_t slots, uint16_t channels, dugg_blocked blocked,
                             uint16_t rule)
{
    dugg_edited r = refused_read(0, 0);
    const uint8_t *end = bytes + len;
    unsigned cells;
    const uint8_t *p = head_line(bytes, end, &cells);
    if (p == NULL)
        return refused_read(17, 1);
    r.site.cells = cells;
    r.site.slots = slots;
    r.site.channels = channels;
    r.site.rule = rule;
    memcpy(r.site.blocked, blocked.bits, sizeof r.site.blocked);
    for (unsigned k = 0; k < cells; k++) {
        p = cell_line(p, end, k, &r.site);
        if (p == NULL)
            return refused_read(17, k + 2);
    }
    if (p < end)
        return refused_read(17, cells + 2);
    dugg_answer f = fault(&r.site);
    return f.number == 0 ? r : refused_read(f.number, f.value[0]);
}

static unsigned digits(unsigned x)
{
    return 1 + (x > 9) + (x > 99) + (x > 999) + (x > 9999);
}

static uint8_t *put_number(uint8_t *p, unsigned x)
{
    unsigned n = digits(x);
    for (unsigned k = n; k-- > 0; x /= 10)
        p[k] = '0' + x % 10;
    return p + n;
}

static uint8_t *put_text(uint8_t *p, const char *text, size_t n)
{
    memcpy(p, text, n);
    return p + n;
}

dugg_answer NAME(write_sheet)(dugg_site site, uint8_t *out, size_t len)
{
    dugg_answer f = fault(&site);
    if (f.number != 0)
        return f;
    size_t need = 11;
    for (unsigned i = 0; i < site.cells; i++)
        need += 4 + 2 * digits(i + 1) + digits(site.loads[i]) + 2 * site.cells;
    if (len < need)
        return answer(13, need, 0, 0);
    uint8_t *p = put_text(out, "cell,load", 9);
    for (unsigned i = 0; i < site.cells; i++)
        p = put_number(put_text(p, ",", 1), i + 1);
    p = put_text(p, "\r\n", 2);
    for (unsigned i = 0; i < site.cells; i++) {
        p = put_number(p, i + 1);
        p = put_number(put_text(p, ",", 1), site.loads[i]);
        for (unsigned b = 0; b < site.cells; b++) {
            *p++ = ',';
            *p++ = '0' + (site.reach[i] >> b & 1);
        }
        p = put_text(p, "\r\n", 2);
    }
    return answer(0, need, 0, 0);
}
