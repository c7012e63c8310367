/* A sheet as spreadsheets write it, made into the form of a range sheet in plain C: line by line and field by field. */
#include "plain.h"
#include "site.h"

/* No sheet has as many bytes as this. What is past them is left out: the lines before it are more than a site has. */
enum { MOST_BYTES = 4096 };

typedef struct {
    uint8_t bytes[MOST_BYTES];
    size_t len;
} text;

static void put(text *t, const void *bytes, size_t len)
{
    size_t room = MOST_BYTES - t->len, n = len < room ? len : room;
    memcpy(t->bytes + t->len, bytes, n);
    t->len += n;
}

static void trim(const uint8_t **from, const uint8_t **to)
{
    while (*from < *to && **from == ' ')
        ++*from;
    while (*from < *to && (*to)[-1] == ' ')
        --*to;
}

/* A field without the blanks and the quotes around it; false where it can't be tidied. */
static bool put_field(text *t, const uint8_t *from, const uint8_t *to, bool mark)
{
    trim(&from, &to);
    if (to - from >= 2 && *from == '"' && to[-1] == '"') {
        from++, to--;
        trim(&from, &to);
    }
    for (const uint8_t *at = from; at < to; at++)
        if (*at == 0 || *at == '\r' || *at == ' ' || *at == ',' || *at == '"')
            return false;
    if (mark && from == to) {
        put(t, "0", 1);
    } else if (mark && (*from == 'x' || *from == 'X')) {
        put(t, "1", 1);
        put(t, from + 1, to - from - 1);
    } else {
        put(t, from, to - from);
    }
    return true;
}

/* A line, without its LF. One that can't be tidied becomes a quote, which no sheet has. */
static void put_line(text *t, const uint8_t *from, const uint8_t *to, uint8_t parts, bool first)
{
    size_t start = t->len;
    if (from < to && to[-1] == '\r')
        to--;
    for (unsigned column = 0;; column++) {
        const uint8_t *end = from == to ? NULL : memchr(from, parts, to - from);
        if (!put_field(t, from, end ? end : to, !first && column > 1)) {
            t->len = start;
            put(t, "\"", 1);
            break;
        }
        if (!end)
            break;
        put(t, ",", 1);
        from = end + 1;
    }
    put(t, "\r\n", 2);
}

/* What parts the fields: the first comma, semicolon or tab. */
static uint8_t parting(const uint8_t *at, const uint8_t *end)
{
    for (; at < end; at++)
        if (*at == ',' || *at == ';' || *at == '\t')
            return *at;
    return ',';
}

static bool all_blank(const uint8_t *at, const uint8_t *end)
{
    while (at < end && *at == ' ')
        at++;
    return at == end;
}

dugg_answer NAME(tidy)(const uint8_t *sheet, size_t len, uint8_t *out, size_t out_len)
{
    text t;
    t.len = 0;
    const uint8_t *at = sheet, *end = sheet + len, *lf;
    uint8_t parts = parting(at, end);
    bool first = true;
    if (len >= 3 && memcmp(sheet, "\xEF\xBB\xBF", 3) == 0)
        at += 3;
    while (at < end && t.len < MOST_BYTES && (lf = memchr(at, '\n', end - at)) != NULL) {
        put_line(&t, at, lf, parts, first);
        first = false;
        at = lf + 1;
    }
    if (first || !all_blank(at, end))
        put_line(&t, at, end, parts, first);
    dugg_answer read = NAME(read_sheet)(t.bytes, t.len, 1, 1, (dugg_blocked){{0}}, 1).answer;
    if (read.number == 17)
        return read;
    if (out_len < t.len)
        return answer(13, t.len, 0, 0);
    memcpy(out, t.bytes, t.len);
    return answer(0, t.len, 0, 0);
}
