/* The stream of calls that tools/replay/make-shim's code writes, to the file DUGG_TRACE. Where DUGG_CALLS of them are written the program ends: the rest is not wanted. */
#include <fcntl.h>
#include <stdio.h>
#include <stdlib.h>
#include <string.h>
#include <unistd.h>

_Static_assert(sizeof(dugg_site) == 464 && sizeof(dugg_blocked) == 256 && sizeof(dugg_flow) == 10, "make-shim has other sizes");
_Static_assert(sizeof(dugg_answer) == 32 && sizeof(dugg_edited) == 496 && sizeof(dugg_plan_read) == 40 && sizeof(dugg_renumbered) == 624, "make-shim has other sizes");

static unsigned char held[1 << 22];
static size_t at;
static int to = -1;
static unsigned long long calls, most;

static void t_flush(void) {
    for (size_t k = 0; k < at;) {
        ssize_t w = write(to, held + k, at - k);
        if (w <= 0) _exit(9);
        k += (size_t)w;
    }
    at = 0;
}

static void t_begin(void) {
    const char *words = getenv("DUGG_CALLS");
    most = words ? strtoull(words, 0, 10) : ~0ull;
    to = open(getenv("DUGG_TRACE"), O_WRONLY);
    if (to < 0) _exit(9);
    atexit(t_flush);
}

static void t_bytes(const void *p, size_t n) {
    if (to < 0) t_begin();
    while (n > 0) {
        if (at == sizeof held) t_flush();
        size_t k = n < sizeof held - at ? n : sizeof held - at;
        memcpy(held + at, p, k);
        at += k;
        p = (const char *)p + k;
        n -= k;
    }
}

static void t_u8(unsigned char x) { t_bytes(&x, 1); }
static void t_u32(size_t x) { unsigned n = (unsigned)x; t_bytes(&n, 4); }

static void t_end(void) {
    if (++calls < most) return;
    t_flush();
    _exit(0);
}
