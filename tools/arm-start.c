/* How a proved program starts on Arm, and what the kit's library os has in C: the kit's own (c/libos_c.a) is compiled for x86-64 alone. The contracts stand
   in the kit's rattle/os/src/c.rt, and nothing proves them, here or there. tools/try-processors compares the two. tools/arm-module calls a program's main
   rattle_program. */
#include <errno.h>
#include <stdint.h>

int32_t rattle_program(void);

static uint64_t count;
static char **words;

uint64_t rattle_arg_count(void) {
    return count;
}

/* Puts argument i at the start of the buffer and answers its length, -1 where there is no such argument, -2 where it does not fit; then the buffer is full. */
int64_t rattle_arg(uint64_t i, char *buffer, uint64_t room) {
    uint64_t length = 0;
    if (i >= count || !words[i]) return -1;
    for (const char *word = words[i]; word[length] != 0; length++) {
        if (length == room) return -2;
        buffer[length] = word[length];
    }
    return (int64_t)length;
}

int32_t rattle_errno(void) {
    return errno;
}

void rattle_set_errno(int32_t error) {
    errno = error;
}

int main(int argc, char **argv) {
    count = argc < 0 ? 0 : (uint64_t)argc;
    words = argv;
    return rattle_program();
}
