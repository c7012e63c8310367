/* Says what tools/arm-start.c does, and with KIT defined what the kit's own C code does in its place: the arguments in rooms of every size, and the number of the last
   error. tools/try-processors runs both, in an empty folder each, and compares. */
#include <stdint.h>
#include <stdio.h>
#include <string.h>

uint64_t rattle_arg_count(void);
int64_t rattle_arg(uint64_t i, char *buffer, uint64_t room);
int32_t rattle_errno(void);
void rattle_set_errno(int32_t error);

static void say_arguments(void) {
    printf("%llu arguments\n", (unsigned long long)rattle_arg_count());
    for (uint64_t i = 0; i < rattle_arg_count() + 3; i++) {
        for (uint64_t room = 0; room < 40; room++) {
            char buffer[64];
            memset(buffer, '.', sizeof buffer);
            long long answer = rattle_arg(i, buffer, room);
            printf("%llu in %llu: %lld %.64s\n", (unsigned long long)i, (unsigned long long)room, answer, buffer);
        }
    }
}

int32_t rattle_program(void) {
    say_arguments();
    for (int32_t error = -1; error < 200; error++) {
        rattle_set_errno(error);
        printf("%d ", rattle_errno());
    }
    printf("\n");
    return 7;
}

#ifdef KIT
int main(void) {
    return rattle_program();
}
#endif
