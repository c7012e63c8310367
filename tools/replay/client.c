/* Stands in the place of tools/run: hands its words, its folder and its inputs to tools/replay/serve.mjs, over the socket that DUGG_SERVER names, and writes what comes back. So that node
 * is started once, and not for each use. */
#include <fcntl.h>
#include <stdint.h>
#include <stdio.h>
#include <stdlib.h>
#include <string.h>
#include <sys/socket.h>
#include <sys/un.h>
#include <unistd.h>

enum { MOST = 65537 };

static int server;

static void put(const void *bytes, size_t n)
{
    for (size_t k = 0; k < n;) {
        ssize_t w = write(server, (const char *)bytes + k, n - k);
        if (w <= 0)
            exit(1);
        k += (size_t)w;
    }
}

static void put_part(const void *bytes, uint32_t n)
{
    put(&n, 4);
    put(bytes, n);
}

/* The descriptor of the next input: its own where that is open, and otherwise standard input, once. */
static int next_input(int own)
{
    static int standard = 0;
    int fd = fcntl(own, F_GETFD) < 0 ? standard : own;
    if (fd == standard)
        standard = -1;
    return fd;
}

/* All of an input, up to what the program looks at; one that is not open is empty. */
static void put_input(int fd)
{
    static char bytes[MOST];
    size_t n = 0;
    for (ssize_t r; n < MOST && (r = read(fd, bytes + n, MOST - n)) > 0;)
        n += (size_t)r;
    put_part(bytes, (uint32_t)n);
}

static void get(void *bytes, size_t n)
{
    for (size_t k = 0; k < n;) {
        ssize_t r = read(server, (char *)bytes + k, n - k);
        if (r <= 0)
            exit(1);
        k += (size_t)r;
    }
}

/* What the program wrote to a descriptor, to this program's own. */
static void give(int fd)
{
    uint32_t n;
    get(&n, 4);
    char *bytes = malloc(n + 1);
    if (bytes == NULL)
        exit(1);
    get(bytes, n);
    for (size_t k = 0; k < n;) {
        ssize_t w = write(fd, bytes + k, n - k);
        if (w <= 0)
            exit(1);
        k += (size_t)w;
    }
    free(bytes);
}

int main(int argc, char **argv)
{
    struct sockaddr_un at = {.sun_family = AF_UNIX};
    char folder[4096];
    const char *name = getenv("DUGG_SERVER");
    /* The program's own descriptors stay free for it: the socket takes a high one. */
    int low = socket(AF_UNIX, SOCK_STREAM, 0);
    server = low < 0 ? -1 : dup2(low, 100);
    if (name == NULL || strlen(name) >= sizeof at.sun_path || server < 0 || getcwd(folder, sizeof folder) == NULL)
        return 1;
    close(low);
    strcpy(at.sun_path, name);
    if (connect(server, (struct sockaddr *)&at, sizeof at) != 0)
        return 1;
    put_part(folder, (uint32_t)strlen(folder));
    put_input(next_input(8));
    put_input(next_input(4));
    put_input(next_input(6));
    uint32_t words = argc < 2 ? 0 : (uint32_t)argc - 2;
    put(&words, 4);
    for (int k = 2; k < argc; k++)
        put_part(argv[k], (uint32_t)strlen(argv[k]));
    static const int outputs[] = {1, 2, 5, 7, 3};
    for (int k = 0; k < 5; k++)
        give(outputs[k]);
    return 0;
}
