/* Calls made by the process that the environment's SECOND_DRIVER starts, over two pipes. A call that does not come back is named. */
#define _POSIX_C_SOURCE 200809L
#include "call.h"

#include <inttypes.h>
#include <stdio.h>
#include <stdlib.h>
#include <unistd.h>

static FILE *to, *from;
static const struct call *current;

static void fail(const char *why)
{
    fprintf(stderr, "second: the driver: %s; call %" PRIu64 " of numbers", why, current->op);
    for (int i = 0; i < 6; i++)
        fprintf(stderr, " %" PRIu64, current->num[i]);
    for (int i = 0; i < LENT; i++)
        fprintf(stderr, "%s %" PRIu64, i == 0 ? " and buffers of" : ",", current->len[i]);
    fprintf(stderr, " bytes\n");
    exit(2);
}

static void start(void)
{
    const char *command = getenv("SECOND_DRIVER");
    int there[2], back[2];
    if (command == NULL || pipe(there) != 0 || pipe(back) != 0)
        fail("no command, or no pipe");
    if (fork() == 0) {
        dup2(there[0], 0);
        dup2(back[1], 1);
        close(there[0]), close(there[1]), close(back[0]), close(back[1]);
        execl("/bin/sh", "sh", "-c", command, (char *)NULL);
        _exit(127);
    }
    close(there[0]), close(back[1]);
    to = fdopen(there[1], "wb");
    from = fdopen(back[0], "rb");
}

static void put(const void *bytes, size_t len)
{
    if (len > 0 && fwrite(bytes, 1, len, to) != len)
        fail("it does not listen");
}

static void get(void *bytes, size_t len)
{
    if (len > 0 && fread(bytes, 1, len, from) != len)
        fail("it ended early");
}

void make_call(struct call *c, uint8_t *const lent[LENT])
{
    current = c;
    if (to == NULL)
        start();
    put(c, sizeof *c);
    for (int i = 0; i < LENT; i++)
        put(lent[i], c->len[i]);
    fflush(to);
    get(c, sizeof *c);
    for (int i = 0; i < LENT; i++)
        get(lent[i], c->len[i]);
}
