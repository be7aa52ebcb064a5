/*
 * A sensor: tells the tank each level that comes on standard input, one a line, each some ticks behind the last.
 *
 *     sensor IN OUT TICKS < levels
 */
#include <signal.h>
#include <stdio.h>
#include <stdlib.h>

#include "actor.h"

/* Whether a reply says that nothing is done for the task any more. */
static int is_over(const char *reply)
{
    return reply == NULL || strcmp(reply, "stopped") == 0;
}

int main(int count, char **words)
{
    struct actor actor;
    char request[128];
    const char *reply;
    long long next = 0;
    long level;
    if (count != 4 || actor_open(&actor, words[1], words[2]) != 0) {
        fprintf(stderr, "usage: sensor IN OUT TICKS < levels\n");
        return 2;
    }
    /* Where the host has ended, a write fails, and ends this process no other way. */
    signal(SIGPIPE, SIG_IGN);
    actor_value(actor_ask(&actor, "clock"), &next);
    while (scanf("%ld", &level) == 1) {
        snprintf(request, sizeof request, "call Plant.Tank Measured %ld", level);
        reply = actor_ask(&actor, request);
        printf("level %ld: %s\n", level, reply == NULL ? "the host has ended" : reply);
        fflush(stdout);
        if (is_over(reply))
            return 1;
        next += atol(words[3]);
        snprintf(request, sizeof request, "delay until %lld", next);
        if (is_over(actor_ask(&actor, request)))
            return 1;
    }
    actor_ask(&actor, "finish");
    return 0;
}
