/*
 * An actuator: waits until the tank has its valve moved, and says how it stands then, up to the end of the host.
 *
 *     actuator IN OUT
 */
#include <signal.h>
#include <stdio.h>

#include "actor.h"

int main(int count, char **words)
{
    struct actor actor;
    const char *reply;
    long long valve;
    if (count != 3 || actor_open(&actor, words[1], words[2]) != 0) {
        fprintf(stderr, "usage: actuator IN OUT\n");
        return 2;
    }
    /* Where the host has ended, a write fails, and ends this process no other way. */
    signal(SIGPIPE, SIG_IGN);
    while (actor_value(reply = actor_ask(&actor, "call Plant.Tank Moved"), &valve)) {
        printf("the valve is %s\n", valve ? "open" : "shut");
        fflush(stdout);
    }
    printf("%s\n", reply == NULL ? "the host has ended" : reply);
    return 0;
}
