/*
 * The process of a task: it writes a request to one pipe, and reads from the other what that came to.
 */
#ifndef ACTOR_H
#define ACTOR_H

#include <stdio.h>
#include <string.h>

/* The longest line that is asked, and that is answered, with its line feed and the byte behind it. */
enum { ACTOR_LINE = 4097 };

struct actor {
    FILE *requests;
    FILE *replies;
    char reply[ACTOR_LINE];
};

/* Opens the pipes of a task, which waits until the host has opened them too. Gives 0, and -1 where one can't be opened. */
static int actor_open(struct actor *actor, const char *requests, const char *replies)
{
    actor->requests = fopen(requests, "w");
    if (actor->requests == NULL)
        return -1;
    actor->replies = fopen(replies, "r");
    return actor->replies == NULL ? -1 : 0;
}

/* Asks a request, and waits for its reply, without its line feed. Gives NULL where the host has ended. */
static const char *actor_ask(struct actor *actor, const char *request)
{
    if (fprintf(actor->requests, "%s\n", request) < 0 || fflush(actor->requests) != 0)
        return NULL;
    if (fgets(actor->reply, sizeof actor->reply, actor->replies) == NULL)
        return NULL;
    actor->reply[strcspn(actor->reply, "\n")] = '\0';
    return actor->reply;
}

/* Whether a reply has returned a value, which is given then. Where a request was refused, or the task has stopped, none is. */
static int actor_value(const char *reply, long long *value)
{
    return reply != NULL && sscanf(reply, "returned %lld", value) == 1;
}

#endif
