/*
 * rh_port.h - a host that several threads of C share, over pthreads: each task of the loaded units is a thread, which calls, waits and
 * runs its bodies by the calls below. Bodies are the caller's, and run outside the lock. Compile with -pthread, and _POSIX_C_SOURCE.
 *
 * The lock makes one call at a time on the handle, as ravenhost.h demands. A call that is answered RH_BUSY, RH_WAITING or RH_QUEUED waits
 * on a condition, which is broadcast behind each answer that may end such a wait: RH_ENDED and RH_ACCEPTED. Behind an end that drops a
 * caller, the queue is served on (rh_settle), one caller after another.
 *
 * Nothing of this file is proved: not that a waiting thread goes on, nor that no two deadlock. What the host answered is, whatever the
 * threads do: its journal is that of one thread's history, and `rh_audit` judges it.
 */
#ifndef RH_PORT_H
#define RH_PORT_H

#include <pthread.h>
#include <string.h>

#include "ravenhost.h"

/* A host that threads share. */
typedef struct rh_plant {
    rh_host host;            /* in the lock */
    pthread_mutex_t lock;
    pthread_cond_t changed;
} rh_plant;

/* A body in progress: what it is given, and how it ends. */
typedef struct rh_body {
    const int64_t *given;    /* the values of the call */
    size_t given_count;
    int64_t scalars[32];     /* the object's components, which a body that isn't a function's may change */
    size_t count;            /* how many there are */
    int is_function;         /* given by the body: not 0 where it is a function's, whose end leaves the components as they are */
    uint32_t exit;           /* given by the body: how it ends, at first RH_RETURN */
    int64_t values[4];       /* given by the body: the result, or the values of the parameters */
    size_t value_count;
    void *data;              /* the caller's own */
} rh_body;

typedef void (*rh_runs)(rh_body *body);

/* Begins with a host. RH_DONE, or why there is none. */
static inline int32_t rh_plant_open(rh_plant *plant, size_t capacity, size_t queue_limit)
{
    int32_t made;
    plant->host = rh_none();
    made = rh_create(capacity, queue_limit, &plant->host);
    if (made != RH_DONE)
        return made;
    if (pthread_mutex_init(&plant->lock, NULL) == 0) {
        if (pthread_cond_init(&plant->changed, NULL) == 0)
            return RH_DONE;
        pthread_mutex_destroy(&plant->lock);
    }
    rh_free(&plant->host);
    return RH_OUT_OF_MEMORY;
}

/* Lets the host go, behind the last call of any thread. */
static inline void rh_plant_close(rh_plant *plant)
{
    rh_free(&plant->host);
    pthread_cond_destroy(&plant->changed);
    pthread_mutex_destroy(&plant->lock);
}

/* Takes the lock, for calls of ravenhost.h on the host; gives it back, and wakes those that wait. */
static inline rh_host *rh_plant_take(rh_plant *plant)
{
    pthread_mutex_lock(&plant->lock);
    return &plant->host;
}

static inline void rh_plant_give(rh_plant *plant)
{
    pthread_cond_broadcast(&plant->changed);
    pthread_mutex_unlock(&plant->lock);
}

/* In the lock: what came of a request that waits, once it came. */
static inline int32_t rh_port_wait(rh_plant *plant, size_t actor, rh_answer *answer)
{
    int32_t kind;
    while ((kind = rh_resume(&plant->host, actor, answer)) == RH_WAITING)
        pthread_cond_wait(&plant->changed, &plant->lock);
    return kind;
}

/* In the lock: ends a body, and serves the queue on while callers are dropped. */
static inline int32_t rh_port_end(rh_plant *plant, size_t actor, const rh_body *body, rh_answer *answer)
{
    size_t count = body->is_function ? 0 : body->count;
    int32_t kind = rh_end(&plant->host, actor, body->scalars, count, body->exit, body->values, body->value_count, answer);
    while (answer->kind == RH_ENDED && answer->rule == 1)
        rh_settle(&plant->host, actor, answer);
    pthread_cond_broadcast(&plant->changed);
    return kind;
}

/*
 * Calls an operation of an object, and waits for what comes of it. Where the call is let in, runs is run outside the lock, between the
 * start and the end of its body. Gives RH_ENDED once the body has ended, RH_ACCEPTED or RH_WOKEN of a suspension object, else the answer
 * that kept the call out: RH_REFUSED with its rule, or one below 0. body has the values of the call, and at the end what the body gave.
 */
static inline int32_t rh_port_call(rh_plant *plant, size_t actor, rh_target target, rh_body *body, rh_runs runs, rh_answer *answer)
{
    int32_t kind;
    pthread_mutex_lock(&plant->lock);
    while ((kind = rh_call(&plant->host, actor, target, body->given, body->given_count, answer)) == RH_BUSY)
        pthread_cond_wait(&plant->changed, &plant->lock);
    if (kind == RH_QUEUED || kind == RH_SUSPENDED)
        kind = rh_port_wait(plant, actor, answer);
    if (kind == RH_STARTED || kind == RH_HANDED_OVER) {
        pthread_mutex_unlock(&plant->lock);
        memcpy(body->scalars, answer->scalars, answer->count * sizeof answer->scalars[0]);
        body->count = answer->count;
        body->is_function = 0;
        body->exit = RH_RETURN;
        body->value_count = 0;
        runs(body);
        pthread_mutex_lock(&plant->lock);
        kind = rh_port_end(plant, actor, body, answer);
    }
    if (kind == RH_ACCEPTED)
        pthread_cond_broadcast(&plant->changed);
    pthread_mutex_unlock(&plant->lock);
    return kind;
}

/* One request of the actor's text (rh_go), which is asked again while its object is busy or it waits. RH_MISUSE where it has none. */
static inline int32_t rh_port_go(rh_plant *plant, size_t actor, rh_answer *answer)
{
    int32_t kind;
    pthread_mutex_lock(&plant->lock);
    while ((kind = rh_go(&plant->host, actor, answer)) == RH_BUSY || kind == RH_WAITING)
        pthread_cond_wait(&plant->changed, &plant->lock);
    if (kind == RH_ENDED || kind == RH_ACCEPTED)
        pthread_cond_broadcast(&plant->changed);
    pthread_mutex_unlock(&plant->lock);
    return kind;
}

/* Waits until a time in ticks, which rh_tick moves. RH_ACCEPTED, RH_WOKEN, or what kept the delay out. */
static inline int32_t rh_port_delay(rh_plant *plant, size_t actor, int64_t tick, rh_answer *answer)
{
    int32_t kind;
    pthread_mutex_lock(&plant->lock);
    kind = rh_delay_until(&plant->host, actor, tick, answer);
    if (kind == RH_DELAYED)
        kind = rh_port_wait(plant, actor, answer);
    pthread_mutex_unlock(&plant->lock);
    return kind;
}

/* The end of a task. */
static inline int32_t rh_port_finish(rh_plant *plant, size_t actor, rh_answer *answer)
{
    int32_t kind = rh_finish(rh_plant_take(plant), actor, answer);
    rh_plant_give(plant);
    return kind;
}

#endif
