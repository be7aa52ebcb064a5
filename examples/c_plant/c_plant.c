/*
 * A plant of three threads: a sensor fills a tank, an actuator takes from it by an entry, a display reads it. Each is the task of a unit,
 * and its bodies are this program's. While they run the display's right is taken away; it finds that out by a refusal. At the end the
 * journal is audited, and what it says is printed.
 */
#define _POSIX_C_SOURCE 200809L
#include <stdio.h>
#include <stdlib.h>
#include <string.h>
#include <time.h>

#include <rh_port.h>

/* How often the sensor fills, and the actuator takes. */
enum { TURNS = 500 };

/* How many entries the journal has room for. */
enum { CAPACITY = 100000 };

static const char plant_shape[] = "unit Plant\nprotected Tank 20\nscalar 0 1000 0\nscalar 0 1 0\nprocedure Fill in 0 100\n"
                                  "entry Take 2 out 0 1000\nfunction Level 0 1000\n";
static const char devices_shape[] = "unit Devices\ntask Sensor 15\ntask Actuator 15\n";
static const char panel_shape[] = "unit Panel\ntask Display 10\n";
static const char list[] = "allow Devices Plant.Tank *\nallow Panel Plant.Tank Level\n";
static const char denial[] = "deny Panel * *";

static rh_plant plant;

/* A task: its number, and the operation that it calls. */
struct task {
    size_t actor;
    rh_target target;
    long done;     /* how many of its calls were carried out */
    int32_t last;  /* what its last call came to */
};

static void stop(const char *what, int32_t got)
{
    fprintf(stderr, "c_plant: %s: %ld\n", what, (long)got);
    exit(1);
}

/* The bodies. The barrier of Take is the second component. */
static void fill(rh_body *body)
{
    if (body->scalars[0] + body->given[0] > 1000) {
        body->exit = RH_CONSTRAINT_ERROR;
        return;
    }
    body->scalars[0] += body->given[0];
    body->scalars[1] = body->scalars[0] > 0;
}

static void take(rh_body *body)
{
    body->values[0] = body->scalars[0];
    body->value_count = 1;
    body->scalars[0] = 0;
    body->scalars[1] = 0;
}

static void level(rh_body *body)
{
    body->is_function = 1;
    body->values[0] = body->scalars[0];
    body->value_count = 1;
}

/* Calls until the turns are over or a call is kept out, and rests so many nanoseconds between two calls. */
static void turns(struct task *task, rh_runs runs, int64_t given, size_t given_count, long most, long rest)
{
    struct timespec pause = {0, 0};
    rh_answer answer;
    rh_body body;
    memset(&body, 0, sizeof body);
    body.given = &given;
    body.given_count = given_count;
    pause.tv_nsec = rest;
    do {
        task->last = rh_port_call(&plant, task->actor, task->target, &body, runs, &answer);
        task->done += task->last == RH_ENDED;
        if (rest > 0)
            nanosleep(&pause, NULL);
    } while (task->last == RH_ENDED && task->done < most);
    rh_port_finish(&plant, task->actor, &answer);
}

static void *sensor(void *task)
{
    turns(task, fill, 2, 1, TURNS, 0);
    return NULL;
}

static void *actuator(void *task)
{
    turns(task, take, 0, 0, TURNS / 10, 0);
    return NULL;
}

/* It rests between its calls, and not in its body, which holds the tank: else it would fill the journal before the sensor comes to its
 * turn on a busy machine. */
static void *display(void *task)
{
    turns(task, level, 0, 0, 1000000, 1000000);
    return NULL;
}

static void load(const char *shape)
{
    char words[64];
    rh_text told = rh_text_over(words, sizeof words);
    int32_t got = rh_load_shape(&plant.host, shape, strlen(shape), &told);
    if (got != RH_ACCEPTED)
        stop("a shape", got);
}

static struct task find(const char *name, const char *operation)
{
    struct task task = {0, {0, 0}, 0, 0};
    if (rh_find_actor(&plant.host, name, strlen(name), &task.actor) != RH_DONE
        || rh_find_target(&plant.host, "Plant.Tank", 10, operation, strlen(operation), &task.target) != RH_DONE)
        stop(name, RH_UNKNOWN_NAME);
    return task;
}

/* The script that an audit takes: the shapes, and behind them the journal. */
static void audit(void)
{
    static char script[1 << 24];
    char verdict[256];
    size_t length = (size_t)sprintf(script, "@host.toml\ncapacity = %d\n@shape\n%s@shape\n%s@shape\n%s@journal\n", CAPACITY, plant_shape,
                                    devices_shape, panel_shape);
    size_t from, next = 1;
    rh_text told;
    int32_t status;
    do {
        told = rh_text_over(script + length, sizeof script - length);
        from = next;
        if (rh_journal(&plant.host, from, &next, &told) != RH_DONE || told.length > told.capacity)
            stop("the journal", 0);
        length += told.length;
    } while (next > from);
    told = rh_text_over(verdict, sizeof verdict);
    status = rh_audit(script, length, &told);
    if (status != RH_DONE)
        stop("the journal isn't legal", status);
    printf("the journal is legal\n");
}

int main(void)
{
    pthread_t threads[3];
    struct task tasks[3];
    char words[64];
    rh_text told = rh_text_over(words, sizeof words);
    int32_t got = rh_plant_open(&plant, CAPACITY, 1);
    if (got != RH_DONE)
        stop("no host", got);
    load(plant_shape);
    load(devices_shape);
    load(panel_shape);
    if (rh_set_list(&plant.host, list, strlen(list), &told) != RH_ACCEPTED)
        stop("the list", 0);
    tasks[0] = find("Devices.Sensor", "Fill");
    tasks[1] = find("Devices.Actuator", "Take");
    tasks[2] = find("Panel.Display", "Level");
    if (pthread_create(&threads[2], NULL, display, &tasks[2]) != 0 || pthread_create(&threads[1], NULL, actuator, &tasks[1]) != 0
        || pthread_create(&threads[0], NULL, sensor, &tasks[0]) != 0)
        stop("a thread", 0);
    pthread_join(threads[0], NULL);
    got = rh_append_line(rh_plant_take(&plant), denial, strlen(denial), &told);
    rh_plant_give(&plant);
    if (got != RH_ACCEPTED)
        stop("the denial", got);
    pthread_join(threads[2], NULL);
    got = rh_halt(rh_plant_take(&plant));
    rh_plant_give(&plant);
    pthread_join(threads[1], NULL);
    if (got != RH_ACCEPTED || tasks[0].done != TURNS)
        stop("the sensor", (int32_t)tasks[0].done);
    if (tasks[2].last != RH_REFUSED)
        stop("the display wasn't refused", tasks[2].last);
    printf("the sensor filled %ld times, and the display was refused\n", tasks[0].done);
    audit();
    rh_plant_close(&plant);
    return 0;
}
