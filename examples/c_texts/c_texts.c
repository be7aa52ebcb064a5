/*
 * A plant whose bodies are Ada texts: a feeder fills a tank fifty times, a drain takes from it by an entry until all of that has come. Each is
 * the task of a unit text, and a thread of this program goes by it, one request at a time (rh_port_go). At the end the journal is audited
 * over the texts, and what it says is printed.
 */
#define _POSIX_C_SOURCE 200809L
#include <stdio.h>
#include <stdlib.h>
#include <string.h>

#include <rh_port.h>

/* How many entries the journal has room for. */
enum { CAPACITY = 10000 };

static const char plant_text[] =
    "package Plant is\n"
    "   protected Tank with Priority => 20 is\n"
    "      procedure Fill (By : in Integer);\n"
    "      entry Take (All_Of_It : out Integer);\n"
    "   private\n"
    "      Level : Integer range 0 .. 1000 := 0;\n"
    "      Is_Filled : Boolean := False;\n"
    "   end Tank;\n"
    "end Plant;\n"
    "package body Plant is\n"
    "   protected body Tank is\n"
    "      procedure Fill (By : in Integer) is\n"
    "      begin\n"
    "         Level := Level + By;\n"
    "         Is_Filled := True;\n"
    "      end Fill;\n"
    "      entry Take (All_Of_It : out Integer) when Is_Filled is\n"
    "      begin\n"
    "         All_Of_It := Level;\n"
    "         Level := 0;\n"
    "         Is_Filled := False;\n"
    "      end Take;\n"
    "   end Tank;\n"
    "end Plant;\n";
static const char devices_text[] =
    "with Plant;\n"
    "package Devices is\n"
    "   task Feeder with Priority => 15;\n"
    "   task Drain with Priority => 15;\n"
    "end Devices;\n"
    "package body Devices is\n"
    "   task body Feeder is\n"
    "   begin\n"
    "      for Turn in 1 .. 50 loop\n"
    "         Plant.Tank.Fill (2);\n"
    "      end loop;\n"
    "   end Feeder;\n"
    "   task body Drain is\n"
    "      Sum : Integer := 0;\n"
    "      Taken : Integer;\n"
    "   begin\n"
    "      while Sum < 100 loop\n"
    "         Plant.Tank.Take (Taken);\n"
    "         Sum := Sum + Taken;\n"
    "      end loop;\n"
    "   end Drain;\n"
    "end Devices;\n";
static const char list[] = "allow Devices Plant.Tank *\n";

static rh_plant plant;

/* A task whose text a thread goes by. */
struct task {
    size_t actor;
    long entries;  /* how many of its requests the journal has */
    int32_t last;  /* what the last came to */
};

static void stop(const char *what, int32_t got)
{
    fprintf(stderr, "c_texts: %s: %ld\n", what, (long)got);
    exit(1);
}

/* Goes by the text until it has nothing more to ask. */
static void *go(void *of)
{
    struct task *task = of;
    rh_answer answer;
    while ((task->last = rh_port_go(&plant, task->actor, &answer)) > 0)
        task->entries++;
    return NULL;
}

static void load(const char *text)
{
    char words[256];
    rh_text told = rh_text_over(words, sizeof words);
    int32_t got = rh_load_unit(&plant.host, text, strlen(text), &told);
    if (got != RH_ACCEPTED) {
        fprintf(stderr, "c_texts: %.*s\n", (int)(told.length < sizeof words ? told.length : sizeof words), words);
        stop("a unit", got);
    }
}

/* The script that an audit takes: the texts, and behind them the journal. */
static void audit(void)
{
    static char script[1 << 21];
    char verdict[256];
    size_t length = (size_t)sprintf(script, "@host.toml\ncapacity = %d\n@unit\n%s@unit\n%s@journal\n", CAPACITY, plant_text, devices_text);
    size_t from, next = 1;
    rh_text told;
    int32_t status;
    do {
        told = rh_text_over(script + length, sizeof script - length);
        from = next;
        if (rh_journal(&plant.host, from, &next, &told) != RH_DONE || told.length > told.capacity)
            stop("the journal", 0);
        length += told.length;
    } while (next > from);
    told = rh_text_over(verdict, sizeof verdict);
    status = rh_audit(script, length, &told);
    if (status != RH_DONE)
        stop("the journal isn't legal", status);
    printf("the journal is legal\n");
}

int main(void)
{
    pthread_t threads[2];
    struct task tasks[2] = {{0, 0, 0}, {0, 0, 0}};
    char words[64];
    rh_text told = rh_text_over(words, sizeof words);
    int32_t got = rh_plant_open(&plant, CAPACITY, 1);
    if (got != RH_DONE)
        stop("no host", got);
    load(plant_text);
    load(devices_text);
    if (rh_set_list(&plant.host, list, strlen(list), &told) != RH_ACCEPTED)
        stop("the list", 0);
    if (rh_find_actor(&plant.host, "Devices.Feeder", 14, &tasks[0].actor) != RH_DONE
        || rh_find_actor(&plant.host, "Devices.Drain", 13, &tasks[1].actor) != RH_DONE)
        stop("a task", RH_UNKNOWN_NAME);
    if (pthread_create(&threads[0], NULL, go, &tasks[0]) != 0 || pthread_create(&threads[1], NULL, go, &tasks[1]) != 0)
        stop("a thread", 0);
    pthread_join(threads[0], NULL);
    pthread_join(threads[1], NULL);
    if (tasks[0].last != RH_MISUSE || tasks[1].last != RH_MISUSE)
        stop("a text didn't end", tasks[0].last != RH_MISUSE ? tasks[0].last : tasks[1].last);
    /* Fifty calls, each with its end, and the end of the task. */
    if (tasks[0].entries != 101)
        stop("the feeder", (int32_t)tasks[0].entries);
    printf("the feeder filled 50 times, and the drain took all of it\n");
    audit();
    rh_plant_close(&plant);
    return 0;
}
