/*
 * A host of a program's own: two units share a tank under a list. A pilot fills it, and is refused once its right is taken away. The
 * bodies are this program's. It prints the journal.
 */
#include <stdio.h>
#include <string.h>

#include <ravenhost.h>

static const char plant[] = "unit Plant\nprotected Tank 20\nscalar 0 100 10\nprocedure Fill in 0 100\nfunction Level 0 100\n";
static const char nav[] = "unit Nav\ntask Pilot 15\n";
static const char list[] = "allow Nav Plant.Tank *\n";
static const char denial[] = "deny Nav Plant.Tank Fill";

/* Says why something isn't as it should be. Gives 1. */
static int fault(const char *what, int32_t got)
{
    fprintf(stderr, "c_host: %s: %ld\n", what, (long)got);
    return 1;
}

/* What a text came to, with the library's words where it was refused. */
static int carried(const char *what, int32_t got, const rh_text *told)
{
    if (got == RH_ACCEPTED)
        return 0;
    fprintf(stderr, "c_host: %s: %.*s\n", what, (int)(told->length < told->capacity ? told->length : told->capacity), told->bytes);
    return fault(what, got);
}

/* Loads both units, and sets the list. */
static int load(rh_host *host)
{
    char words[128];
    rh_text told = rh_text_over(words, sizeof words);
    return carried("Plant", rh_load_shape(host, plant, strlen(plant), &told), &told)
        || carried("Nav", rh_load_shape(host, nav, strlen(nav), &told), &told)
        || carried("the list", rh_set_list(host, list, strlen(list), &told), &told);
}

/* Fills the tank: the body adds what it is given to the level. */
static int fill(rh_host *host, size_t pilot, rh_target target, int64_t amount, rh_answer *answer)
{
    int64_t level;
    int32_t kind = rh_call(host, pilot, target, &amount, 1, answer);
    if (kind != RH_STARTED)
        return kind;
    level = answer->scalars[0] + amount;
    return rh_end(host, pilot, &level, 1, RH_RETURN, rh_no_values(), 0, answer);
}

/* Prints the journal, page by page. */
static int print_journal(rh_host *host)
{
    char lines[8192];
    size_t from = 1, next = 1;
    do {
        rh_text told = rh_text_over(lines, sizeof lines);
        int32_t got;
        from = next;
        got = rh_journal(host, from, &next, &told);
        if (got != RH_DONE || told.length > told.capacity)
            return fault("the journal", got);
        fwrite(told.bytes, 1, told.length, stdout);
    } while (next > from);
    return 0;
}

static int run(rh_host *host)
{
    char words[128];
    rh_text told = rh_text_over(words, sizeof words);
    rh_answer answer = {0};
    rh_target target;
    size_t pilot;
    int32_t kind;
    if (load(host))
        return 1;
    if (rh_find_actor(host, "Nav.Pilot", 9, &pilot) != RH_DONE || rh_find_target(host, "Plant.Tank", 10, "Fill", 4, &target) != RH_DONE)
        return fault("a name", RH_UNKNOWN_NAME);
    kind = fill(host, pilot, target, 25, &answer);
    if (kind != RH_ENDED)
        return fault("the first filling", kind);
    if (carried("the denial", rh_append_line(host, denial, strlen(denial), &told), &told))
        return 1;
    kind = fill(host, pilot, target, 25, &answer);
    if (kind != RH_REFUSED || answer.rule != 1 || answer.line != 2)
        return fault("the second filling", kind);
    return print_journal(host);
}

int main(void)
{
    rh_host host = rh_none();
    int32_t made = rh_create(1000, 1, &host);
    int faults = made == RH_DONE ? run(&host) : fault("no host", made);
    rh_free(&host);
    return faults;
}
