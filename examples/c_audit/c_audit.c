/*
 * Says of a script what `ravenhost audit` or `ravenhost play` prints of it, and ends with the status that they would end with. It asks
 * in a thread, whose stack holds the deepest bodies that a script may have.
 */
#define _POSIX_C_SOURCE 200809L
#include <errno.h>
#include <pthread.h>
#include <stdio.h>
#include <stdlib.h>
#include <string.h>

#include <ravenhost.h>

/* The program's own statuses, beside those of ravenhost.h. */
enum { USAGE = 2, NOT_READ = 4, NOT_WRITTEN = 4 };

/* What is asked of a script. */
enum deed { AUDIT, PLAY, PLAY_ALL };

/* The bytes of a file that lie in memory. */
struct script {
    char *bytes;
    size_t length;
};

/* Reads more of a file behind what was read. Gives 0 where nothing more comes, and -1 where memory is refused. */
static int read_more(FILE *file, struct script *script, size_t *room)
{
    size_t got;
    if (script->length == *room) {
        size_t wanted = *room == 0 ? 65536 : *room * 2;
        char *larger = realloc(script->bytes, wanted);
        if (larger == NULL)
            return -1;
        script->bytes = larger;
        *room = wanted;
    }
    got = fread(script->bytes + script->length, 1, *room - script->length, file);
    script->length += got;
    return got > 0;
}

/* Reads a file whole. Gives the status that a failure ends with, else 0. */
static int read_file(const char *name, struct script *script)
{
    size_t room = 0;
    int more, failed;
    FILE *file = fopen(name, "rb");
    if (file == NULL) {
        fprintf(stderr, "c_audit: %s: %s\n", name, strerror(errno));
        return NOT_READ;
    }
    do
        more = read_more(file, script, &room);
    while (more > 0);
    failed = ferror(file);
    fclose(file);
    if (failed) {
        fprintf(stderr, "c_audit: %s can't be read\n", name);
        return NOT_READ;
    }
    return more < 0 ? RH_NO_MEMORY : 0;
}

static int32_t ask(enum deed deed, const struct script *script, rh_text *told)
{
    if (deed == AUDIT)
        return rh_audit(script->bytes, script->length, told);
    return rh_play(script->bytes, script->length, deed == PLAY_ALL, told);
}

/* Asks with some room and, where that is too little, once more with as much as is needed. The buffer is the caller's to free. */
static int32_t ask_whole(enum deed deed, const struct script *script, rh_text *told)
{
    int32_t status;
    size_t room = 65536;
    char *bytes = malloc(room);
    *told = rh_text_over(bytes, bytes == NULL ? 0 : room);
    status = ask(deed, script, told);
    if (told->length <= told->capacity)
        return status;
    free(bytes);
    room = told->length;
    bytes = malloc(room);
    *told = rh_text_over(bytes, bytes == NULL ? 0 : room);
    return bytes == NULL ? RH_NO_MEMORY : ask(deed, script, told);
}

/* Prints what is told: the fault on standard error, what is before it on standard output. */
static int print(const rh_text *told)
{
    size_t written = fwrite(told->bytes, 1, told->fault, stdout);
    fflush(stdout);
    fwrite(told->bytes + told->fault, 1, told->length - told->fault, stderr);
    return written == told->fault && !ferror(stdout);
}

/* What is to be said of which file, and the status that it came to. */
struct job {
    enum deed deed;
    const char *name;
    int status;
};

static void *say(void *given)
{
    struct job *job = given;
    struct script script = {NULL, 0};
    rh_text told;
    job->status = read_file(job->name, &script);
    if (job->status == 0) {
        job->status = ask_whole(job->deed, &script, &told);
        if (job->status == RH_NO_MEMORY)
            fputs("c_audit: out of memory\n", stderr);
        else if (!print(&told))
            job->status = NOT_WRITTEN;
        if (told.capacity > 0)
            free(told.bytes);
    }
    free(script.bytes);
    return NULL;
}

/* Does a job in a thread with stack for any bodies, and gives its status. */
static int done(enum deed deed, const char *name)
{
    struct job job = {AUDIT, NULL, RH_NO_MEMORY};
    pthread_attr_t how;
    pthread_t thread;
    job.deed = deed;
    job.name = name;
    if (pthread_attr_init(&how) != 0)
        return RH_NO_MEMORY;
    if (pthread_attr_setstacksize(&how, RH_STACK_BYTES) != 0 || pthread_create(&thread, &how, say, &job) != 0)
        fputs("c_audit: no thread can be started\n", stderr);
    else
        pthread_join(thread, NULL);
    pthread_attr_destroy(&how);
    return job.status;
}

int main(int count, char **words)
{
    if (count == 3 && strcmp(words[1], "audit") == 0)
        return done(AUDIT, words[2]);
    if (count == 3 && strcmp(words[1], "play") == 0)
        return done(PLAY, words[2]);
    if (count == 4 && strcmp(words[1], "play") == 0 && strcmp(words[2], "--all") == 0)
        return done(PLAY_ALL, words[3]);
    fputs("usage: c_audit audit FILE | c_audit play [--all] FILE\n", stderr);
    return USAGE;
}
