#define _GNU_SOURCE
#include <dlfcn.h>
#include <errno.h>
#include <stdio.h>
#include <stdlib.h>
#include <sys/syscall.h>
#include <unistd.h>

/* Stands before malloc. Refuses the allocation whose number is in REFUSED, if that is a number from 1 on. At the end of a run it
   writes to descriptor 9 `none` where the run didn't come to that allocation; with LEFT set, the number of blocks that are left
   too; with COUNTED set, the number of allocations alone. */
static long refused = -1, calls, left;
static int is_refused(void) {
    if (refused < 0) {
        char *number = getenv("REFUSED");
        refused = number ? atol(number) : 0;
    }
    /* Threads allocate at once. */
    if (__atomic_add_fetch(&calls, 1, __ATOMIC_SEQ_CST) != refused) return 0;
    errno = ENOMEM;
    return 1;
}
static void *next(const char *name) { return dlsym(RTLD_NEXT, name); }
static void *got(void *block) {
    if (block) __atomic_add_fetch(&left, 1, __ATOMIC_SEQ_CST);
    return block;
}
void *malloc(size_t size) {
    static void *(*real)(size_t);
    if (!real) real = next("malloc");
    return is_refused() ? NULL : got(real(size));
}
void *realloc(void *old, size_t size) {
    static void *(*real)(void *, size_t);
    if (!real) real = next("realloc");
    if (is_refused()) return NULL;
    void *block = real(old, size);
    return old ? block : got(block);
}
void *aligned_alloc(size_t alignment, size_t size) {
    static void *(*real)(size_t, size_t);
    if (!real) real = next("aligned_alloc");
    return is_refused() ? NULL : got(real(alignment, size));
}
int posix_memalign(void **found, size_t alignment, size_t size) {
    static int (*real)(void **, size_t, size_t);
    if (!real) real = next("posix_memalign");
    if (is_refused()) return ENOMEM;
    int failed = real(found, alignment, size);
    if (!failed) got(*found);
    return failed;
}
void free(void *block) {
    static void (*real)(void *);
    if (!real) real = next("free");
    if (block) __atomic_sub_fetch(&left, 1, __ATOMIC_SEQ_CST);
    real(block);
}
static void tell(void) {
    char text[64];
    int length = 0;
    if (getenv("COUNTED")) length = snprintf(text, sizeof text, "%ld\n", calls);
    else {
        if (calls < refused) length = snprintf(text, sizeof text, "none\n");
        if (getenv("LEFT")) length += snprintf(text + length, sizeof text - length, "%ld\n", left);
    }
    if (length && write(9, text, length) < 0) syscall(SYS_exit_group, 9);
}
__attribute__((destructor)) static void end(void) { tell(); }

/* A program with threads ends by this call, behind which no destructor runs. */
void _exit(int status) {
    tell();
    syscall(SYS_exit_group, status);
    __builtin_unreachable();
}
