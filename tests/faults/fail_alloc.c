// Has the FAIL_AT-th allocation of a program fail, for tests/faults/check and tests/robustness/alloc_failures.py;
// with COUNT set it prints how many there were. The first comes before there are threads.
#define _GNU_SOURCE
#include <dlfcn.h>
#include <stdio.h>
#include <stdlib.h>

static long allocations, failing = -1;
static void *(*real_malloc)(size_t);
static void *(*real_realloc)(void *, size_t);

static int fails(void) {
    if (failing < 0) {
        const char *at = getenv("FAIL_AT");
        failing = at ? atol(at) : 0;
        real_malloc = dlsym(RTLD_NEXT, "malloc");
        real_realloc = dlsym(RTLD_NEXT, "realloc");
    }
    return __atomic_add_fetch(&allocations, 1, __ATOMIC_SEQ_CST) == failing;
}

void *malloc(size_t size) { return fails() ? NULL : real_malloc(size); }

void *realloc(void *old, size_t size) { return fails() ? NULL : real_realloc(old, size); }

__attribute__((destructor)) static void print_count(void) {
    if (getenv("COUNT")) fprintf(stderr, "%ld\n", allocations);
}

// A program with threads ends by this, and no destructor runs.
__attribute__((noreturn)) void _exit(int status) {
    print_count();
    ((void (*)(int))dlsym(RTLD_NEXT, "_exit"))(status);
    __builtin_unreachable();
}
