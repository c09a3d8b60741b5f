// Lets allocations of a program fail, counted from 1, of those that the program itself asks for. With REFUSE=N only the Nth fails; with
// REFUSE_FROM=N the Nth and all after it, or with REFUSE_FOR=MILLISECONDS those within this time after the Nth was asked for.
// When the first one fails it makes the file REFUSED, which shows that there was such an allocation.
//
//     cc -shared -fPIC -o refuse.so refuse.c -ldl
//     REFUSE=7 REFUSED=file LD_PRELOAD=./refuse.so program
//     REFUSE_FROM=7 REFUSE_FOR=1000 REFUSED=file LD_PRELOAD=./refuse.so program
#define _GNU_SOURCE
#include <dlfcn.h>
#include <fcntl.h>
#include <stdatomic.h>
#include <stdlib.h>
#include <time.h>
#include <unistd.h>

static atomic_long asked;
// When the first allocation was refused, in milliseconds; 0 before that.
static atomic_long begun;

static long now(void) {
    struct timespec at;
    clock_gettime(CLOCK_MONOTONIC, &at);
    return at.tv_sec * 1000 + at.tv_nsec / 1000000 + 1;
}

static void note_first(void) {
    long none = 0;
    if (!atomic_compare_exchange_strong(&begun, &none, now())) return;
    int made = open(getenv("REFUSED"), O_WRONLY | O_CREAT | O_TRUNC, 0644);
    if (made >= 0) close(made);
}

static int refuses(void) {
    const char *only = getenv("REFUSE");
    const char *from = getenv("REFUSE_FROM");
    const char *length = getenv("REFUSE_FOR");
    if (getenv("REFUSED") == NULL) return 0;
    long number = atomic_fetch_add(&asked, 1) + 1;
    if ((only == NULL || number != atol(only)) && (from == NULL || number < atol(from))) return 0;
    note_first();
    return length == NULL || now() - atomic_load(&begun) < atol(length);
}

void *malloc(size_t size) {
    static void *(*next)(size_t);
    if (next == NULL) next = (void *(*)(size_t))dlsym(RTLD_NEXT, "malloc");
    return refuses() ? NULL : next(size);
}

void *realloc(void *old, size_t size) {
    static void *(*next)(void *, size_t);
    if (next == NULL) next = (void *(*)(void *, size_t))dlsym(RTLD_NEXT, "realloc");
    return refuses() ? NULL : next(old, size);
}
