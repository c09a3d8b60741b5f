// Refuses threads to a program, besides its first one, as a system does that has no more. With THREADS=N it has only N; with
// NO_THREAD=N only the Nth is refused, counted from 1. When one is refused it makes the file REFUSED, if that is set.
//
//     cc -shared -fPIC -o no_thread.so no_thread.c -ldl
//     THREADS=2 REFUSED=file LD_PRELOAD=./no_thread.so program
#define _GNU_SOURCE
#include <dlfcn.h>
#include <errno.h>
#include <fcntl.h>
#include <pthread.h>
#include <stdatomic.h>
#include <stdlib.h>
#include <unistd.h>

typedef int create(pthread_t *, const pthread_attr_t *, void *(*)(void *), void *);

static atomic_long asked;

static int refuses(long number) {
    const char *most = getenv("THREADS");
    const char *only = getenv("NO_THREAD");
    return (most != NULL && number > atol(most)) || (only != NULL && number == atol(only));
}

static int refuse(void) {
    const char *file = getenv("REFUSED");
    int made = file == NULL ? -1 : open(file, O_WRONLY | O_CREAT | O_TRUNC, 0644);
    if (made >= 0) close(made);
    return EAGAIN;
}

int pthread_create(pthread_t *thread, const pthread_attr_t *how, void *(*start)(void *), void *with) {
    if (refuses(atomic_fetch_add(&asked, 1) + 1)) return refuse();
    create *next = (create *)dlsym(RTLD_NEXT, "pthread_create");
    return next(thread, how, start, with);
}
