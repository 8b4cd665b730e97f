/* Loaded before the C library: the allocation that NTH_ALLOCATION names is refused, counted from 1 over all threads. With BEHIND_THREADS only those
   count that are made once threads were started, and all of them were joined.
   Where the program never came so far, the file that REFUSED_FILE names is not made. */
#define _GNU_SOURCE
#include <dlfcn.h>
#include <fcntl.h>
#include <pthread.h>
#include <stdatomic.h>
#include <stddef.h>
#include <stdlib.h>
#include <unistd.h>

static long nth;
static int behind_threads;
static atomic_long asked, started, joined;

__attribute__((constructor)) static void begin(void) {
    const char *text = getenv("NTH_ALLOCATION");
    nth = text ? atol(text) : 0;
    behind_threads = getenv("BEHIND_THREADS") != NULL;
}

static int is_refused(void) {
    if (behind_threads && (started == 0 || started != joined)) {
        return 0;
    }
    if (nth == 0 || atomic_fetch_add(&asked, 1) + 1 != nth) {
        return 0;
    }
    const char *file = getenv("REFUSED_FILE");
    int made = file ? open(file, O_CREAT | O_WRONLY, 0600) : -1;
    if (made >= 0) {
        close(made);
    }
    return 1;
}

int pthread_create(pthread_t *thread, const pthread_attr_t *how, void *(*work)(void *), void *given) {
    static int (*real)(pthread_t *, const pthread_attr_t *, void *(*)(void *), void *);
    if (!real) {
        *(void **)&real = dlsym(RTLD_NEXT, "pthread_create");
    }
    int status = real(thread, how, work, given);
    started += status == 0;
    return status;
}

int pthread_join(pthread_t thread, void **came) {
    static int (*real)(pthread_t, void **);
    if (!real) {
        *(void **)&real = dlsym(RTLD_NEXT, "pthread_join");
    }
    int status = real(thread, came);
    joined += status == 0;
    return status;
}

void *malloc(size_t size) {
    static void *(*real)(size_t);
    if (!real) {
        *(void **)&real = dlsym(RTLD_NEXT, "malloc");
    }
    return is_refused() ? NULL : real(size);
}

void *realloc(void *old, size_t size) {
    static void *(*real)(void *, size_t);
    if (!real) {
        *(void **)&real = dlsym(RTLD_NEXT, "realloc");
    }
    return is_refused() ? NULL : real(old, size);
}
