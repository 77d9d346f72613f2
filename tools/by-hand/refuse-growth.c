/* Preloaded into a program, this refuses the growth of memory whose number, from 1, stands in REFUSED_GROWTH: a call of malloc or of one
   of its kin, or a new thread, whose stack takes memory. It tells of it, a line, on the file descriptor that TOLD_GROWTH has. Where the
   number is 0 it refuses none, and tells of each new thread. */
#define _GNU_SOURCE
#include <dlfcn.h>
#include <errno.h>
#include <pthread.h>
#include <stdatomic.h>
#include <stdlib.h>
#include <string.h>
#include <unistd.h>

extern void *__libc_malloc(size_t size);
extern void *__libc_calloc(size_t count, size_t size);
extern void *__libc_realloc(void *old, size_t size);
extern void *__libc_memalign(size_t alignment, size_t size);

static atomic_ulong met;
static unsigned long refused;
static int told = -1;

__attribute__((constructor)) static void start(void) {
    const char *number = getenv("REFUSED_GROWTH"), *descriptor = getenv("TOLD_GROWTH");
    told = descriptor ? atoi(descriptor) : -1;
    met = 0;
    refused = number ? strtoul(number, NULL, 10) : 0;
}

static void tell(const char *call) {
    if (told >= 0 && write(told, call, strlen(call)) < 0)
        _exit(99);
}

static int is_refused(const char *call) {
    if (refused == 0 || atomic_fetch_add(&met, 1) + 1 != refused)
        return 0;
    tell(call);
    return 1;
}

static void *none(void) {
    errno = ENOMEM;
    return NULL;
}

void *malloc(size_t size) {
    return is_refused("malloc\n") ? none() : __libc_malloc(size);
}

void *calloc(size_t count, size_t size) {
    return is_refused("calloc\n") ? none() : __libc_calloc(count, size);
}

void *realloc(void *old, size_t size) {
    return is_refused("realloc\n") ? none() : __libc_realloc(old, size);
}

void *memalign(size_t alignment, size_t size) {
    return is_refused("memalign\n") ? none() : __libc_memalign(alignment, size);
}

void *aligned_alloc(size_t alignment, size_t size) {
    return memalign(alignment, size);
}

int posix_memalign(void **result, size_t alignment, size_t size) {
    void *made = memalign(alignment, size);
    if (made)
        *result = made;
    return made ? 0 : ENOMEM;
}

int pthread_create(pthread_t *thread, const pthread_attr_t *attributes, void *(*routine)(void *), void *argument) {
    static int (*make)(pthread_t *, const pthread_attr_t *, void *(*)(void *), void *);
    if (is_refused("pthread_create\n"))
        return EAGAIN;
    if (refused == 0)
        tell("pthread_create\n");
    if (!make)
        make = (int (*)(pthread_t *, const pthread_attr_t *, void *(*)(void *), void *))dlsym(RTLD_NEXT, "pthread_create");
    return make(thread, attributes, routine, argument);
}
