/* Further threads of ranks: whose each one is, for what is told where it crashes, ends the process or makes a call of MPI. */
#define _GNU_SOURCE
#include "play/play.h"
#include <dlfcn.h>
#include <stdlib.h>

__thread struct rank *um_owner;

typedef void *starting(void *);
typedef int creating(pthread_t *, const pthread_attr_t *, starting *, void *);

struct beginning {
    starting *start;
    void *of;
    struct rank *owner;
};

static void *begin(void *of) {
    struct beginning own = *(struct beginning *)of;
    free(of);
    um_owner = own.owner;
    return own.start(own.of);
}

int pthread_create(pthread_t *thread, const pthread_attr_t *attributes, starting *start, void *of) {
    creating *create = (creating *)dlsym(RTLD_NEXT, "pthread_create");
    struct rank *rank = um_me ? um_me : um_owner;
    um_meet_thread(__builtin_return_address(0));
    struct beginning *beginning = rank ? malloc(sizeof *beginning) : 0;
    if (!beginning) return create(thread, attributes, start, of);
    *beginning = (struct beginning){start, of, rank};
    int code = create(thread, attributes, begin, beginning);
    if (code) free(beginning);
    return code;
}
