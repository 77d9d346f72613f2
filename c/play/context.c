/* Contexts: each rank of a played run has a stack of its own, and the controller has that of the process. What belongs to the kernel's thread and a program
   may change is each rank's own: errno, the modes of rounding, and the exceptions of C++ that are caught and not over. */
#define _GNU_SOURCE
#include "launcher/launcher.h"
#include "play/play.h"
#include <dlfcn.h>
#include <errno.h>
#include <stdlib.h>
#include <string.h>
#include <sys/mman.h>
#include <unistd.h>
#if !defined __x86_64__
#include <fenv.h>
#include <ucontext.h>
#endif
#if __has_include(<valgrind/valgrind.h>)
#include <valgrind/valgrind.h>
#else
#define VALGRIND_STACK_REGISTER(low, high) 0
#define RUNNING_ON_VALGRIND (getenv("LD_PRELOAD") && strstr(getenv("LD_PRELOAD"), "vgpreload"))
#endif

/* What the C++ library has of a thread (the ABI's __cxa_eh_globals). */
struct exceptions {
    void *caught;
    unsigned uncaught;
};

struct context {
#if defined __x86_64__
    void *at; /* its stack pointer */
#else
    ucontext_t at;
    fenv_t modes;
#endif
    char *low; /* of its stack */
    size_t room;
    char *deepest; /* below this it uses nothing of it */
    int error;     /* its errno */
    bool knows_exceptions;
    struct exceptions exceptions, *(*find_exceptions)(void);
    void *sanitized; /* what AddressSanitizer keeps of it */
};
enum { BELOW = 4096 }; /* more than what a switch needs */
static struct context contexts[MAX_RANKS], controller;
static int present;

/* Of AddressSanitizer, where the layer was built with it: a stack begins, or begun is another one. */
__attribute__((weak)) void __sanitizer_start_switch_fiber(void **kept, const void *low, size_t room);
__attribute__((weak)) void __sanitizer_finish_switch_fiber(void *kept, const void **low, size_t *room);
static bool has_sanitizer(void) { return __sanitizer_start_switch_fiber != 0; }

bool um_has_valgrind(void) { return RUNNING_ON_VALGRIND != 0; }

/* Whether AddressSanitizer or memcheck look at the process: they know what memory is in use, so it can't be put back under them. */
bool um_is_looked_at(void) { return has_sanitizer() || um_has_valgrind(); }

#if defined __x86_64__
/* Goes to another stack: what a call has to keep is kept on the own one. */
__attribute__((naked, noinline)) static void switch_stack(__attribute__((unused)) void **from, __attribute__((unused)) void *to) {
    __asm__("push %rbp; push %rbx; push %r12; push %r13; push %r14; push %r15; sub $8, %rsp; stmxcsr (%rsp); fnstcw 4(%rsp); mov %rsp, (%rdi);"
            "mov %rsi, %rsp; ldmxcsr (%rsp); fldcw 4(%rsp); add $8, %rsp; pop %r15; pop %r14; pop %r13; pop %r12; pop %rbx; pop %rbp; ret");
}

static void go(struct context *from, struct context *to) { switch_stack(&from->at, to->at); }

/* Lays out a stack so that the first switch to it begins the function. */
static bool lay_out(struct context *context, void (*begin)(void)) {
    void **top = (void **)(context->low + context->room);
    *--top = 0;
    *--top = (void *)begin;
    for (int k = 0; k < 6; k++) *--top = 0;
    uint32_t *modes = (uint32_t *)--top;
    uint16_t control;
    __asm__ volatile("fnstcw %0" : "=m"(control));
    modes[0] = __builtin_ia32_stmxcsr();
    modes[1] = control;
    context->at = top;
    return true;
}
#else
static void go(struct context *from, struct context *to) {
    fegetenv(&from->modes);
    swapcontext(&from->at, &to->at);
    fesetenv(&from->modes);
}

static bool lay_out(struct context *context, void (*begin)(void)) {
    if (getcontext(&context->at)) return false;
    context->at.uc_stack = (stack_t){.ss_sp = context->low, .ss_size = context->room};
    makecontext(&context->at, begin, 0);
    return true;
}
#endif

static void switch_to(struct context *from, struct context *to) {
    if (has_sanitizer()) __sanitizer_start_switch_fiber(&from->sanitized, to->low, to->room);
    go(from, to);
    if (has_sanitizer()) __sanitizer_finish_switch_fiber(from->sanitized, 0, 0);
}

/* The exceptions of the C++ library that the rank's program is linked with; null where there is none. */
static struct exceptions *exceptions_of(struct context *context) {
    if (!context->knows_exceptions && um_me->program.handle) {
        *(void **)&context->find_exceptions = dlsym(um_me->program.handle, "__cxa_get_globals");
        context->knows_exceptions = true;
    }
    return context->find_exceptions ? context->find_exceptions() : 0;
}

/* The rank that runs gives the processor to the controller. */
void um_to_controller(void) {
    struct context *own = &contexts[present];
    struct exceptions *exceptions = exceptions_of(own);
    own->error = errno;
    own->deepest = (char *)__builtin_frame_address(0) - BELOW;
    if (exceptions) {
        own->exceptions = *exceptions;
        *exceptions = (struct exceptions){0};
    }
    switch_to(own, &controller);
    if (exceptions) *exceptions = own->exceptions;
    errno = own->error;
}

/* The controller gives the processor to a rank. */
void um_resume(int rank) {
    present = rank;
    um_me = &um_ranks[rank];
    switch_to(&controller, &contexts[rank]);
    um_me = 0;
}

static void begin(void) {
    if (has_sanitizer()) __sanitizer_finish_switch_fiber(0, (const void **)&controller.low, &controller.room);
    um_live();
    um_players[present].state = OVER;
    for (;;) um_to_controller();
}

/* A context that begins a rank. False where there is no memory. */
bool um_make_context(int rank) {
    struct context *context = &contexts[rank];
    size_t page = (size_t)sysconf(_SC_PAGESIZE);
    char *low = mmap(0, STACK, PROT_READ | PROT_WRITE, MAP_PRIVATE | MAP_ANONYMOUS | MAP_STACK | MAP_NORESERVE, -1, 0);
    if (low == MAP_FAILED || mprotect(low, page, PROT_NONE)) return false;
    (void)VALGRIND_STACK_REGISTER(low, low + STACK);
    *context = (struct context){.low = low + page, .room = STACK - page};
    um_ranks[rank].thread.stack = low + page;
    return lay_out(context, begin);
}

/* The stack of a rank that has the processor no more: its ends, and from where on it is in use. */
void um_stack_of(int rank, char **low, char **used, char **high) {
    const struct context *context = &contexts[rank];
    *low = context->low;
    *high = context->low + context->room;
    *used = context->deepest > *low ? context->deepest : *low;
}
