/* What a controller doesn't follow: the clock, input, other processes and threads. Where a program uses it that is told, once for each kind, with the line.
   The calls do what they do else. */
#define _GNU_SOURCE
#include "play/play.h"
#include "progress/progress.h"
#include <dlfcn.h>
#include <stdarg.h>
#include <stdlib.h>
#include <string.h>
#include <sys/time.h>
#include <time.h>
#include <unistd.h>

#define REAL(name) \
    static __typeof__(name) *real_##name; \
    if (!real_##name) real_##name = (__typeof__(name) *)dlsym(RTLD_NEXT, #name)
#define TELL(what) um_tell_unfollowed(what, __builtin_return_address(0))

enum { MOST_NOTES = 32 };

/* What was told, in memory that stays. */
static struct notes {
    int count;
    bool is_left_out;
    const char *what[MOST_NOTES];
    char text[MOST_NOTES][240];
} * notes;

bool um_begin_notes(void) { return (notes = um_shared_memory(sizeof *notes)) != 0; }

void um_tell_notes(FILE *to) {
    for (int k = 0; k < notes->count; k++) fputs(notes->text[k], to);
}

/* Room for a note on something; null where there is one, or where it is of a sanitizer. */
static char *new_note(const char *what, const void *from) {
    Dl_info info;
    if (!um_is_played || (from && dladdr(from, &info) && strstr(info.dli_fname, "san.so"))) return 0;
    for (int k = 0; k < notes->count; k++)
        if (!strcmp(notes->what[k], what)) return 0;
    if (notes->count == MOST_NOTES) return 0;
    notes->what[notes->count] = what;
    return notes->text[notes->count++];
}

/* A rank does it: told where it is met, or where many schedules are played below their table. */
void um_tell_unfollowed(const char *what, const void *from) {
    char line[120], *text = um_me ? new_note(what, from) : 0;
    if (!text) return;
    snprintf(text, sizeof *notes->text, "ulfm-mpirun: rank %d %s%s: that isn't followed, so another run of this schedule may differ\n", um_me->number,
             what, um_line_before(from, line, sizeof line));
    if (!(um_options.seeds || um_options.limit)) fputs(text, stderr);
}

/* Of a search: a rank does what others see and no event tells. So orders of it with other events are left out. */
void um_tell_left_out(const char *what, const void *from) {
    char line[120], *text = um_options.limit && um_me ? new_note(what, from) : 0;
    if (!text) return;
    notes->is_left_out = true;
    snprintf(text, sizeof *notes->text, "ulfm-mpirun: rank %d %s%s: the search doesn't follow that, so it may leave schedules out\n", um_me->number,
             what, um_line_before(from, line, sizeof line));
}

bool um_is_left_out(void) { return notes->is_left_out; }

/* It is what is left when a schedule of many is over. */
void um_tell_left(const char *what, struct call_of call) {
    char line[120], by[160] = "", *text = new_note(what, call.from);
    if (call.from) snprintf(by, sizeof by, ", by rank %d%s", call.rank, um_line_before(call.from, line, sizeof line));
    if (text) snprintf(text, sizeof *notes->text, "ulfm-mpirun: a schedule %s%s: that isn't followed, so the next ones may differ\n", what, by);
}

int clock_gettime(clockid_t clock, struct timespec *time) {
    REAL(clock_gettime);
    TELL("asks the clock");
    return real_clock_gettime(clock, time);
}

int gettimeofday(struct timeval *restrict time, void *restrict zone) {
    REAL(gettimeofday);
    TELL("asks the clock");
    return real_gettimeofday(time, zone);
}

time_t time(time_t *at) {
    REAL(time);
    TELL("asks the clock");
    return real_time(at);
}

clock_t clock(void) {
    REAL(clock);
    TELL("asks the clock");
    return real_clock();
}

/* A process that a rank begins has no controller. */
pid_t fork(void) {
    REAL(fork);
    TELL("begins a process");
    pid_t pid = real_fork();
    if (pid == 0 && um_me) um_is_played = false;
    return pid;
}

int system(const char *command) {
    REAL(system);
    TELL("begins a process");
    return real_system(command);
}

/* A rank begins a thread (threads.c). */
void um_meet_thread(const void *from) {
    um_tell_unfollowed("begins a thread", from);
    if (um_is_played && um_me && (um_options.seeds || um_options.limit)) um_refuse_seeds("a program with further threads is played once, by --seed");
}

/* ---- Input ---- */

#define TELL_INPUT(file) \
    if ((file) == stdin) TELL("reads input")

ssize_t read(int file, void *bytes, size_t count) {
    REAL(read);
    if (file == 0) TELL("reads input");
    return real_read(file, bytes, count);
}

char *fgets(char *text, int room, FILE *file) {
    REAL(fgets);
    TELL_INPUT(file);
    return real_fgets(text, room, file);
}

size_t fread(void *bytes, size_t size, size_t count, FILE *file) {
    REAL(fread);
    TELL_INPUT(file);
    return real_fread(bytes, size, count, file);
}

int fgetc(FILE *file) {
    REAL(fgetc);
    TELL_INPUT(file);
    return real_fgetc(file);
}

#undef getc
#undef getchar
int getc(FILE *file) {
    REAL(fgetc);
    TELL_INPUT(file);
    return real_fgetc(file);
}

int getchar(void) {
    REAL(fgetc);
    TELL_INPUT(stdin);
    return real_fgetc(stdin);
}

#define SCAN(file) \
    TELL_INPUT(file); \
    va_list words; \
    va_start(words, format); \
    int count = vfscanf(file, format, words); \
    va_end(words); \
    return count

int __isoc99_scanf(const char *format, ...) { SCAN(stdin); }
int __isoc99_fscanf(FILE *file, const char *format, ...) { SCAN(file); }
