/* Standard output of ranks. They share one process, so each rank has a stream of its own, which hands whole lines on to descriptor 1, and what a
   program flushes. What a program writes to `stdout` by the calls below goes to the stream of its rank. */
#define _GNU_SOURCE
#include "progress/progress.h"
#include <dlfcn.h>
#include <stdarg.h>
#include <stdlib.h>
#include <string.h>
#include <sys/syscall.h>
#include <unistd.h>

#define REAL(name, ...) \
    static __typeof__(name) *real_##name; \
    if (!real_##name) real_##name = (__typeof__(name) *)dlsym(RTLD_NEXT, #name)

static pthread_mutex_t lock = PTHREAD_MUTEX_INITIALIZER, closing = PTHREAD_MUTEX_INITIALIZER;

/* Whether lines stay whole, though a program flushes parts: each has a tag, or they are compared. */
static bool keeps_lines(void) { return um_options.tag || um_options.report >= 0; }

static void write_all(const char *bytes, size_t length) {
    while (length) {
        ssize_t count = syscall(SYS_write, 1, bytes, length);
        if (count <= 0) return;
        bytes += count;
        length -= count;
    }
}

/* Writes the rank's line, or what there is of it. */
static void hand_on(struct rank *rank) {
    char tag[16];
    pthread_mutex_lock(&lock);
    if (um_options.tag) write_all(tag, snprintf(tag, sizeof tag, "[%d] ", rank->number));
    write_all(rank->out.line, rank->out.length);
    pthread_mutex_unlock(&lock);
    rank->out.length = 0;
}

static bool add(struct rank *rank, char byte) {
    if (rank->out.length == rank->out.room) {
        size_t room = rank->out.room ? 2 * rank->out.room : 256;
        char *line = realloc(rank->out.line, room);
        if (!line) return false;
        rank->out.line = line;
        rank->out.room = room;
    }
    rank->out.line[rank->out.length++] = byte;
    return true;
}

static ssize_t take(void *of, const char *bytes, size_t length) {
    struct rank *rank = of;
    for (size_t k = 0; k < length && !rank->out.has_closed; k++) {
        if (!add(rank, bytes[k])) return 0;
        if (bytes[k] == '\n') hand_on(rank);
    }
    return (ssize_t)length;
}

bool um_open_output(struct rank *rank) {
    rank->out.file = fopencookie(rank, "w", (cookie_io_functions_t){.write = take});
    return rank->out.file && setvbuf(rank->out.file, 0, _IOLBF, BUFSIZ) == 0;
}

/* Writes what is left of a line, with an end where it would run into another one's. */
static void write_rest(struct rank *rank) {
    if (rank->out.length && (!keeps_lines() || add(rank, '\n'))) hand_on(rank);
}

void um_close_output(struct rank *rank) {
    pthread_mutex_lock(&closing);
    if (rank->out.file) fclose(rank->out.file);
    rank->out.file = 0;
    write_rest(rank);
    free(rank->out.line);
    rank->out.line = 0;
    pthread_mutex_unlock(&closing);
}

/* Before the run is ended: writes what is left of each rank's line, where nobody writes there. With `all` also what wasn't flushed; where a rank crashed,
   its stream may be broken. */
void um_write_rests(bool all) {
    REAL(fflush);
    if (all && um_options.is_alone) real_fflush(0);
    if (pthread_mutex_trylock(&closing)) return;
    for (int k = 0; k < um_options.ranks; k++) {
        if (!um_ranks[k].out.file || ftrylockfile(um_ranks[k].out.file)) continue;
        if (all) real_fflush(um_ranks[k].out.file);
        write_rest(&um_ranks[k]);
        funlockfile(um_ranks[k].out.file);
    }
    pthread_mutex_unlock(&closing);
}

static FILE *stream(FILE *file) { return um_me && file == stdout && um_me->out.file ? um_me->out.file : file; }

int vfprintf(FILE *file, const char *format, va_list words) {
    REAL(vfprintf);
    return real_vfprintf(stream(file), format, words);
}

size_t fwrite(const void *bytes, size_t size, size_t count, FILE *file) {
    REAL(fwrite);
    return real_fwrite(bytes, size, count, stream(file));
}

/* Fortran's library writes so, a part of a line too. The kernel is asked itself, as by handlers of signals. */
ssize_t write(int file, const void *bytes, size_t count) {
    if (file == 1 && um_me && um_me->program.runtime && um_me->out.file) return (ssize_t)fwrite(bytes, 1, count, um_me->out.file);
    return syscall(SYS_write, file, bytes, count);
}

int fputs(const char *text, FILE *file) {
    REAL(fputs);
    return real_fputs(text, stream(file));
}

int fputc(int byte, FILE *file) {
    REAL(fputc);
    return real_fputc(byte, stream(file));
}

int fflush(FILE *file) {
    REAL(fflush);
    int code = real_fflush(stream(file));
    if (um_me && um_me->out.file && (!file || file == stdout) && !keeps_lines()) {
        flockfile(um_me->out.file);
        write_rest(um_me);
        funlockfile(um_me->out.file);
    }
    return code;
}

/* The rank's own stream ends, and not that of the others. */
int fclose(FILE *file) {
    REAL(fclose);
    if (!um_me || !um_me->out.file || file != stdout) return real_fclose(file);
    int code = fflush(stdout);
    um_me->out.has_closed = true;
    return code;
}

int setvbuf(FILE *file, char *buffer, int mode, size_t size) {
    REAL(setvbuf);
    return um_me && um_me->out.file && file == stdout ? 0 : real_setvbuf(file, buffer, mode, size);
}

void setbuf(FILE *file, char *buffer) { setvbuf(file, buffer, buffer ? _IOFBF : _IONBF, BUFSIZ); }

#define FORWARD(file) \
    va_list words; \
    va_start(words, format); \
    int count = vfprintf(file, format, words); \
    va_end(words); \
    return count

#undef putc
#undef putchar
int printf(const char *format, ...) { FORWARD(stdout); }
int fprintf(FILE *file, const char *format, ...) { FORWARD(file); }
int vprintf(const char *format, va_list words) { return vfprintf(stdout, format, words); }
int __printf_chk(int flag, const char *format, ...) {
    (void)flag;
    FORWARD(stdout);
}
int __fprintf_chk(FILE *file, int flag, const char *format, ...) {
    (void)flag;
    FORWARD(file);
}
int __vprintf_chk(int flag, const char *format, va_list words) {
    (void)flag;
    return vfprintf(stdout, format, words);
}
int __vfprintf_chk(FILE *file, int flag, const char *format, va_list words) {
    (void)flag;
    return vfprintf(file, format, words);
}
int putc(int byte, FILE *file) { return fputc(byte, file); }
int putchar(int byte) { return fputc(byte, stdout); }
int putc_unlocked(int byte, FILE *file) { return fputc(byte, file); }
int putchar_unlocked(int byte) { return fputc(byte, stdout); }
int puts(const char *text) { return fputs(text, stdout) < 0 || fputc('\n', stdout) < 0 ? EOF : 1; }
