/* What a rank opens, closes and maps while a schedule of many is played: what is left of it is told with the line that it came from, and put back
   (outside.c). The kernel is asked itself, since the loader isn't there yet when the first of these is called. */
#define _GNU_SOURCE
#include "play/play.h"
#include <dlfcn.h>
#include <fcntl.h>
#include <stdarg.h>
#include <sys/mman.h>
#include <sys/socket.h>
#include <sys/syscall.h>
#include <unistd.h>

#define FROM __builtin_return_address(0)
#define REAL(name) \
    static __typeof__(name) *real_##name; \
    if (!real_##name) real_##name = (__typeof__(name) *)dlsym(RTLD_NEXT, #name)
/* The permissions that stand behind the flags, where a file may be made. */
#define MODE(flags, mode) \
    mode_t mode = 0; \
    va_list more; \
    va_start(more, flags); \
    if ((flags) & (O_CREAT | O_TMPFILE)) mode = va_arg(more, mode_t); \
    va_end(more)

static int opened(int file, const void *from) {
    if (file >= 0) um_note_opened(file, from);
    return file;
}

static FILE *opened_stream(FILE *file, const void *from) {
    if (file) um_note_opened(fileno(file), from);
    return file;
}

static int open_at(int folder, const char *path, int flags, mode_t mode, const void *from) {
    return opened((int)syscall(SYS_openat, folder, path, flags, mode), from);
}

int open(const char *path, int flags, ...) {
    MODE(flags, mode);
    return open_at(AT_FDCWD, path, flags, mode, FROM);
}

int open64(const char *path, int flags, ...) {
    MODE(flags, mode);
    return open_at(AT_FDCWD, path, flags | O_LARGEFILE, mode, FROM);
}

int openat(int folder, const char *path, int flags, ...) {
    MODE(flags, mode);
    return open_at(folder, path, flags, mode, FROM);
}

int openat64(int folder, const char *path, int flags, ...) {
    MODE(flags, mode);
    return open_at(folder, path, flags | O_LARGEFILE, mode, FROM);
}

int creat(const char *path, mode_t mode) { return open_at(AT_FDCWD, path, O_CREAT | O_WRONLY | O_TRUNC, mode, FROM); }

int socket(int domain, int type, int protocol) { return opened((int)syscall(SYS_socket, domain, type, protocol), FROM); }

int dup(int file) { return opened((int)syscall(SYS_dup, file), FROM); }

FILE *fopen(const char *path, const char *mode) {
    REAL(fopen);
    return opened_stream(real_fopen(path, mode), FROM);
}

FILE *fopen64(const char *path, const char *mode) {
    REAL(fopen64);
    return opened_stream(real_fopen64(path, mode), FROM);
}

FILE *tmpfile(void) {
    REAL(tmpfile);
    return opened_stream(real_tmpfile(), FROM);
}

int close(int file) {
    um_note_closed(file, FROM);
    return (int)syscall(SYS_close, file);
}

void *mmap(void *at, size_t bytes, int access, int flags, int file, off_t from) {
    void *mapped = (void *)syscall(SYS_mmap, at, bytes, access, flags, file, from);
    if (mapped != MAP_FAILED) um_note_mapped(mapped, bytes, FROM);
    return mapped;
}

void *mmap64(void *at, size_t bytes, int access, int flags, int file, off_t from) __attribute__((alias("mmap")));

int munmap(void *at, size_t bytes) { return um_note_unmapped(at, bytes, FROM) ? (int)syscall(SYS_munmap, at, bytes) : 0; }
