/* Where an address of the program is, as `addr2line` (binutils) says it. Nothing here takes memory of the C library: it is asked where a rank crashed too. */
#define _GNU_SOURCE
#include "progress/progress.h"
#include <dlfcn.h>
#include <fcntl.h>
#include <poll.h>
#include <string.h>
#include <sys/syscall.h>
#include <sys/wait.h>
#include <unistd.h>

enum { SECONDS = 20 };

/* In a process of its own that shares the memory: becomes addr2line. */
static void become(int output, const char *file, const char *offset) {
    int none = open("/dev/null", O_WRONLY);
    dup2(output, 1);
    dup2(none, 2);
    execlp("addr2line", "addr2line", "-s", "-e", file, offset, (char *)0);
    syscall(SYS_exit_group, 1);
}

/* The first line that addr2line writes, or "". */
static void ask(const char *file, const char *offset, char *line, size_t room) {
    int ends[2];
    *line = 0;
    if (pipe2(ends, O_CLOEXEC)) return;
    pid_t child = vfork();
    if (child == 0) become(ends[1], file, offset);
    close(ends[1]);
    struct pollfd answer = {ends[0], POLLIN, 0};
    ssize_t length = child > 0 && poll(&answer, 1, SECONDS * 1000) == 1 ? read(ends[0], line, room - 1) : 0;
    close(ends[0]);
    if (child > 0 && length > 0) waitpid(child, 0, 0);
    line[length > 0 ? length : 0] = 0;
    line[strcspn(line, " \n")] = 0;
}

/* " at FILE:LINE" of the call before an address, or "" where that isn't known. */
char *um_line_before(const void *at, char *text, size_t room) {
    char line[256], offset[32];
    Dl_info info;
    *text = 0;
    if (!at || !dladdr(at, &info)) return text;
    snprintf(offset, sizeof offset, "0x%zx", (size_t)((const char *)at - (const char *)info.dli_fbase) - 1);
    ask(info.dli_fname, offset, line, sizeof line);
    if (*line && *line != '?' && !strstr(line, ":?") && !strstr(line, ":0")) snprintf(text, room, " at %s", line);
    return text;
}

/* That of a call; of many schedules it isn't wanted. */
char *um_line_of(const struct call *call, char *text, size_t room) {
    return um_line_before(um_options.seeds || um_options.limit ? 0 : call->from, text, room);
}
