/* What a schedule changes outside of memory: files that it leaves open, where it is in a file, handlers of signals, mappings. It is told, with the line
   where that is known, and put back where that can be. */
#define _GNU_SOURCE
#include "play/play.h"
#include <fcntl.h>
#include <stdlib.h>
#include <string.h>
#include <sys/mman.h>
#include <sys/resource.h>
#include <sys/syscall.h>
#include <unistd.h>

enum { FILES = 1024, SIGNALS = 64, MAPPINGS = 1000 };

/* What a rank mapped. */
struct mapping {
    char *at;
    size_t bytes;
    struct call_of call;
};
static struct outside {
    bool is_begun; /* notes are taken */
    int mapping_count;
    struct call_of opened[FILES], closed[FILES]; /* by the calls of ranks in the present schedule */
    struct mapping mappings[MAPPINGS];

    bool is_open[FILES];
    off_t at[FILES];   /* -1: it isn't a file with places */
    int files, lowest; /* all are below `files`; the lowest number that is free */
    struct sigaction actions[SIGNALS + 1];
    unsigned long pages;
} * outside;

static int lowest_free(void) {
    int number = fcntl(0, F_DUPFD, 0);
    if (number < 0) number = open("/", O_RDONLY | O_DIRECTORY);
    if (number >= 0) close(number);
    return number;
}

/* How many pages are mapped. */
static unsigned long count_pages(void) {
    char text[64] = "";
    int file = open("/proc/self/statm", O_RDONLY | O_CLOEXEC);
    if (file < 0 || read(file, text, sizeof text - 1) < 0) *text = 0;
    if (file >= 0) close(file);
    return strtoul(text, 0, 10);
}

bool um_begin_outside(void) { return (outside = um_shared_memory(sizeof *outside)) != 0; }

/* ---- What a rank does (leaves.c) ---- */

static bool is_noted(void) { return outside && outside->is_begun && um_me; }

static struct call_of present_call(const void *from) { return (struct call_of){from, um_me->number}; }

void um_note_opened(int file, const void *from) {
    if (is_noted() && file < FILES) outside->opened[file] = present_call(from);
}

void um_note_closed(int file, const void *from) {
    if (is_noted() && file >= 0 && file < FILES) outside->closed[file] = present_call(from);
}

void um_note_mapped(void *at, size_t bytes, const void *from) {
    if (is_noted() && outside->mapping_count < MAPPINGS)
        outside->mappings[outside->mapping_count++] = (struct mapping){at, bytes, present_call(from)};
}

/* Whether it may be unmapped: what was there before stays, since it is put back. */
bool um_note_unmapped(void *at, size_t bytes, const void *from) {
    if (!is_noted()) return true;
    for (int k = 0; k < outside->mapping_count; k++) {
        const struct mapping *mapping = &outside->mappings[k];
        if ((char *)at < mapping->at || (char *)at >= mapping->at + mapping->bytes) continue;
        if (bytes >= mapping->bytes) outside->mappings[k] = outside->mappings[--outside->mapping_count];
        return true;
    }
    um_tell_left("unmaps memory", present_call(from));
    return false;
}

/* ---- What is left ---- */

/* Notes how it stands when memory was kept. */
void um_note_outside(void) {
    for (int k = 0; k < FILES; k++) {
        outside->is_open[k] = fcntl(k, F_GETFD) >= 0;
        if (!outside->is_open[k]) continue;
        outside->files = k + 1;
        outside->at[k] = lseek(k, 0, SEEK_CUR);
    }
    outside->lowest = lowest_free();
    for (int k = 1; k <= SIGNALS; k++) sigaction(k, 0, &outside->actions[k]);
    outside->pages = count_pages();
    outside->is_begun = true;
}

static const struct call_of not_known = {0, -1};

static void put_back_places(void) {
    for (int k = 0; k < outside->files; k++) {
        if (k == um_options.report || !outside->is_open[k] || outside->at[k] < 0 || lseek(k, 0, SEEK_CUR) == outside->at[k] || fcntl(k, F_GETFD) < 0)
            continue;
        um_tell_left(k == 0 ? "reads input" : "reads or writes a file that was open before", not_known);
        lseek(k, outside->at[k], SEEK_SET);
    }
}

static void put_back_files(void) {
    put_back_places();
    if (lowest_free() == outside->lowest) return;
    for (int k = 0; k < FILES; k++) {
        bool is_open = fcntl(k, F_GETFD) >= 0;
        if (is_open == outside->is_open[k]) continue;
        um_tell_left(is_open ? "leaves a file open" : "closes a file that was open before", is_open ? outside->opened[k] : outside->closed[k]);
        if (is_open) close(k);
    }
}

static void put_back_mappings(void) {
    static const char what[] = "leaves memory mapped";
    for (int k = 0; k < outside->mapping_count; k++) {
        um_tell_left(what, outside->mappings[k].call);
        munmap(outside->mappings[k].at, outside->mappings[k].bytes);
    }
    outside->mapping_count = 0;
    if (count_pages() != outside->pages) um_tell_left(what, not_known);
}

static void put_back_signals(void) {
    struct sigaction action;
    for (int k = 1; k <= SIGNALS; k++) {
        if (sigaction(k, 0, &action) || action.sa_handler == outside->actions[k].sa_handler) continue;
        um_tell_left("changes what a signal does", not_known);
        sigaction(k, &outside->actions[k], 0);
    }
}

/* When memory was put back. */
void um_put_back_outside(void) {
    put_back_files();
    put_back_signals();
    put_back_mappings();
}
