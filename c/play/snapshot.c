/* The memory of the process as it stood before the first event of a schedule, to which it is put back after each one: so many schedules cost no process
   each. All that is private and can be written is kept, but for the stack of the process, on which the controller runs. Pages that weren't written since
   aren't looked at where the kernel tells which were (Linux 6.7, PAGEMAP_SCAN); else all are compared. What has to stay is in memory that is shared. */
#define _GNU_SOURCE
#include "play/play.h"
#include <fcntl.h>
#include <linux/userfaultfd.h>
#include <string.h>
#include <sys/ioctl.h>
#include <sys/mman.h>
#include <sys/syscall.h>
#include <unistd.h>

enum { MOST_REGIONS = 1000, PAGE = 4096, SMALL = 1 << 20, MOST_RUNS = 512, MAPS = 1 << 20 };

struct region {
    char *from, *saved;
    size_t bytes;
    bool is_watched; /* the kernel tells which of its pages were written */
};
static struct snapshot {
    void *end_of_heap;
    int count, watcher, pages;
    bool is_whole;
    struct region regions[MOST_REGIONS];
    char maps[MAPS];
} * snapshot;

/* linux/fs.h has these from Linux 6.7 on. */
struct run_of_pages {
    uint64_t from, to, kinds;
};
struct scan {
    uint64_t size, flags, from, to, walked_to, runs, run_count, most_pages, inverted, wanted, any_of, told;
};
#define SCAN_PAGES _IOWR('f', 16, struct scan)
enum { WRITTEN = 2, TELLS_WRITES = 1 << 15, KNOWS_EMPTY = 1 << 13, IN_USER_MODE = 1 };

void *um_shared_memory(size_t bytes) {
    void *made = mmap(0, bytes, PROT_READ | PROT_WRITE, MAP_SHARED | MAP_ANONYMOUS | MAP_NORESERVE, -1, 0);
    return made == MAP_FAILED ? 0 : made;
}

static void open_watcher(void) {
    struct uffdio_api api = {.api = UFFD_API, .features = TELLS_WRITES | KNOWS_EMPTY};
    snapshot->pages = open("/proc/self/pagemap", O_RDONLY | O_CLOEXEC);
    snapshot->watcher = (int)syscall(SYS_userfaultfd, O_CLOEXEC | IN_USER_MODE);
    if (snapshot->watcher >= 0 && ioctl(snapshot->watcher, UFFDIO_API, &api) == 0) return;
    if (snapshot->watcher >= 0) close(snapshot->watcher);
    snapshot->watcher = -1;
}

static bool watch(const struct region *region) {
    struct uffdio_range range = {(uintptr_t)region->from, region->bytes};
    struct uffdio_register all = {.range = range, .mode = UFFDIO_REGISTER_MODE_WP};
    struct uffdio_writeprotect writes = {.range = range, .mode = UFFDIO_WRITEPROTECT_MODE_WP};
    return snapshot->watcher >= 0 && snapshot->pages >= 0 && ioctl(snapshot->watcher, UFFDIO_REGISTER, &all) == 0 &&
           ioctl(snapshot->watcher, UFFDIO_WRITEPROTECT, &writes) == 0;
}

static bool is_zero(const char *bytes, size_t count) { return *bytes == 0 && memcmp(bytes, bytes + 1, count - 1) == 0; }

static void save(char *from, char *to) {
    if (from >= to) return;
    struct region *region = &snapshot->regions[snapshot->count];
    *region = (struct region){.from = from, .bytes = (size_t)(to - from), .saved = um_shared_memory((size_t)(to - from))};
    snapshot->is_whole = snapshot->is_whole && region->saved && snapshot->count < MOST_REGIONS - 1;
    if (!snapshot->is_whole) return;
    snapshot->count++;
    for (size_t at = 0; at < region->bytes; at += PAGE) { /* a page of zeros takes no memory */
        size_t bytes = region->bytes - at < PAGE ? region->bytes - at : PAGE;
        if (!is_zero(from + at, bytes)) memcpy(region->saved + at, from + at, bytes);
    }
}

/* Saves a mapping; of the stack of a rank what is in use. */
static void save_mapping(char *from, char *to) {
    for (int k = 0; k < um_options.ranks; k++) {
        char *low, *used, *high;
        um_stack_of(k, &low, &used, &high);
        if (low < from || low >= to) continue;
        save_mapping(from, low);
        save(used, high);
        save_mapping(high, to);
        return;
    }
    save(from, to);
}

static bool read_maps(void) {
    int file = open("/proc/self/maps", O_RDONLY | O_CLOEXEC);
    size_t used = 0;
    for (ssize_t count = 1; file >= 0 && count > 0 && used<MAPS - 1; used += count> 0 ? (size_t)count : 0)
        count = read(file, snapshot->maps + used, MAPS - 1 - used);
    if (file >= 0) close(file);
    snapshot->maps[used] = 0;
    return used > 0 && used < MAPS - 1;
}

/* Keeps all memory. False where that can't be. */
bool um_take_snapshot(void) {
    snapshot = um_shared_memory(sizeof *snapshot);
    if (!snapshot) return false;
    open_watcher();
    snapshot->end_of_heap = (void *)syscall(SYS_brk, 0);
    snapshot->is_whole = read_maps();
    for (char *line = snapshot->maps; *line; line = strchr(line, '\n') + 1) {
        unsigned long from, to;
        char kind[8], name[8] = "";
        if (sscanf(line, "%lx-%lx %7s %*s %*s %*s%*[ ]%7[^\n]", &from, &to, kind, name) < 3 || strncmp(kind, "rw-p", 4)) continue;
        if (!strncmp(name, "[stack]", 7) || !strncmp(name, "[v", 2)) continue;
        save_mapping((char *)from, (char *)to);
    }
    for (int k = 0; k < snapshot->count; k++) {
        struct region *region = &snapshot->regions[k];
        bool is_aligned = ((uintptr_t)region->from | region->bytes) % PAGE == 0;
        if (is_aligned && region->bytes >= SMALL) region->is_watched = watch(region);
    }
    return snapshot->is_whole;
}

/* Puts back what differs. */
static void put_back_pages(const struct region *region, size_t from, size_t to) {
    for (size_t at = from; at < to; at += PAGE) {
        size_t bytes = to - at < PAGE ? to - at : PAGE;
        if (memcmp(region->from + at, region->saved + at, bytes)) memcpy(region->from + at, region->saved + at, bytes);
    }
}

/* Puts back the pages that were written. False where the kernel doesn't tell them. */
static bool put_back_written(const struct region *region) {
    struct run_of_pages runs[MOST_RUNS];
    uint64_t end = (uintptr_t)region->from + region->bytes;
    struct scan scan = {.size = sizeof scan, .to = end, .runs = (uintptr_t)runs, .run_count = MOST_RUNS, .wanted = WRITTEN, .told = WRITTEN};
    for (scan.from = (uintptr_t)region->from; scan.from < end; scan.from = scan.walked_to) {
        long count = ioctl(snapshot->pages, SCAN_PAGES, &scan);
        if (count < 0) return false;
        for (long k = 0; k < count; k++) put_back_pages(region, runs[k].from - (uintptr_t)region->from, runs[k].to - (uintptr_t)region->from);
    }
    return true;
}

void um_put_back(void) {
    if ((void *)syscall(SYS_brk, 0) != snapshot->end_of_heap) syscall(SYS_brk, snapshot->end_of_heap);
    for (int k = 0; k < snapshot->count; k++) {
        const struct region *region = &snapshot->regions[k];
        if (!region->is_watched || !put_back_written(region)) put_back_pages(region, 0, region->bytes);
    }
}
