/* A program is a shared object. Each rank loads a copy of its own, so that it has globals of its own. The copies stand in a folder for
   temporary files until the run ends, for debuggers. */
#define _GNU_SOURCE
#include "launcher/launcher.h"
#include "progress/progress.h"
#include <dlfcn.h>
#include <fcntl.h>
#include <stdlib.h>
#include <string.h>
#include <sys/stat.h>
#include <unistd.h>

static char folder[256];

static bool make_folder(void) {
    const char *place = getenv("TMPDIR");
    snprintf(folder, sizeof folder, "%.200s/ulfm-mpirun-XXXXXX", place && *place ? place : "/tmp");
    if (!mkdtemp(folder)) {
        folder[0] = 0;
        return false;
    }
    char *whole = realpath(folder, 0); /* a rank may go to another folder */
    if (whole && strlen(whole) < sizeof folder) strcpy(folder, whole);
    free(whole);
    return true;
}

/* A file in memory, or null. */
char *um_read_file(const char *path, size_t *size) {
    int from = open(path, O_RDONLY | O_CLOEXEC);
    struct stat info;
    char *bytes = from >= 0 && fstat(from, &info) == 0 && S_ISREG(info.st_mode) ? malloc((size_t)info.st_size + 1) : 0;
    bool is_well = bytes != 0;
    for (*size = 0; is_well && *size < (size_t)info.st_size;) {
        ssize_t count = read(from, bytes + *size, (size_t)info.st_size - *size);
        is_well = count > 0;
        *size += is_well ? (size_t)count : 0;
    }
    if (from >= 0) close(from);
    if (is_well) return bytes;
    free(bytes);
    return 0;
}

bool um_write_copy(const char *path, const char *bytes, size_t size) {
    int to = open(path, O_WRONLY | O_CREAT | O_EXCL | O_CLOEXEC, 0700);
    bool is_well = to >= 0;
    for (size_t at = 0; is_well && at < size;) {
        ssize_t count = write(to, bytes + at, size - at);
        is_well = count > 0;
        at += is_well ? (size_t)count : 0;
    }
    if (to >= 0) close(to);
    return is_well;
}

/* Makes the copies for all ranks; false, and says why, where they can't be made. */
bool um_copy_programs(void) {
    const char *name = strrchr(um_options.program, '/');
    size_t size;
    char *bytes = um_read_file(um_options.program, &size);
    bool is_well = bytes && make_folder();
    if (is_well && !um_mend_program(bytes, size)) return false;
    if (is_well) um_read_runtime(bytes, size);
    for (int k = 0; k < um_options.ranks && is_well; k++)
        is_well = um_copy_runtime(k, folder) &&
                  asprintf(&um_ranks[k].program.path, "%s/%s.rank%d", folder, name ? name + 1 : um_options.program, k) >= 0 &&
                  um_write_copy(um_ranks[k].program.path, bytes, size);
    if (!is_well) fprintf(stderr, "ulfm-mpirun: %s can't be copied\n", um_options.program);
    um_free_runtime();
    free(bytes);
    return is_well;
}

static bool are_left;

/* Another process takes them away. */
void um_leave_copies(void) { are_left = true; }

void um_remove_copies(void) {
    if (!um_is_launcher() || are_left) return;
    for (int k = 0; k < um_options.ranks; k++) {
        if (um_ranks[k].program.path) unlink(um_ranks[k].program.path);
        if (um_ranks[k].program.runtime) unlink(um_ranks[k].program.runtime);
    }
    if (folder[0]) rmdir(folder);
}

static const char *word_at(int k) { return k ? um_options.words[k - 1] : um_options.program; }

/* The words that the rank's main gets: the program, and its arguments. They are one piece of memory with their array, since main may change what
   stands in that. False where there is no memory. */
static bool copy_words(struct rank *rank) {
    size_t count = (size_t)um_options.count + 1, bytes = (count + 1) * sizeof *rank->program.words;
    for (size_t k = 0; k < count; k++) bytes += strlen(word_at((int)k)) + 1;
    rank->program.words = calloc(1, bytes);
    if (!rank->program.words) return false;
    char *text = (char *)(rank->program.words + count + 1);
    for (size_t k = 0; k < count; k++) {
        rank->program.words[k] = text;
        text = stpcpy(text, word_at((int)k)) + 1;
    }
    return true;
}

/* Says why the program can't be loaded, once, and ends the run. */
static void refuse_program(void) {
    while (um_is_crashed) pause();
    static pthread_mutex_t lock = PTHREAD_MUTEX_INITIALIZER;
    char why[512];
    snprintf(why, sizeof why, "%s", dlerror()); /* the next call of the loader takes it away */
    pthread_mutex_lock(&lock);
    fprintf(stderr, "ulfm-mpirun: %s can't be loaded: %s\n", um_options.program, why);
    um_end_run(STATUS_USAGE);
}

/* Loads the copy of the rank that runs, and calls its main. Its status, or STATUS_USAGE where it can't be loaded. */
int um_run_program(struct rank *rank) {
    extern char **environ;
    if (rank->program.runtime && !dlopen(rank->program.runtime, RTLD_NOW | RTLD_LOCAL)) refuse_program();
    rank->program.handle = dlopen(rank->program.path, RTLD_NOW | RTLD_LOCAL);
    if (!rank->program.handle) refuse_program();
    typedef int starting(int, char **, char **);
    starting **start = (starting **)dlsym(rank->program.handle, "ulfm_program_entry");
    if (!start) {
        fprintf(stderr, "ulfm-mpirun: %s wasn't linked by ulfm-mpicc\n", um_options.program);
        um_end_run(STATUS_USAGE);
    }
    if (!copy_words(rank)) um_end_run(STATUS_USAGE);
    return (*start)(um_options.count + 1, rank->program.words, environ);
}
