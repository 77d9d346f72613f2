/* The library of Fortran's run time has its units, and what they hold, in variables. So each rank loads a copy of that too, by a name of its own, which
   its copy of the program asks for: the last dot of the name is the rank's number there. */
#define _GNU_SOURCE
#include "launcher/launcher.h"
#include <dlfcn.h>
#include <link.h>
#include <stdlib.h>
#include <string.h>

static const char beginning[] = "libgfortran.so.";

/* The library as it is copied, and where its name stands in it and in the program. */
static struct {
    char *bytes, *own_name, *name_in_program;
    size_t size;
} runtime;

/* The file of the library that the loader finds by this name, or null. */
static char *path_of_library(const char *name) {
    void *loaded = dlopen(name, RTLD_LAZY | RTLD_LOCAL);
    struct link_map *map = 0;
    if (!loaded || dlinfo(loaded, RTLD_DI_LINKMAP, &map) || !map) return 0;
    return map->l_name;
}

/* Reads the library that a program in memory needs. One that needs none, or whose library isn't found, stays as it is. */
void um_read_runtime(char *program, size_t size) {
    runtime.name_in_program = um_library_named_in(program, size, beginning);
    const char *path = runtime.name_in_program ? path_of_library(runtime.name_in_program) : 0;
    runtime.bytes = path ? um_read_file(path, &runtime.size) : 0;
    runtime.own_name = runtime.bytes ? um_library_named_in(runtime.bytes, runtime.size, beginning) : 0;
}

/* Writes the rank's copy into a folder, and has the program in memory ask for it. False where it can't be written. */
bool um_copy_runtime(int rank, const char *folder) {
    if (!runtime.own_name) return true;
    size_t dot = strlen(beginning) - 1;
    runtime.own_name[dot] = runtime.name_in_program[dot] = (char)('0' + rank);
    char **path = &um_ranks[rank].program.runtime;
    return asprintf(path, "%s/%s", folder, runtime.own_name) >= 0 && um_write_copy(*path, runtime.bytes, runtime.size);
}

void um_free_runtime(void) {
    free(runtime.bytes);
    runtime.bytes = runtime.own_name = 0;
}
