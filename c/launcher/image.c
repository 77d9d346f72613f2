/* Programs that a plain compiler linked, by the words that `ulfm-mpicc -showme` tells. Such a program is an executable (PIE), and the loader of the system
   loads none into a process: so each rank's copy is made one that it loads. Its own functions and variables are the rank's own then. Two things of an
   executable can't be so: variables of a thread, and those variables of libraries that a program has a copy of. */
#define _GNU_SOURCE
#include "launcher/launcher.h"
#include <dlfcn.h>
#include <elf.h>
#include <string.h>

#if defined __aarch64__
enum { COPY = R_AARCH64_COPY };
#else
enum { COPY = R_X86_64_COPY };
#endif

/* A program in memory. */
struct image {
    char *at;
    size_t size;
    const Elf64_Phdr *parts;
    int count;
    Elf64_Dyn *dynamic;
};

/* What stands at an address of the program, or null. */
static void *place_at(const struct image *image, uint64_t address) {
    for (int k = 0; k < image->count; k++) {
        const Elf64_Phdr *part = &image->parts[k];
        if (part->p_type != PT_LOAD || address < part->p_vaddr || address - part->p_vaddr >= part->p_filesz) continue;
        uint64_t offset = part->p_offset + (address - part->p_vaddr);
        return offset < image->size ? image->at + offset : 0;
    }
    return 0;
}

static const Elf64_Phdr *part_of(const struct image *image, uint32_t type) {
    for (int k = 0; k < image->count; k++)
        if (image->parts[k].p_type == type) return &image->parts[k];
    return 0;
}

/* An entry of the dynamic section, or null. */
static Elf64_Dyn *entry_of(const struct image *image, int64_t tag) {
    for (Elf64_Dyn *entry = image->dynamic; entry && entry->d_tag != DT_NULL; entry++)
        if (entry->d_tag == tag) return entry;
    return 0;
}

static void *table_of(const struct image *image, int64_t tag) {
    const Elf64_Dyn *entry = entry_of(image, tag);
    return entry ? place_at(image, entry->d_un.d_ptr) : 0;
}

/* Reads the head of a file; false where it is none of a program of this machine's width. */
static bool read_head(struct image *image) {
    const Elf64_Ehdr *head = (const Elf64_Ehdr *)image->at;
    if (image->size < sizeof *head || memcmp(head->e_ident, ELFMAG, SELFMAG) || head->e_ident[EI_CLASS] != ELFCLASS64) return false;
    if (head->e_phoff > image->size || head->e_phnum > (image->size - head->e_phoff) / sizeof *image->parts) return false;
    image->parts = (const Elf64_Phdr *)(image->at + head->e_phoff);
    image->count = head->e_phnum;
    const Elf64_Phdr *dynamic = part_of(image, PT_DYNAMIC);
    image->dynamic = dynamic ? place_at(image, dynamic->p_vaddr) : 0;
    return image->dynamic != 0;
}

/* Whether a variable of a library serves where each rank has a copy of it: those that stay as they are, and the streams of C++. */
static bool may_be_copied(const char *name) {
    static const char *const names[] = {"stdin", "stdout", "stderr", "_ZSt3cin", "_ZSt4cout", "_ZSt4cerr", "_ZSt4clog"};
    for (size_t k = 0; k < sizeof names / sizeof *names; k++)
        if (!strcmp(name, names[k])) return true;
    return !strncmp(name, "_ZTV", 4) || !strncmp(name, "_ZTI", 4);
}

/* The program's copies of variables of libraries: the loader fills each from its library, and shows none to libraries. Null, or the name of one that
   doesn't serve. */
static const char *mend_copies(const struct image *image) {
    const Elf64_Rela *at = table_of(image, DT_RELA);
    const Elf64_Dyn *bytes = entry_of(image, DT_RELASZ);
    Elf64_Sym *symbols = table_of(image, DT_SYMTAB);
    const char *texts = table_of(image, DT_STRTAB);
    for (size_t k = 0; at && bytes && symbols && texts && k < bytes->d_un.d_val / sizeof *at; k++) {
        Elf64_Sym *symbol = &symbols[ELF64_R_SYM(at[k].r_info)];
        if (ELF64_R_TYPE(at[k].r_info) != COPY) continue;
        if (!may_be_copied(texts + symbol->st_name)) return texts + symbol->st_name;
        symbol->st_shndx = SHN_UNDEF;
        symbol->st_value = 0;
    }
    return 0;
}

static bool needs(const struct image *image, const char *library) {
    const char *texts = table_of(image, DT_STRTAB);
    for (const Elf64_Dyn *entry = image->dynamic; texts && entry->d_tag != DT_NULL; entry++)
        if (entry->d_tag == DT_NEEDED && !strcmp(texts + entry->d_un.d_val, library)) return true;
    return false;
}

/* The name of the library that begins so, as a program in memory asks for it, or the library itself has it; null: neither. */
char *um_library_named_in(char *bytes, size_t size, const char *beginning) {
    struct image image = {.at = bytes, .size = size};
    char *texts = read_head(&image) ? table_of(&image, DT_STRTAB) : 0;
    for (const Elf64_Dyn *entry = image.dynamic; texts && entry->d_tag != DT_NULL; entry++) {
        if (entry->d_tag != DT_NEEDED && entry->d_tag != DT_SONAME) continue;
        if (!strncmp(texts + entry->d_un.d_val, beginning, strlen(beginning))) return texts + entry->d_un.d_val;
    }
    return 0;
}

/* The library of C++ begins before the program, whose copies of the streams are filled as it is loaded; whoever first asks for them makes them. */
static void begin_streams(const struct image *image) {
    static char asker;
    static const char library[] = "libstdc++.so.6";
    void *loaded = needs(image, library) ? dlopen(library, RTLD_NOW | RTLD_GLOBAL) : 0;
    void (*ask)(void *) = loaded ? (void (*)(void *))dlsym(loaded, "_ZNSt8ios_base4InitC1Ev") : 0;
    if (ask) ask(&asker);
}

static bool refuse(const char *what, const char *name) {
    fprintf(stderr, "ulfm-mpirun: %s was linked by a plain compiler, and has %s%s: build it by ulfm-mpicc (CMake: -DCMAKE_C_COMPILER=ulfm-mpicc)\n",
            um_options.program, what, name);
    return false;
}

/* Makes a program in memory one that can be loaded; false, and says why, where it can't be. */
bool um_mend_program(char *bytes, size_t size) {
    struct image image = {.at = bytes, .size = size};
    Elf64_Dyn *flags = read_head(&image) ? entry_of(&image, DT_FLAGS_1) : 0;
    if (!flags || !(flags->d_un.d_val & DF_1_PIE)) return true;
    if (!needs(&image, "libulfm_mpi.so")) {
        fprintf(stderr, "ulfm-mpirun: %s wasn't linked by ulfm-mpicc\n", um_options.program);
        return false;
    }
    if (part_of(&image, PT_TLS)) return refuse("variables of a thread", "");
    const char *name = mend_copies(&image);
    if (name) return refuse("a copy of a library's variable ", name);
    flags->d_un.d_val &= ~(uint64_t)DF_1_PIE;
    begin_streams(&image);
    return true;
}
