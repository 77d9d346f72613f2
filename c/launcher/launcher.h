/* The launcher: its command line, programs loaded once for each rank, runs by threads, and the tables of --every-stop and --every-schedule. A program that
   is started by itself is the launcher of one rank. */
#ifndef UM_LAUNCHER_H
#define UM_LAUNCHER_H

#include "launcher/options.h"
#include "progress/progress.h"

/* alone.c */
bool um_begin_alone(void);

/* launch.c */
void um_prepare_rank(struct rank *rank, int number);
uint32_t um_make_ranks(void);
void um_live(void);
void um_tell_late(enum moment moment) __attribute__((noreturn));
int um_close_run(void);
int ulfm_mpirun(int count, char **words);

/* options.c: the command line */
int um_read_words(int count, char **words);
char *um_quoted(const char *word);

/* load.c, runtime.c, image.c */
bool um_copy_programs(void);
char *um_read_file(const char *path, size_t *size);
bool um_write_copy(const char *path, const char *bytes, size_t size);
void um_read_runtime(char *program, size_t size);
bool um_copy_runtime(int rank, const char *folder);
void um_free_runtime(void);
bool um_mend_program(char *bytes, size_t size);
char *um_library_named_in(char *bytes, size_t size, const char *beginning);
void um_remove_copies(void);
void um_leave_copies(void);
int um_run_program(struct rank *rank);

/* every.c */
int um_every_stop(const char *launcher);
int um_every_schedule(const char *launcher);

/* branches.c */
bool um_begin_branches(void);
bool um_is_branch(void);
bool um_note_past(const char *line, size_t length);
void um_end_branches(void);

#endif
