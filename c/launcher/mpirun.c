/* ulfm-mpirun. What it does stands in the library, which programs link too: launch.c, and options.c for its command line. */
int ulfm_mpirun(int count, char **words);

/* The engine isn't compiled with ThreadSanitizer, which so sees nothing of the order that it makes. */
const char *__tsan_default_suppressions(void);
const char *__tsan_default_suppressions(void) { return "race:ulfm_c_\nrace:ulfm_board::\nrace:body.c\nrace:parcel.c\n"; }

int main(int count, char **words) { return ulfm_mpirun(count, words); }
