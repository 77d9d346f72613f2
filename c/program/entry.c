/* Linked into each program: its main by a name that the launcher knows. */
int main();
int (*const ulfm_program_entry)() __attribute__((visibility("default"))) = main;
