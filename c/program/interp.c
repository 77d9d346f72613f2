/* Linked into each program that is a shared object: what the system starts it by, where it is started by itself. */
#if defined __x86_64__
const char ulfm_interpreter[] __attribute__((section(".interp"))) = "/lib64/ld-linux-x86-64.so.2";
#elif defined __aarch64__
const char ulfm_interpreter[] __attribute__((section(".interp"))) = "/lib/ld-linux-aarch64.so.1";
#endif
