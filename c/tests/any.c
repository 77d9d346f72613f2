/* A program without MPI: by ulfm-mpicc it does as by the compiler, whatever way it ends. */
#include <pthread.h>
#include <signal.h>
#include <stdio.h>
#include <stdlib.h>
#include <string.h>
#include <unistd.h>

static void __attribute__((constructor)) begin(void) { fprintf(stderr, "begins\n"); }
static void __attribute__((destructor)) end(void) { fprintf(stderr, "ends\n"); }
static void leave(void) { fprintf(stderr, "leaves\n"); }

int main(int count, char **words) {
    const char *how = count > 1 ? words[1] : "return";
    int byte;
    atexit(leave);
    printf("%d words, %s\n", count, how);
    while ((byte = getchar()) != EOF) putchar(byte);
    if (!strcmp(how, "exit")) exit(6);
    if (!strcmp(how, "_exit")) _exit(5);
    if (!strcmp(how, "abort")) abort();
    if (!strcmp(how, "raise")) raise(SIGTERM);
    if (!strcmp(how, "kill")) kill(getpid(), SIGKILL);
    if (!strcmp(how, "crash")) *(volatile int *)0 = 1;
    if (!strcmp(how, "thread")) pthread_exit(0);
    return 7;
}
