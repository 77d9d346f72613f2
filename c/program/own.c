/* Linked into each program: what the C library has once for a process, and a rank needs for itself: random numbers, as glibc gives them, and
   `strtok`. A program's own functions of these names win. */
#define _GNU_SOURCE
#include <stdint.h>
#include <stdlib.h>
#include <string.h>

#define OWN __attribute__((weak, visibility("hidden")))

static struct random_data state;
static char room[128];
static struct drand48_data state48;
static char *rest;

static void begin(void) {
    if (!state.state) initstate_r(1, room, sizeof room, &state);
}

OWN void srandom(unsigned seed) {
    begin();
    srandom_r(seed, &state);
}

OWN long random(void) {
    int32_t result;
    begin();
    random_r(&state, &result);
    return result;
}

OWN void srand(unsigned seed) { srandom(seed); }
OWN int rand(void) { return (int)random(); }

OWN void srand48(long seed) { srand48_r(seed, &state48); }

OWN double drand48(void) {
    double result;
    drand48_r(&state48, &result);
    return result;
}

OWN long lrand48(void) {
    long result;
    lrand48_r(&state48, &result);
    return result;
}

OWN long mrand48(void) {
    long result;
    mrand48_r(&state48, &result);
    return result;
}

OWN char *strtok(char *text, const char *ends) { return strtok_r(text, ends, &rest); }
