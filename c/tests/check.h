/* What the checks share: a fact that doesn't hold is told with its line, and counted. */
#ifndef CHECK_H
#define CHECK_H

#include <mpi.h>
#include <stdio.h>
#include <stdlib.h>
#include <string.h>

static int faults __attribute__((unused));

#define CHECK(fact) \
    do { \
        if (!(fact)) { \
            faults++; \
            fprintf(stderr, "%s:%d: not so: %s\n", __FILE__, __LINE__, #fact); \
        } \
    } while (0)

static inline int class_of(int code) {
    int answer = -1;
    MPI_Error_class(code, &answer);
    return answer;
}

#endif
