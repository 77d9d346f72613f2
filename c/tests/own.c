/* What each rank has of its own: random numbers, options, strtok. All ranks write the same lines, at the same time. */
#include "check.h"
#include <getopt.h>

int __posix_getopt(int count, char *const words[], const char *letters); /* what programs call that are compiled by -std=c99 */

static const struct option longs[] = {{"size", required_argument, 0, 's'}, {"verbose", no_argument, 0, 'v'}, {0, 0, 0, 0}};

/* A word with several letters behind one that is no option: the value is the word behind it. */
static void letters(void) {
    char *words[] = {"program", "in", "-ab", "5", "out", 0};
    optind = 0;
    CHECK(getopt(5, words, "ab:") == 'a' && getopt(5, words, "ab:") == 'b' && optarg && !strcmp(optarg, "5"));
    CHECK(getopt(5, words, "ab:") == -1 && optind == 3 && !strcmp(words[3], "in") && !strcmp(words[4], "out"));
    optind = 0;
    CHECK(getopt(5, words, "-ab:") == 'a' && getopt(5, words, "-ab:") == 'b' && getopt(5, words, "-ab:") == 1 && !strcmp(optarg, "in"));
    char *plain[] = {"program", "-a", "in", "-b", 0};
    optind = 0;
    CHECK(__posix_getopt(4, plain, "ab") == 'a' && __posix_getopt(4, plain, "ab") == -1 && optind == 2 && !strcmp(plain[2], "in"));
}

int main(int argc, char **argv) {
    char line[400] = "", words[] = "one two three";
    int letter, last = 0, used = 0;
    MPI_Init(&argc, &argv);
    while ((letter = getopt_long(argc, argv, "s:vab", longs, 0)) != -1)
        used += snprintf(line + used, sizeof line - (size_t)used, "%c(%s) ", letter, optarg ? optarg : "");
    for (int k = optind; k < argc; k++) used += snprintf(line + used, sizeof line - (size_t)used, "[%s] ", argv[k]);
    letters();
    for (char *word = strtok(words, " "); word; word = strtok(0, " ")) used += snprintf(line + used, sizeof line - (size_t)used, "%zu ", strlen(word));
    srand(42);
    srand48(7);
    for (int k = 0; k < 1000; k++) last = rand();
    printf("%s%d %.6f\n", line, last, drand48());
    for (int k = 0; k < argc; k++) argv[k] = k ? argv[k] + 1 : 0;   /* the words are main's */
    MPI_Finalize();
    return faults != 0;
}
