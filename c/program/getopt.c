/* Linked into each program: `getopt` and `getopt_long` (POSIX, and as glibc has them), with state of the rank's own. A program's own functions of these
   names win. */
#define _GNU_SOURCE
#include <getopt.h>
#include <stdio.h>
#include <stdlib.h>
#include <string.h>

#define OWN __attribute__((weak, visibility("hidden")))

int __posix_getopt(int count, char *const words[], const char *letters);

OWN int optind = 1, opterr = 1, optopt;
OWN char *optarg;
static char *rest; /* of a word with several letters */

static int refuse(char **words, const char *letters, const char *what, const char *name, int answer) {
    if (opterr && *letters != ':') fprintf(stderr, "%s: %s '%s'\n", words[0], what, name);
    return answer == ':' && *letters != ':' ? '?' : answer;
}

/* Takes one letter of a word. */
static int take_letter(int count, char **words, const char *letters) {
    char name[2] = {*rest++, 0};
    const char *found = name[0] == ':' ? 0 : strchr(letters, name[0]);
    optopt = name[0];
    char *value = *rest ? rest : 0;
    if (!*rest) optind++;
    if (!found) {
        rest = value;
        return refuse(words, letters, "invalid option --", name, '?');
    }
    if (found[1] != ':') {
        rest = value;
        return name[0];
    }
    rest = 0;
    optarg = value;
    if (value) optind++;
    if (value || found[2] == ':') return name[0];
    if (optind >= count) return refuse(words, letters, "option requires an argument --", name, ':');
    optarg = words[optind++];
    return name[0];
}

/* The long option that a word names, by its beginning where only one has it; -1: none or several. */
static int find_long(const struct option *longs, const char *name, size_t length) {
    int found = -1, several = 0;
    for (int k = 0; longs[k].name; k++) {
        if (strncmp(longs[k].name, name, length)) continue;
        if (!longs[k].name[length]) return k;
        several = several || found >= 0;
        found = k;
    }
    return several ? -1 : found;
}

static int take_long(int count, char **words, const char *letters, const struct option *longs, int *which) {
    char *name = words[optind++] + 2;
    size_t length = strcspn(name, "=");
    int found = find_long(longs, name, length);
    if (found < 0) return refuse(words, letters, "unrecognized option", name - 2, '?');
    const struct option *option = &longs[found];
    optarg = name[length] ? name + length + 1 : 0;
    optopt = option->flag ? 0 : option->val;
    if (optarg && option->has_arg == no_argument) return optarg = 0, refuse(words, letters, "option doesn't allow an argument", name - 2, '?');
    if (!optarg && option->has_arg == required_argument) {
        if (optind >= count) return refuse(words, letters, "option requires an argument", name - 2, ':');
        optarg = words[optind++];
    }
    if (which) *which = found;
    if (!option->flag) return option->val;
    *option->flag = option->val;
    return 0;
}

static int take_option(int count, char **words, const char *letters, const struct option *longs, int *which) {
    optarg = 0;
    if (rest) return take_letter(count, words, letters);
    if (!strcmp(words[optind], "--")) {
        optind++;
        return -1;
    }
    if (longs && words[optind][1] == '-') return take_long(count, words, letters, longs, which);
    rest = words[optind] + 1;
    return take_letter(count, words, letters);
}

static int is_option(const char *word) { return word[0] == '-' && word[1]; }

/* Moves the words `from` to `to` - 1 behind those that were taken. */
static void move_behind(char **words, int from, int to) {
    for (int moved = 0, all = to - from; moved < all; moved++) {
        char *word = words[from];
        int k = from;
        for (; k < optind - 1; k++) words[k] = words[k + 1];
        words[k] = word;
    }
    optind -= to - from;
}

OWN int getopt_long(int count, char *const fixed[], const char *letters, const struct option *longs, int *which) {
    char **words = (char **)fixed;
    static int from, to; /* the words before the option that is taken: they are moved when all letters of its word are */
    if (optind == 0) optind = 1, rest = 0;
    int stays = *letters == '+' || getenv("POSIXLY_CORRECT") != 0;
    const char *known = letters + (*letters == '+' || *letters == '-');
    if (!rest && *letters == '-' && optind < count && !is_option(words[optind])) {
        optarg = words[optind++];
        return 1;
    }
    if (!rest) {
        from = optind;
        while (!stays && optind < count && !is_option(words[optind])) optind++;
        to = optind;
        if (optind >= count || !is_option(words[optind])) {
            optind = from;
            return -1;
        }
    }
    int answer = take_option(count, words, known, longs, which);
    if (to > from && !rest) move_behind(words, from, to);
    return answer;
}

OWN int getopt(int count, char *const words[], const char *letters) { return getopt_long(count, words, letters, 0, 0); }

/* `getopt` of a program that is compiled without the extensions of GNU: it ends at the first word that is no option. */
OWN int __posix_getopt(int count, char *const words[], const char *letters) {
    char all[300] = "+";
    strncat(all, letters, sizeof all - 2);
    return getopt_long(count, words, *letters == '+' ? letters : all, 0, 0);
}
