/* A run that is played: by chance from a seed, or again by a file. */
#define _GNU_SOURCE
#include "launcher/launcher.h"
#include "progress/progress.h"
#include "search/search.h"
#include <setjmp.h>
#include <signal.h>
#include <stdlib.h>
#include <sys/personality.h>
#include <time.h>
#include <unistd.h>

bool um_is_played;
static sigjmp_buf to_end;
static bool is_playing;
static uint64_t chance;
static volatile sig_atomic_t alarms; /* how often the time was over */

/* Numbers by chance, from a seed. */
void um_begin_chance(uint64_t seed) { chance = seed * 0x9E3779B97F4A7C15u + 1; }

int um_choose_by_chance(int count) { /* splitmix64 */
    uint64_t x = chance += 0x9E3779B97F4A7C15u;
    x = (x ^ x >> 30) * 0xBF58476D1CE4E5B9u;
    x = (x ^ x >> 27) * 0x94D049BB133111EBu;
    x ^= x >> 31;
    return (int)(x % (uint64_t)count);
}

/* So that a program which goes by addresses does the same again: the launcher begins anew with addresses that are the same in each process, where the
   system lets it. */
void um_fix_addresses(char **words) {
    int kind = personality(0xffffffff);
    if (kind < 0 || kind & ADDR_NO_RANDOMIZE || um_has_valgrind() || getenv("ULFM_MPIRUN_FIXED")) {
        unsetenv("ULFM_MPIRUN_FIXED");
        return;
    }
    if (personality((unsigned long)kind | ADDR_NO_RANDOMIZE) < 0) return;
    setenv("ULFM_MPIRUN_FIXED", "1", 1);
    execv("/proc/self/exe", words);
    unsetenv("ULFM_MPIRUN_FIXED");
}

static void count_alarm(int number) {
    (void)number;
    if (++alarms > 1 && um_can_report()) um_tell_late(RANK_RUNS); /* a rank doesn't come to its next call */
}

/* From the end of the time on, a signal each second. */
void um_set_alarm(void) {
    timer_t timer;
    int number = SIGRTMAX - 1;
    struct sigevent event = {.sigev_notify = SIGEV_SIGNAL, .sigev_signo = number};
    time_t whole = (time_t)um_options.timeout;
    struct itimerspec at = {.it_value = {whole, (long)(1e9 * (um_options.timeout - (double)whole))}, .it_interval = {1, 0}};
    if (um_options.timeout <= 0 || um_options.branches >= 0) return; /* those that go on from it have their time */
    signal(number, count_alarm);
    if (timer_create(CLOCK_MONOTONIC, &event, &timer) == 0) timer_settime(timer, 0, &at, 0);
}

/* Each rank runs up to its first event. */
bool um_begin_ranks(void) {
    for (int k = 0; k < um_options.ranks; k++) {
        um_prepare_rank(&um_ranks[k], k);
        if (!um_open_output(&um_ranks[k]) || !um_make_context(k)) return false;
        um_resume(k);
    }
    um_settle();
    return true;
}

static bool have_all_ended(void) {
    for (int k = 0; k < um_options.ranks; k++)
        if (um_players[k].state != OVER) return false;
    return true;
}

/* Nothing can happen any more, but that ranks look again at what they looked at: these loop. */
static void tell_end(void) {
    for (int k = 0; k < um_options.ranks; k++) um_ranks[k].played.loops = um_players[k].state == AT_CALL;
    um_tell_stuck();
}

static int choose(const struct event *choices, int count) {
    if (um_is_searching()) return um_choose_by_search(choices, count);
    return um_options.schedule ? um_choose_by_schedule(choices, count) : um_choose_by_chance(count);
}

/* Plays events until nothing can happen. A search wants what comes when all ranks have ended too: it might have come before. It keeps so many events. */
static void play_schedule(void) {
    struct event choices[MOST_CHOICES];
    bool has_room = true;
    for (int k = 0; k < um_options.ranks; k++) um_block_rings(k), um_look_ahead(k);
    for (int count; has_room && (um_footprints || !have_all_ended()) && (count = um_list_choices(choices)) > 0;) {
        int choice = choose(choices, count);
        if (choice < 0) break;
        um_record(&choices[choice]);
        um_note_drawn(&choices[choice]);
        um_perform(&choices[choice]);
        if (um_is_searching() && !um_note_step()) break;
        has_room = !um_footprints || um_step < MOST_STEPS - 1;
        if (alarms) um_tell_late(TIME_IS_OVER);
    }
    if (um_is_searching() && um_cut_of_search() != NOT_CUT) return;
    for (int k = 0; k < um_options.ranks && has_room; k++)
        if (um_players[k].state == ENDS_ALL) um_resume(k); /* which doesn't return */
    if (!has_room) um_tell_table("long\n");
    else if (!have_all_ended()) tell_end();
}

/* A rank, or the controller, ends a run that is played. */
void um_end_schedule(int status) {
    if (is_playing) siglongjmp(to_end, status + 1);
}

/* The status of a run that ended early; -1: all ranks ended. */
int um_play_once(void) {
    int ended = sigsetjmp(to_end, 1);
    if (!ended) {
        is_playing = true;
        play_schedule();
    }
    is_playing = false;
    return ended - 1;
}

int um_play(void) {
    um_set_alarm();
    if (!um_begin_notes() || !um_begin_contexts() || (um_options.keep && !um_begin_record())) return STATUS_USAGE;
    if (um_options.limit) return um_explore();
    if (um_options.seeds) return um_play_seeds();
    if ((um_options.schedule && !um_open_schedule()) || (um_options.draw && !um_begin_drawing())) return STATUS_USAGE;
    um_begin_chance(um_options.seed);
    if ((um_options.branches >= 0 && !um_begin_branches()) || !um_begin_ranks()) {
        fprintf(stderr, "ulfm-mpirun: no memory for the ranks\n");
        return STATUS_USAGE;
    }
    int status = um_play_once();
    um_end_branches();
    if (um_options.keep && !um_keep_schedule(um_options.keep)) fprintf(stderr, "ulfm-mpirun: %s can't be written\n", um_options.keep);
    if (um_options.draw && !um_draw_schedule(um_options.draw)) fprintf(stderr, "ulfm-mpirun: %s can't be written\n", um_options.draw);
    if (status >= 0) um_end_run(status);
    return um_close_run();
}
