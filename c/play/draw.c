/* A picture of a schedule, as `ulfm draw` draws jobs: a line down for each rank, its calls with their lines of the program, what was taken and what was lost,
   and at the end what each waits for. */
#include "progress/progress.h"
#include "search/search.h"
#include <stdlib.h>
#include <string.h>

enum { TOP = 64, ROW = 26, LEFT = 52, COLUMN = 310, MOST_LINES = 256 };

/* What a rank was in when its event came. */
static struct drawn {
    const char *call;
    const void *from;
    int calls, row, lost; /* lost: the first of the events that sent what is lost, or NO_STEP */
} * drawn;
static int rows;

/* Lines of the program that were asked for. */
static struct {
    const void *from;
    char text[120];
} lines[MOST_LINES];

static const struct look_of_item {
    const char *marker, *color, *dash;
} looks[] = {{"lost", "#1b1b1b", "1 3"},       {"message", "#1a4f9c", "none"}, {"notice", "#a31621", "2 3"},
             {"revocation", "#8a5000", "8 3"}, {"shrink", "#1f6f3a", "5 2"},   {"agreement", "#5b3a9c", "5 2"}};

static const char marks[] =
    "<defs>\n"
    "<marker id=\"message\" viewBox=\"0 0 10 10\" refX=\"9\" refY=\"5\" markerWidth=\"10\" markerHeight=\"10\" markerUnits=\"userSpaceOnUse\" "
    "orient=\"auto\"><path d=\"M0 0L10 5L0 10z\" fill=\"#1a4f9c\"/></marker>\n"
    "<marker id=\"notice\" viewBox=\"0 0 10 10\" refX=\"8\" refY=\"5\" markerWidth=\"10\" markerHeight=\"10\" markerUnits=\"userSpaceOnUse\" "
    "orient=\"auto\"><path d=\"M1 1L9 9M9 1L1 9\" fill=\"none\" stroke=\"#a31621\" stroke-width=\"2\"/></marker>\n"
    "<marker id=\"revocation\" viewBox=\"0 0 10 10\" refX=\"9\" refY=\"5\" markerWidth=\"11\" markerHeight=\"11\" markerUnits=\"userSpaceOnUse\" "
    "orient=\"auto\"><path d=\"M1 1L9 5L1 9\" fill=\"none\" stroke=\"#8a5000\" stroke-width=\"2\"/></marker>\n"
    "<marker id=\"shrink\" viewBox=\"0 0 12 12\" refX=\"11\" refY=\"6\" markerWidth=\"12\" markerHeight=\"12\" markerUnits=\"userSpaceOnUse\" "
    "orient=\"auto\"><path d=\"M1 1L11 6L1 11z\" fill=\"#fff\" stroke=\"#1f6f3a\" stroke-width=\"1.5\"/></marker>\n"
    "<marker id=\"agreement\" viewBox=\"0 0 12 12\" refX=\"11\" refY=\"6\" markerWidth=\"12\" markerHeight=\"12\" markerUnits=\"userSpaceOnUse\" "
    "orient=\"auto\"><circle cx=\"6\" cy=\"6\" r=\"4.5\" fill=\"#fff\" stroke=\"#5b3a9c\" stroke-width=\"1.5\"/></marker>\n"
    "<marker id=\"lost\" viewBox=\"0 0 12 12\" refX=\"1\" refY=\"6\" markerWidth=\"12\" markerHeight=\"12\" markerUnits=\"userSpaceOnUse\" "
    "orient=\"auto\"><path d=\"M2 1V11M6 2V10M10 4V8\" fill=\"none\" stroke=\"#1b1b1b\" stroke-width=\"1.5\"/></marker>\n"
    "</defs>\n";

bool um_begin_drawing(void) {
    drawn = calloc(MOST_STEPS, sizeof *drawn);
    return drawn && (um_footprints || um_begin_search()); /* which event sent an item is in its footprint */
}

/* The call that a rank is in, in a row. */
static struct drawn present_call(const struct rank *rank, int row) {
    return (struct drawn){rank->call.name ? rank->call.name : "its start", rank->call.from, rank->plan.calls, row, NO_STEP};
}

/* An event comes. */
void um_note_drawn(const struct event *event) {
    const struct rank *rank = &um_ranks[event->rank];
    if (!drawn) return;
    drawn[um_step] = present_call(rank, 0);
    if (event->kind == LOSES) drawn[um_step].lost = um_first_lost(event->peer, event->rank);
}

static int column(int rank) { return LEFT + COLUMN * rank; }
static int height(int row) { return TOP + ROW * row; }

/* The line of an address, which is asked for once. */
static const char *line_at(const void *from) {
    int k = 0;
    while (k < MOST_LINES - 1 && lines[k].from && lines[k].from != from) k++;
    if (lines[k].from == from) return lines[k].text;
    lines[k].from = from;
    return um_line_before(from, lines[k].text, sizeof lines[k].text);
}

static void put_text(FILE *to, int x, int y, const char *color, const char *text) {
    fprintf(to, "<text x=\"%d\" y=\"%d\" fill=\"%s\">", x, y, color);
    for (; *text; text++) {
        if (*text == '&' || *text == '<') fprintf(to, "&#%d;", *text);
        else fputc(*text, to);
    }
    fputs("</text>\n", to);
}

/* A call of a rank, in its row, behind what the rank does there. */
static void put_call(FILE *to, int rank, const struct drawn *in, const char *does, const char *color) {
    char text[256];
    snprintf(text, sizeof text, "%s%s%s (call %d)", does, in->call, line_at(in->from), in->calls);
    put_text(to, column(rank) + 12, height(in->row) + 4, color, text);
}

/* Gives each event its row: calls that begin, what is taken or lost, and stops have rows of their own. */
static void lay_out_rows(void) {
    int last[MAX_RANKS], row_of_call[MAX_RANKS] = {0};
    memset(last, -1, sizeof last);
    for (int k = 0; k < um_step; k++) {
        const struct footprint *e = &um_footprints[k];
        bool is_new = e->kind >= STOPS || drawn[k].calls != last[e->rank];
        if (is_new && e->kind < TAKES) row_of_call[e->rank] = rows, last[e->rank] = drawn[k].calls;
        drawn[k].row = is_new ? rows++ : row_of_call[e->rank];
    }
}

static void put_arrow(FILE *to, const struct look_of_item *look, int x, int y, int to_x, int to_y) {
    fprintf(to, "<path d=\"M%d %dL%d %d\" fill=\"none\" stroke=\"%s\" stroke-width=\"1.5\" stroke-dasharray=\"%s\" marker-end=\"url(#%s)\"/>\n", x, y,
            to_x, to_y, look->color, look->dash, look->marker);
}

static void put_event(FILE *to, int k, int *shown) {
    const struct footprint *e = &um_footprints[k];
    int x = column(e->rank), y = height(drawn[k].row);
    if (e->kind == TAKES && e->pushed >= 0) put_arrow(to, &looks[e->item], column(e->source), height(drawn[e->pushed].row), x, y);
    if (e->kind == LOSES) {
        int sent = drawn[k].lost >= 0 ? drawn[k].lost : k, from = column(e->source);
        put_arrow(to, &looks[0], from, height(drawn[sent].row), from + (x - from) / 2, height(drawn[sent].row) + ROW / 2);
        put_text(to, x + 12, y + 4, "#a31621", "what was sent from there on is lost");
    }
    if (e->kind == STOPS) {
        fprintf(to, "<path d=\"M%d %dl12 12m0 -12l-12 12\" stroke=\"#a31621\" stroke-width=\"3\"/>\n", x - 6, y - 6);
        put_call(to, e->rank, &drawn[k], "stops in ", "#a31621");
    } else if (e->kind < TAKES && shown[e->rank] != drawn[k].calls) {
        fprintf(to, "<circle cx=\"%d\" cy=\"%d\" r=\"4\" fill=\"#1b1b1b\"/>\n", x, y);
        put_call(to, e->rank, &drawn[k], "", "#1b1b1b");
        shown[e->rank] = drawn[k].calls;
    }
}

/* What became of a rank, in the last row. */
static void put_end(FILE *to, int rank) {
    const struct rank *own = &um_ranks[rank];
    char text[64];
    fprintf(to, "<path d=\"M%d %dh16\" stroke=\"#1b1b1b\" stroke-width=\"3\"/>\n", column(rank) - 8, height(rows));
    if (um_players[rank].state == OVER) {
        snprintf(text, sizeof text, own->life.has_stopped ? "stopped" : "ended with %d", own->life.status);
        put_text(to, column(rank) + 12, height(rows) + 4, own->life.status && !own->life.is_planned ? "#a31621" : "#1b1b1b", text);
    } else if (own->life.has_stopped) put_text(to, column(rank) + 12, height(rows) + 4, "#1b1b1b", "stopped");
    else {
        struct drawn last = present_call(own, rows);
        put_call(to, rank, &last, um_players[rank].state == AT_CALL ? "loops over " : "waits in ", "#a31621");
    }
}

/* Draws the schedule that was played. False where the file can't be written. */
bool um_draw_schedule(const char *path) {
    int shown[MAX_RANKS], width = column(um_options.ranks) + 20;
    FILE *to = fopen(path, "w");
    if (!to) return false;
    memset(shown, -1, sizeof shown);
    lay_out_rows();
    fprintf(to,
            "<svg xmlns=\"http://www.w3.org/2000/svg\" width=\"%d\" height=\"%d\" viewBox=\"0 0 %d %d\" font-family=\"ui-monospace, 'DejaVu Sans "
            "Mono', Menlo, Consolas, monospace\" font-size=\"13\">\n",
            width, height(rows + 1), width, height(rows + 1));
    fprintf(to, "%s<rect width=\"%d\" height=\"%d\" rx=\"6\" fill=\"#fff\"/>\n", marks, width, height(rows + 1));
    for (int k = 0; k < um_options.ranks; k++) {
        char name[16];
        snprintf(name, sizeof name, "rank %d", k);
        fprintf(to, "<path d=\"M%d 34V%d\" stroke=\"#777\" stroke-width=\"1.5\"/>\n", column(k), height(rows));
        fprintf(to, "<rect x=\"%d\" y=\"10\" width=\"68\" height=\"24\" rx=\"3\" fill=\"#eef1f5\" stroke=\"#555\"/>\n", column(k) - 34);
        put_text(to, column(k) - 24, 27, "#1b1b1b", name);
    }
    for (int k = 0; k < um_step; k++) put_event(to, k, shown);
    for (int k = 0; k < um_options.ranks; k++) put_end(to, k);
    fputs("</svg>\n", to);
    return fclose(to) == 0;
}
