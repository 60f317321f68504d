/* A drag, on the screen's own copy of the lines, which it keeps by what is told alone: 50 previews, cancelled; the same again,
 * released; one released over another box, which leaves connectors without a line; and both undone. Lengths are in thousandths.
 *     cc drag_a_box.c $(pkg-config --cflags --libs reroute) -Wl,-rpath,$(pkg-config --variable=libdir reroute) -o drag_a_box
 *     ./drag_a_box drag_a_box.gml
 */
#include "reroute.h"
#include <stdio.h>
#include <string.h>

enum { BOX = 25, STEPS = 50, CONNECTORS = 40, CORNERS = 32 };

/* A line as it is drawn; a connector without a line has no corners. */
typedef struct line { size_t count; reroute_point corners[CORNERS]; } line;

/* The line of each connector, by its number from 1. */
typedef struct screen { line lines[CONNECTORS + 1]; } screen;

/* Ends the program if a call was refused. */
static void done(reroute_fault fault) {
    if (fault.code == REROUTE_OK) return;
    fprintf(stderr, "refused: %s %lld\n", reroute_fault_name(fault.code), (long long)fault.value);
    exit(1);
}

/* The screen with what a call says changed, and without the lines that are gone: by reroute_lines those of the scene, which are
 * reported then, or by reroute_preview those of the open transaction, which are not. */
static screen redrawn(const screen *shown, reroute_session *session, reroute_fault (*call)(reroute_session *, size_t *)) {
    screen now = *shown;
    size_t count = 0;
    done(call(session, &count));
    for (size_t place = 0; place < count; place++) {
        reroute_line_info info = reroute_line(session, place);
        line *drawn = &now.lines[info.connector];
        if (info.changed) drawn->count = reroute_corners(session, place, drawn->corners, CORNERS);
    }
    for (size_t place = 0; place < reroute_gone_count(session); place++) now.lines[reroute_gone(session, place)].count = 0;
    return now;
}

static bool is_same(const line *a, const line *b) {
    return a->count == b->count && memcmp(a->corners, b->corners, a->count * sizeof *a->corners) == 0;
}

/* Prints the lines that are others than before. */
static void show(const char *title, const screen *before, const screen *now) {
    printf("%s:\n", title);
    for (int number = 1; number <= CONNECTORS; number++) {
        const line *drawn = &now->lines[number];
        if (is_same(&before->lines[number], drawn)) continue;
        printf("  connector %d:%s", number, drawn->count ? "" : " no line");
        for (size_t at = 0; at < drawn->count; at++)
            printf(" (%g, %g)", (double)drawn->corners[at].x / 1000, (double)drawn->corners[at].y / 1000);
        puts("");
    }
}

/* Previews the box at 50 places of its column, and shows what the last one changes. */
static void drag(reroute_session *session, const screen *shown, int64_t from, int64_t to) {
    screen now = *shown;
    int told = 0, gone = 0;
    char title[100];
    for (int step = 1; step <= STEPS; step++) {
        done(reroute_begin(session));
        done(reroute_move_box(session, BOX, 300000, from + (to - from) * step / STEPS));
        now = redrawn(shown, session, reroute_preview);
        done(reroute_abort(session));
        for (int number = 1; number <= CONNECTORS; number++) {
            told += !is_same(&shown->lines[number], &now.lines[number]);
            gone += shown->lines[number].count && !now.lines[number].count;
        }
    }
    snprintf(title, sizeof title, "Held, after %d previews that told %d changes, %d of them that a line is gone", STEPS, told, gone);
    show(title, shown, &now);
}

static void release(reroute_session *session, int64_t to) {
    done(reroute_begin(session));
    done(reroute_move_box(session, BOX, 300000, to));
    done(reroute_commit(session));
}

/* Ends the program if the screen has other lines than the session. */
static void check(reroute_session *session, const screen *shown) {
    size_t count = 0, there = 0;
    done(reroute_lines(session, &count));
    for (int number = 1; number <= CONNECTORS; number++) there += shown->lines[number].count > 0;
    for (size_t place = 0; place < count; place++) {
        line all = { reroute_line(session, place).corners, { { 0, 0 } } };
        reroute_corners(session, place, all.corners, CORNERS);
        if (!is_same(&all, &shown->lines[reroute_line(session, place).connector])) there = count + 1;
    }
    if (there == count) return;
    fputs("the screen has other lines than the session\n", stderr);
    exit(1);
}

static void redraw(reroute_session *session, screen *shown, const char *title) {
    screen now = redrawn(shown, session, reroute_lines);
    show(title, shown, &now);
    *shown = now;
    check(session, shown);
}

int main(int count, char **words) {
    static uint8_t text[65536];
    FILE *file = count > 1 ? fopen(words[1], "rb") : NULL;
    reroute_session session;
    screen shown = { 0 };
    done(reroute_start_gml(&session, text, file ? fread(text, 1, sizeof text, file) : 0));
    redraw(&session, &shown, "Before");
    drag(&session, &shown, 320000, 120000);
    redraw(&session, &shown, "Cancelled");
    drag(&session, &shown, 320000, 120000);
    release(&session, 120000);
    redraw(&session, &shown, "Released between others");
    drag(&session, &shown, 120000, 80000);
    release(&session, 80000);
    redraw(&session, &shown, "Released over another");
    done(reroute_undo(&session));
    done(reroute_undo(&session));
    redraw(&session, &shown, "Undone twice");
    reroute_end(&session);
    if (file) fclose(file);
    return 0;
}
