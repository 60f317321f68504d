/* Two connectors cross; one gets its start at another box, and then runs beside the other. Lines of other origin are judged, and
 * what is asked of a box or a connector that is not there is refused. Lengths are in thousandths.
 *     cc move_an_end.c $(pkg-config --cflags --libs reroute) -Wl,-rpath,$(pkg-config --variable=libdir reroute) -o move_an_end
 */
#include "reroute.h"
#include <stdio.h>

enum { PATHS = 10 };

/* Ends the program if a call was refused. */
static void done(reroute_fault fault) {
    if (fault.code == REROUTE_OK) return;
    fprintf(stderr, "refused: %s %lld\n", reroute_fault_name(fault.code), (long long)fault.value);
    exit(1);
}

static void show_refusal(reroute_fault fault) { printf("  %s %lld\n", reroute_fault_name(fault.code), (long long)fault.value); }

/* Prints the paths that routes share, and how often lines cross. */
static void show_scene(reroute_session *session, const char *title) {
    static const char *const ends[] = { "tie", "left", "right" }, *const sides[] = { "none", "left", "right" };
    reroute_shared_info paths[PATHS];
    size_t count = 0;
    uint64_t crossings = 0;
    printf("%s:\n", title);
    done(reroute_shared(session, paths, PATHS, &count));
    for (size_t place = 0; place < count && place < PATHS; place++) {
        reroute_shared_info it = paths[place];
        printf("  shared %u %u runs %u-%u: back %s, ahead %s, side %s\n", (unsigned)it.a, (unsigned)it.b, (unsigned)it.first,
               (unsigned)it.last, ends[it.back], ends[it.ahead], sides[it.side]);
    }
    done(reroute_crossings(session, &crossings));
    printf("  crossings %llu\n", (unsigned long long)crossings);
}

/* Prints the verdict on a line. */
static void judge(reroute_session *session, uint32_t connector, const reroute_point *corners, size_t count) {
    static const char *const breaches[] = { "cost", "Slanted", "StartOff", "EndOff", "Hits", "MissesVia" };
    reroute_verdict verdict;
    done(reroute_check(session, connector, corners, count, &verdict));
    for (size_t at = 0; at < count; at++)
        printf("%s(%g, %g)", at ? " " : "  ", (double)corners[at].x / 1000, (double)corners[at].y / 1000);
    printf(": %s", breaches[verdict.breach]);
    if (verdict.breach == REROUTE_LEGAL) printf(" %g", (double)verdict.cost / 1000);
    if (verdict.place) printf(" %u", (unsigned)verdict.place);
    if (verdict.breach == REROUTE_HITS) printf(" node %lld", (long long)verdict.box);
    puts("");
}

/* Four boxes round the middle, with a connector from left to right and one from top to bottom. */
static uint32_t draw(reroute_session *session) {
    uint32_t connector;
    done(reroute_begin(session));
    done(reroute_add_box(session, 1, 0, 0, 20000, 20000));
    done(reroute_add_box(session, 2, 200000, 0, 20000, 20000));
    done(reroute_add_box(session, 3, 100000, -100000, 20000, 20000));
    done(reroute_add_box(session, 4, 100000, 100000, 20000, 20000));
    done(reroute_connect(session, 1, 0, 2, 0, &connector));
    done(reroute_connect(session, 3, 0, 4, 0, &connector));
    done(reroute_commit(session));
    return connector;
}

int main(void) {
    static const reroute_point below[] = { { 0, 0 }, { 0, 100000 }, { 100000, 100000 } };
    static const reroute_point above[] = { { 0, 0 }, { 0, -100000 }, { 100000, -100000 }, { 100000, 100000 } };
    reroute_session session;
    reroute_verdict verdict;
    uint32_t old, connector;
    done(reroute_start(&session));
    old = draw(&session);
    show_scene(&session, "Connector 2 from box 3 to box 4");
    done(reroute_begin(&session));
    done(reroute_reconnect(&session, old, false, 1, 0, &connector));
    done(reroute_commit(&session));
    show_scene(&session, "Connector 3 from box 1 to box 4");
    puts("Lines for connector 3:");
    judge(&session, connector, below, 3);
    judge(&session, connector, above, 4);
    puts("Refused:");
    done(reroute_begin(&session));
    show_refusal(reroute_reconnect(&session, connector, true, 9, 0, &connector));
    show_refusal(reroute_check(&session, old, below, 3, &verdict));
    reroute_end(&session);
    return 0;
}
