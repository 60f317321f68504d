/* Two boxes with a connector; a third box is moved between them, and the move is undone. Lengths are in thousandths.
 *     cc move_a_box.c $(pkg-config --cflags --libs reroute) -Wl,-rpath,$(pkg-config --variable=libdir reroute) -o move_a_box
 */
#include "reroute.h"
#include <stdio.h>

/* Ends the program if a call was refused. */
static void done(reroute_fault fault) {
    if (fault.code == REROUTE_OK) return;
    fprintf(stderr, "refused: X%u %lld\n", (unsigned)fault.code, (long long)fault.value);
    exit(1);
}

static void print_line(reroute_session *session, size_t place) {
    reroute_line_info line = reroute_line(session, place);
    reroute_point corner;
    printf("  connector %u:", (unsigned)line.connector);
    for (size_t at = 0; reroute_corner(session, place, at, &corner); at++)
        printf(" (%lld, %lld)", (long long)corner.x, (long long)corner.y);
    puts("");
}

static void print_lines(reroute_session *session, const char *title) {
    size_t count = 0;
    printf("%s:\n", title);
    done(reroute_lines(session, &count));
    for (size_t place = 0; place < count; place++) print_line(session, place);
}

static void draw(reroute_session *session) {
    uint32_t connector;
    done(reroute_begin(session));
    done(reroute_add_box(session, 1, 0, 0, 20000, 20000));
    done(reroute_add_box(session, 2, 100000, 0, 20000, 20000));
    done(reroute_add_box(session, 3, 50000, 80000, 20000, 40000));
    done(reroute_connect(session, 1, 0, 2, 0, &connector));
    done(reroute_commit(session));
}

static void move_box(reroute_session *session, int64_t id, int64_t x, int64_t y) {
    done(reroute_begin(session));
    done(reroute_move_box(session, id, x, y));
    done(reroute_commit(session));
}

int main(void) {
    reroute_session session;
    done(reroute_start(&session));
    draw(&session);
    print_lines(&session, "Box 3 out of the way");
    move_box(&session, 3, 50000, 0);
    print_lines(&session, "Box 3 between the others");
    done(reroute_undo(&session));
    print_lines(&session, "Box 3 back");
    reroute_end(&session);
    return 0;
}
