// Routes a diagram with the library for C, and prints what it took: driver IN SECONDS
//
// IN is as libavoid/driver.cc reads it. No move is begun after SECONDS of processor time. As libavoid draws the lines when
// it processes a transaction, a time here is that of the commit, of nudging, and of reading each line that changed.
#include "reroute.h"
#include <cmath>
#include <cstdint>
#include <cstdio>
#include <cstdlib>
#include <cstring>
#include <time.h>
#include <vector>

static double processor() {
    timespec t;
    clock_gettime(CLOCK_THREAD_CPUTIME_ID, &t);
    return t.tv_sec + t.tv_nsec * 1e-9;
}

static void done(reroute_fault fault) {
    if (fault.code == REROUTE_OK) return;
    fprintf(stderr, "driver: X%u %lld\n", fault.code, (long long)fault.value);
    exit(1);
}

static int64_t milli(double value) { return std::llround(value * 1000); }

// Reads the corners of each line that changed, as an editor draws them; how many lines that are.
static size_t draw(reroute_session *session, std::vector<reroute_point> &corners) {
    size_t count = 0, changed = 0;
    done(reroute_lines(session, &count));
    for (size_t place = 0; place < count; place++) {
        reroute_line_info line = reroute_line(session, place);
        if (!line.changed) continue;
        changed++;
        corners.resize(line.corners);
        reroute_corners(session, place, corners.data(), corners.size());
    }
    return changed;
}

struct Move { long long id; double x, y; };

static reroute_directions directions(const char *letters) {
    return {strchr(letters, 'E') != nullptr, strchr(letters, 'S') != nullptr, strchr(letters, 'W') != nullptr,
            strchr(letters, 'N') != nullptr};
}

// Makes the edits of the diagram in the open transaction, and keeps its moves.
static bool build(FILE *file, reroute_session *session, std::vector<Move> &moves) {
    char word[16], letters[8];
    uint32_t connector = 0, vias = 0;
    while (fscanf(file, "%15s", word) == 1) {
        long long id, other;
        unsigned from, to;
        double x, y, w, h;
        if (!strcmp(word, "set") && fscanf(file, "%lf %lf %lf", &x, &y, &w) == 3) {
            done(reroute_set_penalty(session, milli(x)));
            done(reroute_set_buffer(session, milli(y)));
            done(reroute_set_nudge(session, milli(w)));
        } else if (!strcmp(word, "node") && fscanf(file, "%lld %lf %lf %lf %lf", &id, &x, &y, &w, &h) == 5) {
            done(reroute_add_box(session, id, milli(x), milli(y), milli(w), milli(h)));
        } else if (!strcmp(word, "pin") && fscanf(file, "%lld %u %lf %lf %7s", &id, &from, &x, &y, letters) == 5) {
            done(reroute_add_pin(session, id, from, milli(x), milli(y), directions(letters)));
        } else if (!strcmp(word, "edge") && fscanf(file, "%lld %lld %u %u", &id, &other, &from, &to) == 4) {
            done(reroute_connect(session, id, from, other, to, &connector));
            vias = 0;
        } else if (!strcmp(word, "via") && fscanf(file, "%lf %lf", &x, &y) == 2) {
            done(reroute_add_checkpoint(session, connector, ++vias, milli(x), milli(y)));
        } else if (!strcmp(word, "move") && fscanf(file, "%lld %lf %lf", &id, &x, &y) == 3) {
            moves.push_back({id, x, y});
        } else {
            return false;
        }
    }
    return true;
}

int main(int count, char **words) {
    FILE *file = count == 3 ? fopen(words[1], "r") : nullptr;
    std::vector<Move> moves;
    std::vector<reroute_point> corners;
    reroute_session session;
    double begin = processor();
    done(reroute_start(&session));
    done(reroute_begin(&session));
    if (!file || !build(file, &session, moves)) {
        fprintf(stderr, "driver: the input is not understood\n");
        return 2;
    }
    done(reroute_commit(&session));
    size_t changed = draw(&session, corners);
    printf("open cpu_us=%.0f lines=%zu\n", (processor() - begin) * 1e6, changed);
    fflush(stdout);
    double moved = processor();
    for (const Move &to : moves) {
        if (processor() - moved >= atof(words[2])) break;
        double start = processor();
        done(reroute_begin(&session));
        done(reroute_move_box(&session, to.id, milli(to.x), milli(to.y)));
        done(reroute_commit(&session));
        changed = draw(&session, corners);
        printf("move node=%lld commit_us=%.0f lines=%zu\n", to.id, (processor() - start) * 1e6, changed);
        fflush(stdout);
    }
    reroute_end(&session);
    return 0;
}
