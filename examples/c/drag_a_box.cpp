// A drag, on the screen's own copy of the lines, which it keeps by what is told alone: 50 previews, cancelled; the same again,
// released; one released over another box, which leaves connectors without a line; and both undone.
//     c++ -std=c++11 drag_a_box.cpp $(pkg-config --cflags --libs reroute) -Wl,-rpath,$(pkg-config --variable=libdir reroute) -o drag_a_box
//     ./drag_a_box drag_a_box.gml
#include "reroute.hpp"
#include <cstdio>
#include <fstream>
#include <iterator>

static const int box = 25, steps = 50;

static void show(const std::string &title, const reroute::Lines &changes) {
    std::printf("%s:\n", title.c_str());
    for (const auto &line : changes) {
        std::printf("  connector %u:%s", static_cast<unsigned>(line.first), line.second.empty() ? " no line" : "");
        for (const auto &corner : line.second) std::printf(" (%g, %g)", corner.x, corner.y);
        std::printf("\n");
    }
}

// Previews the box at 50 places on its way, and shows what the last one changes.
static void drag(reroute::Session &session, reroute::Point from, reroute::Point to) {
    reroute::Lines changes;
    std::size_t told = 0, gone = 0;
    for (int step = 1; step <= steps; step++) {
        const double part = static_cast<double>(step) / steps;
        changes = session.trial([&](reroute::Session &s) {
            s.move(box, from.x + (to.x - from.x) * part, from.y + (to.y - from.y) * part);
            return s.previewChanges();
        });
        told += changes.size();
        for (const auto &line : changes) gone += line.second.empty();
    }
    show("Held, after " + std::to_string(steps) + " previews that told " + std::to_string(told) + " changes, " +
         std::to_string(gone) + " of them that a line is gone", changes);
}

static void release(reroute::Session &session, reroute::Point to) {
    session.transaction([&](reroute::Session &s) { s.move(box, to.x, to.y); });
}

// Draws what changed, and wipes out the lines that are gone.
static void redraw(reroute::Session &session, reroute::Lines &screen, const char *title) {
    const reroute::Lines changes = session.changes();
    show(title, changes);
    for (const auto &line : changes) {
        if (line.second.empty()) screen.erase(line.first);
        else screen[line.first] = line.second;
    }
    if (screen != session.lines()) throw std::logic_error("the screen has other lines than the session");
}

int main(int, char **words) {
    std::ifstream file(words[1]);
    const std::string gml{std::istreambuf_iterator<char>(file), {}};
    reroute::Session session(gml);
    const reroute::Point rest = {300, 320}, between = {300, 120}, over = {300, 80};
    reroute::Lines screen;
    redraw(session, screen, "Before");
    drag(session, rest, between);
    redraw(session, screen, "Cancelled");
    drag(session, rest, between);
    release(session, between);
    redraw(session, screen, "Released between others");
    drag(session, between, over);
    release(session, over);
    redraw(session, screen, "Released over another");
    session.undo();
    session.undo();
    redraw(session, screen, "Undone twice");
    return 0;
}
