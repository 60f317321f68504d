// Two boxes with a connector; a third box is moved between them, and the move is undone.
//     c++ -std=c++11 move_a_box.cpp $(pkg-config --cflags --libs reroute) -Wl,-rpath,$(pkg-config --variable=libdir reroute) -o move_a_box
#include "reroute.hpp"
#include <cstdio>

// Prints the lines that changed, in thousandths.
static void print_changed(reroute::Session &session, const char *title) {
    std::printf("%s:\n", title);
    for (const auto &line : session.changes()) {
        std::printf("  connector %u:", static_cast<unsigned>(line.first));
        for (const auto &corner : line.second) std::printf(" (%.0f, %.0f)", corner.x * 1000, corner.y * 1000);
        std::printf("\n");
    }
}

int main() {
    reroute::Session session;
    session.transaction([](reroute::Session &s) {
        s.addBox(1, 0, 0, 20, 20);
        s.addBox(2, 100, 0, 20, 20);
        s.addBox(3, 50, 80, 20, 40);
        s.connect(1, 2);
    });
    print_changed(session, "Box 3 out of the way");
    session.transaction([](reroute::Session &s) { s.move(3, 50, 0); });
    print_changed(session, "Box 3 between the others");
    session.undo();
    print_changed(session, "Box 3 back");
    return 0;
}
