// Two connectors cross; one gets its start at another box, and then runs beside the other. Lines of other origin are judged, and
// what is asked of a box or a connector that is not there is refused.
//     c++ -std=c++11 move_an_end.cpp $(pkg-config --cflags --libs reroute) -Wl,-rpath,$(pkg-config --variable=libdir reroute) -o move_an_end
#include "reroute.hpp"
#include <cstdio>

static const char *word(reroute::Hand hand, const char *none) {
    return hand == reroute::Hand::left ? "left" : hand == reroute::Hand::right ? "right" : none;
}

// Prints the paths that routes share, and how often lines cross.
static void show_scene(const reroute::Session &session, const char *title) {
    std::printf("%s:\n", title);
    for (const reroute::SharedPath &path : session.sharedPaths())
        std::printf("  shared %u %u runs %u-%u: back %s, ahead %s, side %s\n", static_cast<unsigned>(path.a),
                    static_cast<unsigned>(path.b), static_cast<unsigned>(path.first), static_cast<unsigned>(path.last),
                    word(path.back, "tie"), word(path.ahead, "tie"), word(path.side, "none"));
    std::printf("  crossings %llu\n", static_cast<unsigned long long>(session.crossings()));
}

// Prints the verdict on a line.
static void judge(const reroute::Session &session, uint32_t connector, const reroute::Corners &corners) {
    static const char *const breaches[] = {"cost", "Slanted", "StartOff", "EndOff", "Hits", "MissesVia"};
    const reroute::Verdict verdict = session.check(connector, corners);
    std::printf(" ");
    for (const reroute::Point &corner : corners) std::printf(" (%g, %g)", corner.x, corner.y);
    std::printf(": %s", breaches[static_cast<int>(verdict.breach)]);
    if (verdict.breach == reroute::Breach::none) std::printf(" %g", verdict.cost);
    if (verdict.place) std::printf(" %u", static_cast<unsigned>(verdict.place));
    if (verdict.breach == reroute::Breach::hits) std::printf(" node %lld", static_cast<long long>(verdict.box));
    std::printf("\n");
}

// Prints why something is refused.
template <typename Doing> static void refused(Doing doing) {
    try {
        doing();
    } catch (const reroute::Refused &why) {
        std::printf("  %s %lld\n", reroute_fault_name(why.fault.code), static_cast<long long>(why.fault.value));
    }
}

int main() {
    reroute::Session session;
    const uint32_t old = session.transaction([](reroute::Session &s) {
        s.addBox(1, 0, 0, 20, 20);
        s.addBox(2, 200, 0, 20, 20);
        s.addBox(3, 100, -100, 20, 20);
        s.addBox(4, 100, 100, 20, 20);
        s.connect(1, 2);
        return s.connect(3, 4);
    });
    show_scene(session, "Connector 2 from box 3 to box 4");
    const uint32_t connector =
        session.transaction([&](reroute::Session &s) { return s.reconnect(old, reroute::End::start, 1); });
    show_scene(session, "Connector 3 from box 1 to box 4");
    const reroute::Corners below = {{0, 0}, {0, 100}, {100, 100}}, above = {{0, 0}, {0, -100}, {100, -100}, {100, 100}};
    std::printf("Lines for connector %u:\n", static_cast<unsigned>(connector));
    judge(session, connector, below);
    judge(session, connector, above);
    std::printf("Refused:\n");
    refused([&] { session.transaction([&](reroute::Session &s) { s.reconnect(connector, reroute::End::end, 9); }); });
    refused([&] { session.check(old, below); });
    return 0;
}
