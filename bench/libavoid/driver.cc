// Routes a diagram with libavoid, the connector router of Adaptagrams, and prints what it took: driver IN OUT SECONDS [N=0|1 ..]
//
// IN has lines `set PENALTY BUFFER NUDGE`, `node ID X Y W H`, `pin ID CLASS X Y DIRECTIONS`, `edge ID ID CLASS CLASS`,
// `via X Y` (a checkpoint of the edge before it) and `move ID X Y`, in units, written by ../diagram.py. The raw and the
// nudged line of each edge, as opened, are written to OUT. No move is begun after SECONDS of processor time. N=0 and
// N=1 set the routing option of that number; 4 is performUnifyingNudgingPreprocessingStep.
//
// The library is the one in Debian's package inkscape, which has no headers: the names and the types of arguments
// below are the library's own, and each object gets more room than the library was seen to use.
#include <cstdio>
#include <cstdlib>
#include <cstring>
#include <dlfcn.h>
#include <map>
#include <string>
#include <time.h>
#include <unistd.h>
#include <vector>

namespace Avoid {
enum RoutingParameter { segmentPenalty = 0, shapeBufferDistance = 6, idealNudgingDistance = 7, lastRoutingParameter = 8 };
enum RoutingOption { firstRoutingOption = 0, lastRoutingOption = 6 };
const unsigned OrthogonalRouting = 2;
struct Point { Point(double, double); double x, y; unsigned id; unsigned short vn; };
struct Checkpoint { Point point; unsigned arrivals, departures; };
struct Polygon { size_t size() const; const Point &at(size_t) const; };
struct Rectangle { Rectangle(const Point &, const Point &); char room[512]; };
struct ConnRef;
struct ShapeRef;
struct Router {
    Router(unsigned flags);
    void setRoutingParameter(RoutingParameter, double);
    void setRoutingOption(RoutingOption, bool);
    bool processTransaction();
    void moveShape(ShapeRef *, double, double);
    char room[4096];
};
struct ShapeRef { ShapeRef(Router *, Polygon &, unsigned id); char room[1024]; };
struct ShapeConnectionPin {
    ShapeConnectionPin(ShapeRef *, unsigned pinClass, double x, double y, bool proportional, double inside, unsigned directions);
    void setExclusive(bool);
    char room[512];
};
struct ConnEnd { ConnEnd(ShapeRef *, unsigned pinClass); char room[512]; };
struct ConnRef {
    ConnRef(Router *, const ConnEnd &, const ConnEnd &, unsigned id);
    void setRoutingCheckpoints(const std::vector<Checkpoint> &);
    Polygon &displayRoute();
    const Polygon &route() const;
    char room[1024];
};
}
using namespace Avoid;

static_assert(sizeof(Point) == 24 && sizeof(Checkpoint) == 32, "as in the library");
const unsigned CENTRE = 65536, ALL = 15;

// (the library has one thread; the clock of the process counts whole ticks while a limit of its time is set)
static double processor() {
    timespec t;
    clock_gettime(CLOCK_THREAD_CPUTIME_ID, &t);
    return t.tv_sec + t.tv_nsec * 1e-9;
}

// The time of nudging alone: the library calls this function through its table of names, and so finds this one first.
static double nudging = 0;
extern "C" void nudge(Router *) asm("_ZN5Avoid23improveOrthogonalRoutesEPNS_6RouterE");
extern "C" void nudge(Router *router) {
    static auto own = (void (*)(Router *))dlsym(RTLD_NEXT, "_ZN5Avoid23improveOrthogonalRoutesEPNS_6RouterE");
    double begin = processor();
    own(router);
    nudging += processor() - begin;
}

struct Node { int id; double x, y, w, h; };
struct Pin { int id; unsigned pinClass; double x, y; unsigned directions; };
struct Edge { int from, to; unsigned fromClass, toClass; std::vector<Checkpoint> via; };
struct Input { double penalty, buffer, nudge; std::vector<Node> nodes; std::vector<Pin> pins; std::vector<Edge> edges; std::vector<Node> moves; };

static bool read(const char *name, Input &in) {
    FILE *file = fopen(name, "r");
    char word[16], letters[8];
    while (file && fscanf(file, "%15s", word) == 1) {
        Node n{};
        Pin p{};
        Edge e{};
        if (!strcmp(word, "set")) {
            if (fscanf(file, "%lf %lf %lf", &in.penalty, &in.buffer, &in.nudge) != 3) return false;
        } else if (!strcmp(word, "node")) {
            if (fscanf(file, "%d %lf %lf %lf %lf", &n.id, &n.x, &n.y, &n.w, &n.h) != 5) return false;
            in.nodes.push_back(n);
        } else if (!strcmp(word, "pin")) {
            if (fscanf(file, "%d %u %lf %lf %7s", &p.id, &p.pinClass, &p.x, &p.y, letters) != 5) return false;
            // (the library's Up is towards smaller y, as our North)
            for (char *c = letters; *c; c++) p.directions |= *c == 'N' ? 1 : *c == 'S' ? 2 : *c == 'W' ? 4 : 8;
            in.pins.push_back(p);
        } else if (!strcmp(word, "edge")) {
            if (fscanf(file, "%d %d %u %u", &e.from, &e.to, &e.fromClass, &e.toClass) != 4) return false;
            in.edges.push_back(e);
        } else if (!strcmp(word, "via")) {
            double x, y;
            if (fscanf(file, "%lf %lf", &x, &y) != 2 || in.edges.empty()) return false;
            in.edges.back().via.push_back({Point(x, y), ALL, ALL});
        } else if (!strcmp(word, "move")) {
            if (fscanf(file, "%d %lf %lf", &n.id, &n.x, &n.y) != 3) return false;
            in.moves.push_back(n);
        } else {
            return false;
        }
    }
    return file && !fclose(file);
}

struct World { Router *router; std::map<int, ShapeRef *> shapes; std::map<int, Node> places; std::vector<ConnRef *> lines; };

static void add_node(World &world, const Node &n) {
    auto box = new Rectangle(Point(n.x - n.w / 2, n.y - n.h / 2), Point(n.x + n.w / 2, n.y + n.h / 2));
    auto shape = new ShapeRef(world.router, *(Polygon *)box, world.shapes.size() + 1);
    (new ShapeConnectionPin(shape, CENTRE, 0.5, 0.5, true, 0, ALL))->setExclusive(false);
    world.shapes[n.id] = shape;
    world.places[n.id] = n;
}

static World opened(const Input &in, const std::map<int, bool> &options) {
    World world;
    world.router = new Router(OrthogonalRouting);
    world.router->setRoutingParameter(segmentPenalty, in.penalty);
    world.router->setRoutingParameter(shapeBufferDistance, in.buffer);
    world.router->setRoutingParameter(idealNudgingDistance, in.nudge);
    for (auto &option : options) world.router->setRoutingOption((RoutingOption)option.first, option.second);
    for (auto &n : in.nodes) add_node(world, n);
    for (auto &p : in.pins) {
        Node &n = world.places[p.id];
        // (the library counts a pin's place from the upper left corner)
        auto pin = new ShapeConnectionPin(world.shapes[p.id], p.pinClass, p.x + n.w / 2, p.y + n.h / 2, false, 0, p.directions);
        pin->setExclusive(false);
    }
    unsigned id = in.nodes.size();
    for (auto &e : in.edges) {
        auto from = new ConnEnd(world.shapes[e.from], e.fromClass ? e.fromClass : CENTRE);
        auto to = new ConnEnd(world.shapes[e.to], e.toClass ? e.toClass : CENTRE);
        auto line = new ConnRef(world.router, *from, *to, ++id);
        if (!e.via.empty()) line->setRoutingCheckpoints(e.via);
        world.lines.push_back(line);
    }
    world.router->processTransaction();
    return world;
}

static void write_line(FILE *file, const char *kind, const Polygon &line) {
    fputs(kind, file);
    for (size_t j = 0; j < line.size(); j++) fprintf(file, " %.9g %.9g", line.at(j).x, line.at(j).y);
    fputs("\n", file);
}

int main(int count, char **words) {
    Input in;
    if (count < 4 || !read(words[1], in)) {
        fprintf(stderr, "driver: the input is not understood\n");
        return 2;
    }
    std::map<int, bool> options;
    for (int i = 4; i < count; i++) options[atoi(words[i])] = strchr(words[i], '=') && strchr(words[i], '=')[1] == '1';
    double begin = processor();
    World world = opened(in, options);
    printf("open cpu_us=%.0f nudge_us=%.0f\n", (processor() - begin) * 1e6, nudging * 1e6);
    fflush(stdout);
    FILE *file = fopen(words[2], "w");
    for (auto line : world.lines) {
        write_line(file, "raw", line->route());
        write_line(file, "drawn", line->displayRoute());
    }
    fclose(file);
    double moved = processor();
    for (auto &to : in.moves) {
        if (processor() - moved >= atof(words[3])) break;
        double start = processor();
        Node &n = world.places[to.id];
        world.router->moveShape(world.shapes[to.id], to.x - n.x, to.y - n.y);
        world.router->processTransaction();
        n.x = to.x, n.y = to.y;
        printf("move node=%d commit_us=%.0f\n", to.id, (processor() - start) * 1e6);
        fflush(stdout);
    }
    // (what the router holds is left standing: freeing it is not measured)
    _exit(0);
}
