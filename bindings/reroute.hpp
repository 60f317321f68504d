// reroute.hpp: the library for C as one class of C++11; from C++17 on `cost` answers a std::optional.
// Lengths are doubles in units, kept to thousandths.
#pragma once
#include "reroute.h"
#include <cmath>
#include <cstddef>
#include <cstdint>
#include <map>
#include <new>
#include <stdexcept>
#include <string>
#include <type_traits>
#include <utility>
#include <vector>
#if __cplusplus >= 201703L
#include <optional>
#endif

namespace reroute {

struct Point { double x, y; };
inline bool operator==(const Point &a, const Point &b) { return a.x == b.x && a.y == b.y; }
inline bool operator!=(const Point &a, const Point &b) { return !(a == b); }

// The corners of a line, and those of connectors by their numbers.
using Corners = std::vector<Point>;
using Lines = std::map<uint32_t, Corners>;

// What is read of a scene. A box is told by its centre and its size, and lines may cross one that is a group; a pin by its
// offset from that centre, and the sides to which lines may leave, as letters of ESWN.
struct Pin { uint32_t pinClass; double dx, dy; std::string sides; };
struct Box { int64_t id; double x, y, w, h; bool isGroup; std::vector<Pin> pins; };
struct Connector { uint32_t number; int64_t start, end; uint32_t startClass, endClass; Corners checkpoints; };
struct Settings { double penalty, buffer, nudge; };
enum class Setting { penalty, buffer, nudge };
enum class End { start, end };

// A path that the routes of two connectors share, before nudging: the runs from first to last of a, counted from 1, and those
// from bFirst to bLast of b. back and ahead are its ends, seen along a: the hand on which a parts, or none where both routes
// stop. side is the hand on which a belongs all along, if there is one.
enum class Hand { none = REROUTE_TIE, left = REROUTE_LEFT, right = REROUTE_RIGHT };
struct SharedPath { uint32_t a, b, first, last, bFirst, bLast; Hand back, ahead, side; };

// The verdict on a line: the first rule that it breaks, with the place of the segment or of the checkpoint, from 1, and the box
// that is hit; otherwise what it costs. What does not apply is 0.
enum class Breach {
    none = REROUTE_LEGAL, slanted = REROUTE_SLANTED, startOff = REROUTE_START_OFF, endOff = REROUTE_END_OFF, hits = REROUTE_HITS,
    missesVia = REROUTE_MISSES_VIA
};
struct Verdict { Breach breach; uint32_t place; int64_t box; double cost; };

// A call that was refused. Nothing is changed by it, but that no transaction is open any more, except after a label or a check().
struct Refused : std::runtime_error {
    reroute_fault fault;
    std::size_t line; // of a script, from 1; otherwise 0
    explicit Refused(reroute_fault f, std::size_t l = 0) : std::runtime_error(text(f, l)), fault(f), line(l) {}
    // Whether the refusal names something, which is then fault.value.
    bool hasValue() const { return hasValue(fault.code); }

private:
    static bool hasValue(uint32_t code) {
        switch (code) {
        case REROUTE_SYNTAX: case REROUTE_NO_TRANSACTION: case REROUTE_ALREADY_OPEN: case REROUTE_NOTHING_TO_UNDO:
        case REROUTE_NOTHING_TO_REDO: case REROUTE_NO_SESSION: case REROUTE_NO_GRAPH: case REROUTE_ROUTER_BAD_NUMBER:
        case REROUTE_ROUTER_OUT_OF_RANGE: case REROUTE_TOO_MANY_NODES: case REROUTE_TOO_MANY_EDGES:
        case REROUTE_TOO_MANY_PINS: case REROUTE_TOO_MANY_VIAS:
            return false;
        default:
            return true;
        }
    }
    static std::string text(reroute_fault f, std::size_t l) {
        std::string said = l ? "reroute: line " + std::to_string(l) + ": " : std::string("reroute: ");
        said += reroute_fault_name(f.code);
        return hasValue(f.code) ? said + " " + std::to_string(f.value) : said;
    }
};

// A scene of boxes and connectors, with the lines of the connectors. It can be moved; one that was moved from refuses all
// calls. A length that is not finite, or whose thousandths do not fit 64 bits, is a std::invalid_argument before any call.
class Session {
    mutable reroute_session session_; // (the calls that read take it as the others do)

    static int64_t milli(double value) {
        if (!(std::isfinite(value) && std::fabs(value) <= 9e15)) throw std::invalid_argument("reroute: no length");
        return std::llround(value * 1000);
    }
    static double units(int64_t value) { return static_cast<double>(value) / 1000; }
    static const uint8_t *bytes(const std::string &text) { return reinterpret_cast<const uint8_t *>(text.data()); }
    static void done(reroute_fault fault, std::size_t line = 0) {
        if (fault.code == REROUTE_MEMORY) throw std::bad_alloc();
        if (fault.code != REROUTE_OK) throw Refused(fault, line);
    }
    static reroute_directions directions(const std::string &sides) {
        if (sides.empty() || sides.find_first_not_of("ESWN") != std::string::npos)
            throw std::invalid_argument("reroute: sides are letters of ESWN");
        auto has = [&](char side) { return sides.find(side) != std::string::npos; };
        return {has('E'), has('S'), has('W'), has('N')};
    }
    static std::string letters(reroute_directions to) {
        return std::string(to.east ? "E" : "") + (to.south ? "S" : "") + (to.west ? "W" : "") + (to.north ? "N" : "");
    }
    reroute_session *at() const {
        if (!session_.held) throw Refused({REROUTE_NO_SESSION, 0});
        return &session_;
    }

public:
    Session() { done(reroute_start(&session_)); }
    // Opens a diagram in GML.
    explicit Session(const std::string &gml) { done(reroute_start_gml(&session_, bytes(gml), gml.size())); }
    ~Session() { reroute_end(&session_); }
    Session(const Session &) = delete;
    Session &operator=(const Session &) = delete;
    Session(Session &&other) noexcept : session_(other.session_) { other.session_.held = nullptr; }
    Session &operator=(Session &&other) noexcept {
        std::swap(session_, other.session_);
        return *this;
    }

    void begin() { done(reroute_begin(at())); }
    void commit() { done(reroute_commit(at())); }
    void abort() { done(reroute_abort(at())); }
    void undo() { done(reroute_undo(at())); }
    void redo() { done(reroute_redo(at())); }
    // Makes edits(session) in one transaction, and answers what it returns; an exception drops all of them.
    template <typename Edits> auto transaction(Edits edits) -> decltype(edits(std::declval<Session &>())) {
        begin();
        return Open(*this).made(edits, true);
    }
    // Makes edits(session) in a transaction that is dropped at the end, and answers what it returns. Ask for a preview in it.
    template <typename Edits> auto trial(Edits edits) -> decltype(edits(std::declval<Session &>())) {
        begin();
        return Open(*this).made(edits, false);
    }

    // A box by its centre and its size; its id is yours, and has at most 18 digits.
    void addBox(int64_t id, double x, double y, double w, double h) {
        done(reroute_add_box(at(), id, milli(x), milli(y), milli(w), milli(h)));
    }
    void move(int64_t id, double x, double y) { done(reroute_move_box(at(), id, milli(x), milli(y))); }
    void resize(int64_t id, double w, double h) { done(reroute_size_box(at(), id, milli(w), milli(h))); }
    void drop(int64_t id) { done(reroute_drop_box(at(), id)); }
    // A pin, from the centre of its box, which lines may leave to these sides.
    void addPin(int64_t id, uint32_t pinClass, double dx, double dy, const std::string &sides = "ESWN") {
        done(reroute_add_pin(at(), id, pinClass, milli(dx), milli(dy), directions(sides)));
    }
    void dropPin(int64_t id, uint32_t place) { done(reroute_drop_pin(at(), id, place)); }
    // Connects two boxes, and answers the number of the connector. Class 0 is the centre of a box.
    uint32_t connect(int64_t start, int64_t end, uint32_t startClass = 0, uint32_t endClass = 0) {
        uint32_t number = 0;
        done(reroute_connect(at(), start, startClass, end, endClass, &number));
        return number;
    }
    // Moves an end of a connector to another box, and answers its new number. The other end and the checkpoints stay; its label,
    // its weight and other keys of the diagram do not.
    uint32_t reconnect(uint32_t connector, End end, int64_t box, uint32_t pinClass = 0) {
        uint32_t number = 0;
        done(reroute_reconnect(at(), connector, end == End::end, box, pinClass, &number));
        return number;
    }
    void setClasses(uint32_t connector, uint32_t startClass, uint32_t endClass) {
        done(reroute_set_classes(at(), connector, startClass, endClass));
    }
    void cut(uint32_t connector) { done(reroute_cut(at(), connector)); }
    // A point that the line has to pass, before the checkpoint that has this place now, from 1.
    void addCheckpoint(uint32_t connector, uint32_t place, double x, double y) {
        done(reroute_add_checkpoint(at(), connector, place, milli(x), milli(y)));
    }
    void dropCheckpoint(uint32_t connector, uint32_t place) { done(reroute_drop_checkpoint(at(), connector, place)); }
    void set(Setting setting, double value) {
        done(setting == Setting::penalty ? reroute_set_penalty(at(), milli(value))
             : setting == Setting::buffer ? reroute_set_buffer(at(), milli(value)) : reroute_set_nudge(at(), milli(value)));
    }

    // Labels of boxes and connectors that were added: gml() has them. No transaction need be open, and no undo takes them back.
    // An empty one is none, and one with a `"` is refused.
    void labelBox(int64_t id, const std::string &text) { done(reroute_label_box(at(), id, bytes(text), text.size())); }
    void labelConnector(uint32_t connector, const std::string &text) {
        done(reroute_label_connector(at(), connector, bytes(text), text.size()));
    }

    // The lines of all connectors that have one.
    Lines lines() { return read(reroute_lines, false); }
    // The lines that differ from those that lines() or changes() told last. A connector whose line is gone, since it was cut
    // or has no legal route any more, has no corners. After a std::bad_alloc ask for lines().
    Lines changes() { return read(reroute_lines, true); }
    // The lines that a commit of the open transaction would give. Nothing changes.
    Lines preview() { return read(reroute_preview, false); }
    // What changes() would tell after that commit. What was told last stays.
    Lines previewChanges() { return read(reroute_preview, true); }
    // The lines that these edits would give, which are dropped again.
    template <typename Edits> Lines previewLines(Edits edits) {
        return trial([&](Session &session) {
            edits(session);
            return session.preview();
        });
    }

    // Whether the connector has a route, and what it costs before nudging.
    bool cost(uint32_t connector, double &cost) const {
        uint64_t found = 0;
        if (!reroute_cost(at(), connector, &found)) return false;
        cost = static_cast<double>(found) / 1000;
        return true;
    }
#if __cplusplus >= 201703L
    std::optional<double> cost(uint32_t connector) const {
        double found = 0;
        return cost(connector, found) ? std::optional<double>(found) : std::nullopt;
    }
#endif

    // The paths that the routes of the present scene share, whether or not a transaction is open; and how often its lines cross.
    std::vector<SharedPath> sharedPaths() const {
        std::vector<SharedPath> paths;
        for (const reroute_shared_info &one : shared())
            paths.push_back({one.a, one.b, one.first, one.last, one.b_first, one.b_last, hand(one.back), hand(one.ahead), hand(one.side)});
        return paths;
    }
    uint64_t crossings() const {
        uint64_t count = 0;
        done(reroute_crossings(at(), &count));
        return count;
    }
    // Judges a line of any origin as that of a connector of the present scene.
    Verdict check(uint32_t connector, const Corners &corners) const {
        std::vector<reroute_point> points;
        for (const Point &corner : corners) points.push_back({milli(corner.x), milli(corner.y)});
        reroute_point none = {0, 0};
        reroute_verdict found = {REROUTE_LEGAL, 0, 0, 0};
        done(reroute_check(at(), connector, points.empty() ? &none : points.data(), points.size(), &found));
        return {static_cast<Breach>(found.breach), found.place, found.box, static_cast<double>(found.cost) / 1000};
    }

    // The scene: that of the open transaction if one is open, otherwise the present one. Connectors are in the order of their
    // numbers.
    std::vector<Box> boxes() const {
        std::vector<Box> found;
        reroute_box_info box;
        reroute_pin_info pin;
        for (std::size_t place = 0; reroute_box(at(), place, &box); place++) {
            found.push_back({box.id, units(box.x), units(box.y), units(box.w), units(box.h), box.group, {}});
            for (std::size_t n = 0; reroute_pin(at(), place, n, &pin); n++)
                found.back().pins.push_back({pin.pin_class, units(pin.dx), units(pin.dy), letters(pin.directions)});
        }
        return found;
    }
    std::vector<Connector> connectors() const {
        std::vector<Connector> found;
        reroute_connector_info one;
        for (std::size_t place = 0; reroute_connector(at(), place, &one); place++)
            found.push_back({one.number, one.from, one.to, one.from_class, one.to_class, points(reroute_checkpoint, place)});
        return found;
    }
    Settings settings() const {
        reroute_settings_info found;
        if (!reroute_settings(at(), &found)) throw Refused({REROUTE_NO_SESSION, 0});
        return {units(found.penalty), units(found.buffer), units(found.nudge)};
    }
    // How many boxes and connectors there are in it.
    std::size_t boxCount() const { return reroute_box_count(at()); }
    std::size_t connectorCount() const { return reroute_connector_count(at()); }
    // The number that the next connector gets.
    uint32_t next() const { return reroute_next(at()); }
    uint64_t searched() const { return reroute_searched(at()); }

    // The diagram in GML, with the present scene, its lines and the labels put in.
    std::string gml() const {
        std::size_t length = 0;
        uint8_t none = 0;
        done(reroute_write_gml(at(), &none, 0, &length));
        std::string text(length, '\0');
        if (length) done(reroute_write_gml(at(), reinterpret_cast<uint8_t *>(&text[0]), length, &length));
        return text;
    }
    // Plays a script up to its first line that is refused; the exception says which that is.
    void play(const std::string &script) {
        std::size_t line = 0;
        reroute_fault fault = reroute_play(at(), bytes(script), script.size(), &line);
        done(fault, line);
    }

private:
    // An open transaction, which is dropped unless it is committed.
    struct Open {
        reroute_session *session;
        Session &owner;
        explicit Open(Session &of) : session(of.at()), owner(of) {}
        ~Open() { if (session) reroute_abort(session); }
        Open(const Open &) = delete;
        Open &operator=(const Open &) = delete;

        template <typename Edits> auto made(Edits &edits, bool isKept) -> decltype(edits(std::declval<Session &>())) {
            return made(edits, isKept, std::is_void<decltype(edits(owner))>());
        }
        template <typename Edits> void made(Edits &edits, bool isKept, std::true_type) {
            edits(owner);
            end(isKept);
        }
        template <typename Edits>
        auto made(Edits &edits, bool isKept, std::false_type) -> decltype(edits(std::declval<Session &>())) {
            decltype(edits(owner)) answer = edits(owner);
            end(isKept);
            return answer;
        }
        void end(bool isKept) {
            if (!isKept) return;
            session = nullptr;
            owner.commit();
        }
    };

    // The lines that a call gives; or those that changed, with the connectors that are gone.
    Lines read(reroute_fault (*call)(reroute_session *, std::size_t *), bool isChanges) {
        Lines found;
        std::size_t count = 0;
        done(call(at(), &count));
        for (std::size_t place = 0; place < count; place++) {
            reroute_line_info line = reroute_line(at(), place);
            if (line.changed || !isChanges) found[line.connector] = points(reroute_corner, place);
        }
        for (std::size_t place = 0; isChanges && place < reroute_gone_count(at()); place++) found[reroute_gone(at(), place)];
        return found;
    }
    static Hand hand(uint32_t code) { return static_cast<Hand>(code); }
    std::vector<reroute_shared_info> shared() const {
        std::size_t count = 0;
        reroute_shared_info none;
        done(reroute_shared(at(), &none, 0, &count));
        std::vector<reroute_shared_info> paths(count);
        if (count) done(reroute_shared(at(), paths.data(), count, &count));
        return paths;
    }
    // All points that a call has of the line, or the connector, at a place.
    Corners points(bool (*call)(reroute_session *, std::size_t, std::size_t, reroute_point *), std::size_t place) const {
        Corners found;
        reroute_point point;
        for (std::size_t n = 0; call(at(), place, n, &point); n++) found.push_back({units(point.x), units(point.y)});
        return found;
    }
};

}
