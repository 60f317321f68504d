/* Every call of reroute.h, with what it has to answer: prints ok, or the first line of this file that is wrong.
 *     cc calls.c $(pkg-config --cflags --libs reroute) -Wl,-rpath,$(pkg-config --variable=libdir reroute) -o calls
 */
#include "reroute.h"
#include <stdio.h>
#include <string.h>

#define WANT(condition) do { if (!(condition)) { printf("wrong: line %d\n", __LINE__); exit(1); } } while (0)
#define REFUSES(call, wanted, named) do { \
    reroute_fault fault_ = call; \
    WANT(fault_.code == (wanted) && fault_.value == (named)); \
} while (0)
#define DONE(call) REFUSES(call, REROUTE_OK, 0)

static void costs(reroute_session *s, uint32_t connector, uint64_t wanted) {
    uint64_t cost = 7;
    WANT(reroute_cost(s, connector, &cost) && cost == wanted);
}

/* A closed session refuses what is asked of its lines, and writes nothing. */
static void closed_to_questions(reroute_session *s) {
    size_t count = 7;
    uint64_t crossings = 7;
    reroute_point corner = { 0, 0 };
    reroute_shared_info path = { 7, 7, 7, 7, 7, 7, 7, 7, 7 };
    reroute_verdict verdict = { 7, 7, 7, 7 };
    REFUSES(reroute_shared(s, &path, 1, &count), REROUTE_NO_SESSION, 0);
    REFUSES(reroute_crossings(s, &crossings), REROUTE_NO_SESSION, 0);
    REFUSES(reroute_check(s, 1, &corner, 1, &verdict), REROUTE_NO_SESSION, 0);
    WANT(count == 7 && crossings == 7 && path.a == 7 && path.side == 7);
    WANT(verdict.breach == 7 && verdict.place == 7 && verdict.box == 7 && verdict.cost == 7);
}

/* A closed session refuses everything. */
static void closed(reroute_session *s) {
    size_t count = 7;
    uint32_t number = 7;
    uint64_t cost = 7;
    reroute_point corner = { 7, 7 };
    reroute_line_info line = reroute_line(s, 0);
    reroute_box_info box;
    reroute_pin_info pin;
    reroute_connector_info connector;
    reroute_settings_info settings;
    REFUSES(reroute_begin(s), REROUTE_NO_SESSION, 0);
    REFUSES(reroute_commit(s), REROUTE_NO_SESSION, 0);
    REFUSES(reroute_abort(s), REROUTE_NO_SESSION, 0);
    REFUSES(reroute_undo(s), REROUTE_NO_SESSION, 0);
    REFUSES(reroute_redo(s), REROUTE_NO_SESSION, 0);
    REFUSES(reroute_add_box(s, 1, 0, 0, 20000, 20000), REROUTE_NO_SESSION, 0);
    REFUSES(reroute_connect(s, 1, 0, 2, 0, &number), REROUTE_NO_SESSION, 0);
    REFUSES(reroute_reconnect(s, 1, true, 2, 0, &number), REROUTE_NO_SESSION, 0);
    REFUSES(reroute_lines(s, &count), REROUTE_NO_SESSION, 0);
    REFUSES(reroute_preview(s, &count), REROUTE_NO_SESSION, 0);
    WANT(reroute_box_count(s) == 0 && reroute_connector_count(s) == 0);
    WANT(line.connector == 0 && line.corners == 0 && !line.changed);
    WANT(!reroute_corner(s, 0, 0, &corner) && !reroute_cost(s, 1, &cost));
    WANT(reroute_searched(s) == 0 && reroute_next(s) == 0);
    WANT(reroute_gone_count(s) == 0 && reroute_gone(s, 0) == 0);
    WANT(!reroute_box(s, 0, &box) && !reroute_pin(s, 0, 0, &pin) && !reroute_connector(s, 0, &connector));
    WANT(!reroute_checkpoint(s, 0, 0, &corner) && !reroute_settings(s, &settings));
    WANT(count == 7 && number == 7 && cost == 7 && corner.x == 7 && corner.y == 7);
    closed_to_questions(s);
}

/* Two boxes with a connector, and a third box below them. */
static void draw(reroute_session *s) {
    uint32_t number = 0;
    DONE(reroute_begin(s));
    DONE(reroute_add_box(s, 1, 0, 0, 20000, 20000));
    DONE(reroute_add_box(s, 2, 100000, 0, 20000, 20000));
    DONE(reroute_add_box(s, 3, 50000, 80000, 20000, 20000));
    DONE(reroute_size_box(s, 3, 20000, 40000));
    WANT(reroute_next(s) == 1);
    DONE(reroute_connect(s, 1, 0, 2, 0, &number));
    WANT(number == 1 && reroute_next(s) == 2);
    WANT(reroute_box_count(s) == 3 && reroute_connector_count(s) == 1);
    DONE(reroute_commit(s));
    WANT(reroute_box_count(s) == 3 && reroute_connector_count(s) == 1);
    costs(s, 1, 100000);
}

static void transactions(reroute_session *s) {
    REFUSES(reroute_commit(s), REROUTE_NO_TRANSACTION, 0);
    REFUSES(reroute_abort(s), REROUTE_NO_TRANSACTION, 0);
    REFUSES(reroute_undo(s), REROUTE_NOTHING_TO_UNDO, 0);
    REFUSES(reroute_redo(s), REROUTE_NOTHING_TO_REDO, 0);
    DONE(reroute_begin(s));
    REFUSES(reroute_begin(s), REROUTE_ALREADY_OPEN, 0);
    REFUSES(reroute_move_box(s, 1, 0, 0), REROUTE_NO_TRANSACTION, 0);
    DONE(reroute_begin(s));
    REFUSES(reroute_undo(s), REROUTE_ALREADY_OPEN, 0);
    DONE(reroute_begin(s));
    DONE(reroute_abort(s));
}

/* Each of these edits drops its transaction. */
static void refusals(reroute_session *s) {
    uint32_t number = 7;
    reroute_directions none = { false, false, false, false };
    DONE(reroute_begin(s));
    REFUSES(reroute_move_box(s, 9, 0, 0), REROUTE_UNKNOWN_NODE, 9);
    DONE(reroute_begin(s));
    REFUSES(reroute_cut(s, 9), REROUTE_UNKNOWN_EDGE, 9);
    DONE(reroute_begin(s));
    REFUSES(reroute_add_box(s, 2, 0, 0, 20000, 20000), REROUTE_NODE_EXISTS, 2);
    DONE(reroute_begin(s));
    REFUSES(reroute_drop_box(s, 2), REROUTE_NODE_IN_USE, 1);
    DONE(reroute_begin(s));
    REFUSES(reroute_connect(s, 3, 0, 3, 0, &number), REROUTE_SAME_NODE, 3);
    WANT(number == 7);
    DONE(reroute_begin(s));
    WANT(reroute_set_penalty(s, 0).code == REROUTE_OUT_OF_RANGE);
    DONE(reroute_begin(s));
    REFUSES(reroute_set_classes(s, 1, 5, 0), REROUTE_UNKNOWN_PIN_CLASS, 5);
    DONE(reroute_begin(s));
    REFUSES(reroute_drop_checkpoint(s, 1, 2), REROUTE_NO_SUCH_PLACE, 2);
    DONE(reroute_begin(s));
    REFUSES(reroute_add_pin(s, 1, 1, 0, 0, none), REROUTE_SYNTAX, 0);
    REFUSES(reroute_commit(s), REROUTE_NO_TRANSACTION, 0);
}

/* An id has at most 18 digits, and a longer one drops the transaction. */
static void long_ids(reroute_session *s) {
    DONE(reroute_begin(s));
    REFUSES(reroute_add_box(s, 1000000000000000000, 0, 300000, 20000, 20000), REROUTE_OUT_OF_RANGE, 2);
    REFUSES(reroute_commit(s), REROUTE_NO_TRANSACTION, 0);
    DONE(reroute_begin(s));
    REFUSES(reroute_add_box(s, INT64_MIN, 0, 300000, 20000, 20000), REROUTE_OUT_OF_RANGE, 2);
    DONE(reroute_begin(s));
    DONE(reroute_add_box(s, 999999999999999999, 0, 300000, 20000, 20000));
    DONE(reroute_add_box(s, -999999999999999999, 0, 400000, 20000, 20000));
    DONE(reroute_abort(s));
}

/* The line of a present scene, which is reported; what changed since is said once. */
static void lines(reroute_session *s) {
    size_t count = 0;
    reroute_point corners[9];
    reroute_line_info line;
    DONE(reroute_lines(s, &count));
    line = reroute_line(s, 0);
    WANT(count == 1 && line.connector == 1 && line.corners == 2 && line.changed);
    WANT(reroute_corners(s, 0, corners, 9) == 2 && reroute_corners(s, 1, corners, 9) == 0);
    WANT(corners[0].x == 0 && corners[0].y == 0 && corners[1].x == 100000 && corners[1].y == 0);
    DONE(reroute_lines(s, &count));
    line = reroute_line(s, 0);
    WANT(count == 1 && line.connector == 1 && !line.changed);
    WANT(reroute_line(s, 1).connector == 0);
}

/* What edits would give, against what was reported; nothing of it stays but that its lines can be read. */
static void preview(reroute_session *s) {
    size_t count = 7;
    reroute_point corners[9];
    reroute_line_info line;
    REFUSES(reroute_preview(s, &count), REROUTE_NO_TRANSACTION, 0);
    WANT(count == 7);
    DONE(reroute_begin(s));
    DONE(reroute_move_box(s, 3, 50000, 0));
    DONE(reroute_preview(s, &count));
    line = reroute_line(s, 0);
    WANT(count == 1 && line.connector == 1 && line.corners == 4 && line.changed);
    WANT(reroute_corners(s, 0, corners, 9) == 4 && corners[1].x == 0 && corners[1].y == -24000);
    DONE(reroute_preview(s, &count));
    WANT(count == 1 && reroute_line(s, 0).changed);
    DONE(reroute_drop_box(s, 3));
    DONE(reroute_preview(s, &count));
    WANT(count == 1 && reroute_line(s, 0).corners == 2 && !reroute_line(s, 0).changed);
    DONE(reroute_cut(s, 1));
    DONE(reroute_preview(s, &count));
    WANT(count == 0 && reroute_gone_count(s) == 1 && reroute_gone(s, 0) == 1 && reroute_gone(s, 1) == 0);
    WANT(reroute_line(s, 0).connector == 0 && !reroute_line(s, 0).changed);
    DONE(reroute_abort(s));
    DONE(reroute_lines(s, &count));
    WANT(count == 1 && !reroute_line(s, 0).changed && reroute_gone_count(s) == 0);
    costs(s, 1, 100000);
    WANT(reroute_searched(s) == 1 && reroute_box_count(s) == 3);
}

static void move_and_undo(reroute_session *s) {
    DONE(reroute_begin(s));
    DONE(reroute_move_box(s, 3, 50000, 0));
    costs(s, 1, 100000);
    DONE(reroute_commit(s));
    costs(s, 1, 248000);
    WANT(reroute_searched(s) == 2);
    DONE(reroute_undo(s));
    costs(s, 1, 100000);
    DONE(reroute_redo(s));
    costs(s, 1, 248000);
    DONE(reroute_undo(s));
    WANT(reroute_searched(s) == 2);
}

static void pins_and_checkpoints(reroute_session *s) {
    reroute_directions east = { true, false, false, false };
    DONE(reroute_begin(s));
    DONE(reroute_add_pin(s, 1, 1, 10000, 0, east));
    DONE(reroute_set_classes(s, 1, 1, 0));
    DONE(reroute_commit(s));
    costs(s, 1, 90000);
    DONE(reroute_begin(s));
    REFUSES(reroute_drop_pin(s, 1, 1), REROUTE_PIN_IN_USE, 1);
    DONE(reroute_begin(s));
    DONE(reroute_set_classes(s, 1, 0, 0));
    DONE(reroute_drop_pin(s, 1, 1));
    DONE(reroute_add_checkpoint(s, 1, 1, 50000, 30000));
    DONE(reroute_commit(s));
    costs(s, 1, 260000);
    DONE(reroute_begin(s));
    DONE(reroute_drop_checkpoint(s, 1, 1));
    DONE(reroute_set_penalty(s, 60000));
    DONE(reroute_set_buffer(s, 5000));
    DONE(reroute_set_nudge(s, 5000));
    DONE(reroute_move_box(s, 3, 50000, 0));
    DONE(reroute_commit(s));
    costs(s, 1, 270000);
}

/* The scene by places; that of an open transaction while one is open. */
static void read_scene(reroute_session *s) {
    reroute_directions sides = { true, false, false, true };
    reroute_box_info box;
    reroute_pin_info pin;
    reroute_connector_info connector;
    reroute_settings_info settings;
    reroute_point point = { 7, 7 };
    WANT(reroute_settings(s, &settings) && settings.penalty == 60000 && settings.buffer == 5000 && settings.nudge == 5000);
    WANT(reroute_box(s, 2, &box) && box.id == 3 && box.x == 50000 && box.y == 0 && box.w == 20000 && box.h == 40000);
    WANT(box.pins == 0 && !box.group && !reroute_box(s, 3, &box));
    WANT(reroute_connector(s, 0, &connector) && connector.number == 1 && connector.from == 1 && connector.to == 2);
    WANT(connector.from_class == 0 && connector.to_class == 0 && connector.checkpoints == 0 && !reroute_connector(s, 1, &connector));
    DONE(reroute_begin(s));
    DONE(reroute_add_pin(s, 3, 5, 1000, -2000, sides));
    DONE(reroute_add_checkpoint(s, 1, 1, 50000, 70000));
    DONE(reroute_move_box(s, 3, 50000, 1000));
    WANT(reroute_box(s, 2, &box) && box.y == 1000 && box.pins == 1 && !reroute_pin(s, 2, 1, &pin));
    WANT(reroute_pin(s, 2, 0, &pin) && pin.pin_class == 5 && pin.dx == 1000 && pin.dy == -2000);
    WANT(pin.directions.east && !pin.directions.south && !pin.directions.west && pin.directions.north);
    WANT(!reroute_checkpoint(s, 0, 1, &point) && !reroute_checkpoint(s, 1, 0, &point) && point.x == 7 && point.y == 7);
    WANT(reroute_checkpoint(s, 0, 0, &point) && point.x == 50000 && point.y == 70000);
    DONE(reroute_abort(s));
    WANT(reroute_box(s, 2, &box) && box.y == 0 && box.pins == 0);
}

static void cut(reroute_session *s) {
    uint64_t cost = 7;
    size_t count = 7;
    DONE(reroute_begin(s));
    DONE(reroute_cut(s, 1));
    DONE(reroute_drop_box(s, 1));
    DONE(reroute_commit(s));
    WANT(!reroute_cost(s, 1, &cost) && cost == 7);
    DONE(reroute_lines(s, &count));
    WANT(count == 0 && reroute_gone_count(s) == 1 && reroute_gone(s, 0) == 1 && reroute_gone(s, 1) == 0);
}

/* Two boxes with a connector, a script that puts a third one between them, and what is then written. */
static const char *diagram =
    "graph [\n"
    "  node [ id 1 graphics [ x 0 y 0 w 20 h 20 ] ]\n"
    "  node [ id 2 label \"two\" graphics [ x 100 y 0 w 20 h 20 ] ]\n"
    "  edge [ source 1 target 2 ]\n"
    "]\n";
static const char *script = "begin\nnode 3 50 0 20 40\ncommit\n";
static const char *written =
    "graph [\n"
    "  node [\n    id 1\n    graphics [\n      x 0\n      y 0\n      w 20\n      h 20\n    ]\n  ]\n"
    "  node [\n    id 2\n    label \"two\"\n    graphics [\n      x 100\n      y 0\n      w 20\n      h 20\n    ]\n  ]\n"
    "  edge [\n    source 1\n    target 2\n    graphics [\n      Line [\n"
    "        point [\n          x 0.000\n          y 0.000\n        ]\n"
    "        point [\n          x 0.000\n          y -24.000\n        ]\n"
    "        point [\n          x 100.000\n          y -24.000\n        ]\n"
    "        point [\n          x 100.000\n          y 0.000\n        ]\n"
    "      ]\n    ]\n  ]\n"
    "  node [\n    id 3\n    graphics [\n      x 50.000\n      y 0.000\n      w 20.000\n      h 40.000\n    ]\n  ]\n"
    "]\n";

static reroute_fault opened(reroute_session *s, const char *text) {
    return reroute_open_gml(s, (const uint8_t *)text, strlen(text));
}

static reroute_fault played(reroute_session *s, const char *text, size_t *line) {
    return reroute_play(s, (const uint8_t *)text, strlen(text), line);
}

/* Texts that open nothing. */
static void no_diagrams(reroute_session *s) {
    char deep[131] = "";
    int lists;
    for (lists = 0; lists < 65; lists++) strcat(deep, "a[");
    REFUSES(opened(s, "graph [ label \"ab"), REROUTE_GML_SYNTAX, 17);
    REFUSES(opened(s, deep), REROUTE_GML_TOO_DEEP, 129);
    REFUSES(opened(s, ""), REROUTE_NO_GRAPH, 0);
    REFUSES(opened(s, "graph [ node [ id 1 ] ]"), REROUTE_NO_PLACE, 1);
    REFUSES(opened(s, "graph [ router [ nudge \"a\" ] ]"), REROUTE_ROUTER_BAD_NUMBER, 0);
    REFUSES(opened(s, "graph [ node [ id 1 graphics [ x 0 y 0 w -1 ] ] ]"), REROUTE_NODE_OUT_OF_RANGE, 1);
    REFUSES(opened(s, "graph [ edge [ source 1 target 2 ] ]"), REROUTE_BAD_END, 1);
    WANT(!strcmp(reroute_fault_name(REROUTE_BAD_END), "BadEnd edge"));
    WANT(!strcmp(reroute_fault_name(REROUTE_NODE_BAD_NUMBER), "BadNumber node"));
    WANT(!strcmp(reroute_fault_name(REROUTE_PIN_IN_USE), "X17 PinInUse"));
}

/* A diagram is opened, a script is played on it, and it is written back. */
static void texts(reroute_session *s) {
    uint8_t out[2000];
    size_t length = 7, line = 7;
    REFUSES(reroute_write_gml(s, out, 0, &length), REROUTE_NO_SESSION, 0);
    REFUSES(played(s, script, &line), REROUTE_NO_SESSION, 0);
    WANT(length == 7 && line == 7);
    no_diagrams(s);
    DONE(opened(s, diagram));
    REFUSES(opened(s, diagram), REROUTE_ALREADY_OPEN, 0);
    costs(s, 1, 100000);
    DONE(played(s, script, &line));
    WANT(line == 0 && reroute_box_count(s) == 3);
    costs(s, 1, 248000);
    DONE(reroute_write_gml(s, out, 0, &length));
    WANT(length == strlen(written));
    memset(out, '#', sizeof out);
    DONE(reroute_write_gml(s, out, 9, &length));
    WANT(length == strlen(written) && !memcmp(out, "graph [\n #", 10));
    DONE(reroute_write_gml(s, out, sizeof out, &length));
    WANT(length == strlen(written) && !memcmp(out, written, length) && out[length] == '#');
    REFUSES(played(s, "# two edits\nbegin\nmove 3 50 80\ndrop 9\nundo\n", &line), REROUTE_UNKNOWN_NODE, 9);
    WANT(line == 4);
    costs(s, 1, 248000);
    REFUSES(played(s, "begin\nmove 3 here\ncommit\n", &line), REROUTE_SYNTAX, 0);
    WANT(line == 2);
    DONE(played(s, "undo\nbegin\nmove 2 200 0\n", &line));
    WANT(line == 0);
    DONE(reroute_commit(s));
    costs(s, 1, 200000);
    DONE(reroute_begin(s));
    REFUSES(played(s, "move 9 0 0\n", &line), REROUTE_UNKNOWN_NODE, 9);
    REFUSES(reroute_commit(s), REROUTE_NO_TRANSACTION, 0);
    reroute_close(s);
}

static reroute_fault box_label(reroute_session *s, int64_t id, const char *text) {
    return reroute_label_box(s, id, (const uint8_t *)text, strlen(text));
}

static reroute_fault connector_label(reroute_session *s, uint32_t number, const char *text) {
    return reroute_label_connector(s, number, (const uint8_t *)text, strlen(text));
}

/* The diagram without what was added, and with it and these labels. */
static const char *unlabelled =
    "graph [\n  node [\n    id 1\n    label \"old\"\n    graphics [\n      x 0\n      y 0\n      w 20\n      h 20\n    ]\n  ]\n]\n";
static const char *labelled =
    "graph [\n  node [\n    id 1\n    label \"old\"\n    graphics [\n      x 0\n      y 0\n      w 20\n      h 20\n    ]\n  ]\n"
    "  node [\n    id 3\n    label \"Ship & bill\"\n    graphics [\n      x 50.000\n      y 0.000\n      w 20.000\n      h 40.000\n    ]\n  ]\n"
    "  edge [\n    source 1\n    target 3\n    label \"goes right\"\n    graphics [\n      Line [\n"
    "        point [\n          x 0.000\n          y 0.000\n        ]\n        point [\n          x 50.000\n          y 0.000\n        ]\n"
    "      ]\n    ]\n  ]\n]\n";

static void writes(reroute_session *s, const char *wanted) {
    uint8_t out[2000];
    size_t length = 7;
    DONE(reroute_write_gml(s, out, sizeof out, &length));
    WANT(length == strlen(wanted) && !memcmp(out, wanted, length));
}

/* What was added has its label, which an undo does not take back; no other label is written. */
static void labels(reroute_session *s) {
    uint32_t number = 0;
    REFUSES(box_label(s, 3, "none"), REROUTE_NO_SESSION, 0);
    REFUSES(connector_label(s, 1, "none"), REROUTE_NO_SESSION, 0);
    DONE(opened(s, "graph [ node [ id 1 label \"old\" graphics [ x 0 y 0 w 20 h 20 ] ] ]"));
    DONE(box_label(s, 1, "new"));
    DONE(box_label(s, 3, "to come"));
    DONE(connector_label(s, 1, "goes right"));
    DONE(reroute_begin(s));
    DONE(reroute_add_box(s, 3, 50000, 0, 20000, 40000));
    DONE(reroute_connect(s, 1, 0, 3, 0, &number));
    WANT(number == 1);
    REFUSES(box_label(s, 3, "a \" in it"), REROUTE_SYNTAX, 0);
    DONE(reroute_commit(s));
    DONE(box_label(s, 3, "Ship & bill"));
    REFUSES(connector_label(s, 1, "\""), REROUTE_SYNTAX, 0);
    writes(s, labelled);
    DONE(reroute_undo(s));
    writes(s, unlabelled);
    DONE(reroute_redo(s));
    writes(s, labelled);
    reroute_close(s);
}

/* Connectors there and back round a box, and one from a box to itself. */
static const char *there_and_back =
    "graph [ node [ id 1 graphics [ x 0 y 0 w 20 h 20 ] ] node [ id 2 graphics [ x 100 y 0 w 20 h 20 ] ]\n"
    "  node [ id 3 graphics [ x 50 y 0 w 20 h 40 ] ]\n"
    "  edge [ source 1 target 2 ] edge [ source 2 target 1 ] edge [ source 3 target 3 ] ]";

static bool is_path(reroute_shared_info path, uint32_t a, uint32_t b, uint32_t runs) {
    return path.a == a && path.b == b && path.first == 1 && path.last == runs;
}

/* Both routes are one path, which the second one goes backwards. */
static void shared(reroute_session *s) {
    size_t count = 7;
    uint64_t crossings = 7;
    reroute_shared_info paths[2] = { { 7, 7, 7, 7, 7, 7, 7, 7, 7 }, { 7, 7, 7, 7, 7, 7, 7, 7, 7 } };
    DONE(reroute_shared(s, paths, 0, &count));
    WANT(count == 1 && paths[0].a == 7);
    DONE(reroute_shared(s, paths, 2, &count));
    WANT(count == 1 && is_path(paths[0], 1, 2, 3) && paths[0].b_first == 3 && paths[0].b_last == 1 && paths[1].a == 7);
    WANT(paths[0].back == REROUTE_TIE && paths[0].ahead == REROUTE_TIE && paths[0].side == REROUTE_TIE);
    DONE(reroute_crossings(s, &crossings));
    WANT(crossings == 0);
}

static void judges(reroute_session *s, uint32_t connector, const reroute_point *corners, size_t count, reroute_verdict wanted) {
    reroute_verdict found = { 7, 7, 7, 7 };
    DONE(reroute_check(s, connector, corners, count, &found));
    WANT(found.breach == wanted.breach && found.place == wanted.place && found.box == wanted.box && found.cost == wanted.cost);
}

/* Each verdict, of a line that need not be drawn. An open transaction makes no difference, and stays open where a line is refused,
 * and then nothing is written. */
static void verdicts(reroute_session *s) {
    static const reroute_point round[] = { { 0, 0 }, { 0, -24000 }, { 100000, -24000 }, { 100000, 0 } };
    static const reroute_point slanted[] = { { 0, 0 }, { 100000, 1000 } }, across[] = { { 0, 0 }, { 100000, 0 } };
    static const reroute_point far[] = { { 0, 0 }, { 2000000001, 0 } };
    reroute_verdict legal = { REROUTE_LEGAL, 0, 0, 248000 }, hits = { REROUTE_HITS, 1, 3, 0 }, slants = { REROUTE_SLANTED, 1, 0, 0 };
    reroute_verdict start_off = { REROUTE_START_OFF, 0, 0, 0 }, end_off = { REROUTE_END_OFF, 0, 0, 0 };
    reroute_verdict misses = { REROUTE_MISSES_VIA, 1, 0, 0 }, none = { 7, 7, 7, 7 };
    judges(s, 1, round, 4, legal);
    judges(s, 1, across, 2, hits);
    judges(s, 1, slanted, 2, slants);
    judges(s, 1, round, 0, start_off);
    judges(s, 1, round + 1, 3, start_off);
    judges(s, 1, round, 3, end_off);
    DONE(reroute_begin(s));
    DONE(reroute_add_checkpoint(s, 1, 1, 50000, 30000));
    judges(s, 1, round, 4, legal);
    shared(s);
    REFUSES(reroute_check(s, 9, round, 4, &none), REROUTE_UNKNOWN_EDGE, 9);
    REFUSES(reroute_check(s, 3, round, 4, &none), REROUTE_SAME_NODE, 3);
    REFUSES(reroute_check(s, 1, far, 2, &none), REROUTE_OUT_OF_RANGE, 5);
    WANT(none.breach == 7 && none.place == 7 && none.box == 7 && none.cost == 7);
    DONE(reroute_commit(s));
    judges(s, 1, round, 4, misses);
}

/* The end at which connector 1 begins gets to box 3, and then the one at which it ends to box 1. Its checkpoint stays. */
static void reconnect(reroute_session *s) {
    uint32_t number = 7;
    reroute_connector_info connector;
    reroute_point point;
    DONE(reroute_begin(s));
    DONE(reroute_reconnect(s, 1, false, 3, 0, &number));
    WANT(number == 4 && reroute_next(s) == 5 && reroute_connector_count(s) == 3);
    WANT(reroute_connector(s, 2, &connector) && connector.number == 4 && connector.from == 3 && connector.to == 2);
    WANT(connector.checkpoints == 1 && reroute_checkpoint(s, 2, 0, &point) && point.x == 50000 && point.y == 30000);
    DONE(reroute_reconnect(s, 4, true, 1, 0, &number));
    WANT(number == 5 && reroute_connector(s, 2, &connector) && connector.from == 3 && connector.to == 1);
    DONE(reroute_commit(s));
    WANT(reroute_connector_count(s) == 3 && reroute_next(s) == 6);
    DONE(reroute_undo(s));
    WANT(reroute_connector(s, 0, &connector) && connector.number == 1 && connector.from == 1 && connector.to == 2);
}

/* Each of these drops its transaction, and writes no number. */
static void no_reconnect(reroute_session *s) {
    uint32_t number = 7;
    REFUSES(reroute_reconnect(s, 1, true, 3, 0, &number), REROUTE_NO_TRANSACTION, 0);
    DONE(reroute_begin(s));
    REFUSES(reroute_reconnect(s, 9, true, 3, 0, &number), REROUTE_UNKNOWN_EDGE, 9);
    DONE(reroute_begin(s));
    REFUSES(reroute_reconnect(s, 1, true, 9, 0, &number), REROUTE_UNKNOWN_NODE, 9);
    DONE(reroute_begin(s));
    REFUSES(reroute_reconnect(s, 1, true, 1, 0, &number), REROUTE_SAME_NODE, 1);
    DONE(reroute_begin(s));
    REFUSES(reroute_reconnect(s, 1, true, 3, 5, &number), REROUTE_UNKNOWN_PIN_CLASS, 5);
    REFUSES(reroute_commit(s), REROUTE_NO_TRANSACTION, 0);
    WANT(number == 7 && reroute_connector_count(s) == 3 && reroute_next(s) == 4);
}

static void questions(reroute_session *s) {
    DONE(opened(s, there_and_back));
    shared(s);
    verdicts(s);
    no_reconnect(s);
    reconnect(s);
    reroute_close(s);
}

/* A copy of a handle is the same session, and a handle that was ended or not started is started again. */
static void handles(void) {
    reroute_session session, copy;
    REFUSES(reroute_start_gml(&session, (const uint8_t *)"]", 1), REROUTE_GML_SYNTAX, 0);
    reroute_end(&session);
    DONE(reroute_start(&session));
    copy = session;
    DONE(reroute_begin(&copy));
    REFUSES(reroute_begin(&session), REROUTE_ALREADY_OPEN, 0);
    reroute_close(&copy);
    closed(&session);
    DONE(reroute_open(&session));
    reroute_end(&session);
    reroute_end(&session);
    DONE(reroute_start(&session));
    reroute_end(&session);
}

/* Twenty connectors, of some thousand bytes of text: no call is out of memory. */
static void twenty(reroute_session *s) {
    static uint8_t out[20000];
    uint32_t number = 0;
    int64_t k;
    size_t count = 7, length = 7;
    DONE(reroute_open(s));
    DONE(reroute_begin(s));
    for (k = 0; k < 20; k++) {
        DONE(reroute_add_box(s, 2 * k + 1, 0, 100000 * k, 20000, 20000));
        DONE(reroute_add_box(s, 2 * k + 2, 100000, 100000 * k, 20000, 20000));
        DONE(reroute_connect(s, 2 * k + 1, 0, 2 * k + 2, 0, &number));
    }
    DONE(reroute_commit(s));
    DONE(reroute_lines(s, &count));
    WANT(count == 20 && reroute_line(s, 19).connector == 20);
    DONE(reroute_begin(s));
    DONE(reroute_move_box(s, 40, 100000, 1950000));
    DONE(reroute_commit(s));
    DONE(reroute_lines(s, &count));
    WANT(count == 20 && reroute_line(s, 19).changed && !reroute_line(s, 18).changed);
    DONE(reroute_write_gml(s, out, sizeof out, &length));
    WANT(4096 < length && length <= sizeof out);
    reroute_close(s);
    DONE(reroute_open_gml(s, out, length));
    WANT(reroute_box_count(s) == 40 && reroute_connector_count(s) == 20);
    reroute_close(s);
}

int main(void) {
    reroute_session session = { malloc(reroute_size()) };
    WANT(session.held && reroute_version() == REROUTE_VERSION);
    reroute_ready(session.held);
    closed(&session);
    DONE(reroute_open(&session));
    REFUSES(reroute_open(&session), REROUTE_ALREADY_OPEN, 0);
    transactions(&session);
    draw(&session);
    lines(&session);
    refusals(&session);
    long_ids(&session);
    preview(&session);
    move_and_undo(&session);
    pins_and_checkpoints(&session);
    read_scene(&session);
    cut(&session);
    reroute_close(&session);
    closed(&session);
    texts(&session);
    closed(&session);
    labels(&session);
    closed(&session);
    questions(&session);
    closed(&session);
    twenty(&session);
    reroute_close(&session);
    free(session.held);
    handles();
    puts("ok");
    return 0;
}
