/* reroute.h: right-angled connectors for diagram editors. The interface of the library for C, version 0.1.
 *
 * A session keeps a scene of boxes, pins and connectors, and for each connector the cheapest legal route. Edits come in
 * transactions; a committed transaction can be undone and redone. Lengths are whole thousandths of a unit; x grows to the
 * right and y downwards. Things are named by numbers: you choose the ids of boxes, and the session numbers connectors from 1.
 *
 * Memory. You give a session its room: reroute_size() bytes, aligned to 16, as malloc gives them. reroute_start and
 * reroute_end, at the end of this file, do that for you. All else is taken by malloc, realloc and free, and given back by
 * reroute_close. Your memory is written only where a parameter says so, and no pointer to it is kept, but for the room.
 * The room may not be moved or copied.
 *
 * Pointers. None may be NULL, even beside a length or a room of 0, but the text of reroute_start_gml and the context of
 * reroute_for_changed. What two of them point to may not overlap. Texts have any length, since the program's limits for files do
 * not hold here, and no 0 at their end.
 *
 * Handles. A copy of a handle is the same session: what is closed by one is closed for both. After reroute_end, or a fault of
 * reroute_start, a handle may only be started or ended, and a copy of it not be used; to start one that has a room loses that.
 *
 * Closed. On a closed session, calls that return a fault return REROUTE_NO_SESSION, but for those that open, and write nothing;
 * the others return 0, false or no line.
 *
 * Threads. Sessions share nothing. Calls of one session must not overlap; they may come from different threads, one after
 * another. No call starts a thread, takes a lock, reads or writes a file, prints, or ends the process.
 *
 * Refusals. Most calls return a reroute_fault: a code, REROUTE_OK if nothing is refused, and a value, which is what the
 * refusal names. After a refused begin, edit, commit, abort, undo or redo no transaction is open: the edits of the one that
 * was open are dropped together, and scene, routes and history are as they were before it. It is the same when memory runs
 * out. Of the other calls each says what stays. The codes are those of the program: X1 to X17, and from 101 on what it says of
 * a diagram that it does not take.
 *
 * Versions. Until 1.0 each minor version may change calls, and its library has another name (libreroute.so.0 is 0.1).
 */
#ifndef REROUTE_H
#define REROUTE_H
#include <stdbool.h>
#include <stddef.h>
#include <stdint.h>
#include <stdlib.h>
#ifdef __cplusplus
extern "C" {
#endif

#define REROUTE_VERSION 256u /* major * 65536 + minor * 256 + patch */
/* The version that the library was built as. */
uint32_t reroute_version(void);

enum {
    REROUTE_OK = 0,
    REROUTE_SYNTAX = 1,             /* what is asked for has no form, as a pin without a direction */
    REROUTE_NO_TRANSACTION = 2,     /* an edit, a commit or an abort, and no transaction is open */
    REROUTE_ALREADY_OPEN = 3,       /* a begin, an undo or a redo, and a transaction is open; or reroute_open on an open session */
    REROUTE_UNKNOWN_NODE = 4,       /* no box has the id; value: the id */
    REROUTE_UNKNOWN_EDGE = 5,       /* no connector has the number; value: the number */
    REROUTE_NODE_EXISTS = 6,        /* a box has the id already; value: the id */
    REROUTE_NODE_IN_USE = 7,        /* a connector ends at the box; value: its number */
    REROUTE_SAME_NODE = 8,          /* a connector from a box to itself; value: the id */
    REROUTE_OUT_OF_RANGE = 9,       /* a number is beyond its limits; value: its place among the parameters, from 1; 3 for a setting;
                                     * 2 k + 3 for corner k of reroute_check, from 0 */
    REROUTE_PIN_OUTSIDE = 10,       /* a pin would be outside its box; value: the place of the pin, from 1 */
    REROUTE_UNKNOWN_PIN_CLASS = 11, /* the box has no pin of the class; value: the class */
    REROUTE_NO_SUCH_PLACE = 12,     /* nothing has the place; value: the place */
    REROUTE_TOO_MANY = 13,          /* value: the limit: 256 boxes, 256 pins, 512 connectors, 256 checkpoints, 4 of one connector;
                                     * 40000000 corners of reroute_check */
    REROUTE_NOTHING_TO_UNDO = 14,
    REROUTE_NOTHING_TO_REDO = 15,
    REROUTE_PIN_IN_USE = 17,        /* a connector uses the last pin of the class; value: its number */
    REROUTE_NO_SESSION = 98,        /* no session is open here */
    REROUTE_MEMORY = 99,            /* memory ran out */

    /* A diagram in GML is not taken. The value is an offset in bytes, from 0, or the place of the node or the edge in the file,
     * from 1; for the router and for a limit it is 0. */
    REROUTE_GML_SYNTAX = 101,       /* the bytes before the offset begin a document, and no more do */
    REROUTE_GML_TOO_DEEP = 102,     /* a 65th list opens at the offset */
    REROUTE_NO_GRAPH = 103,
    REROUTE_BAD_ID = 104,
    REROUTE_SAME_ID = 105,
    REROUTE_NO_PLACE = 106,
    REROUTE_BAD_PIN = 107,
    REROUTE_BAD_END = 108,
    REROUTE_BAD_VIA = 109,
    REROUTE_BAD_WEIGHT = 110,
    REROUTE_ROUTER_BAD_NUMBER = 111,
    REROUTE_NODE_BAD_NUMBER = 112,
    REROUTE_ROUTER_OUT_OF_RANGE = 121,
    REROUTE_NODE_OUT_OF_RANGE = 122,
    REROUTE_TOO_MANY_NODES = 132,
    REROUTE_TOO_MANY_EDGES = 133,
    REROUTE_TOO_MANY_PINS = 134,
    REROUTE_TOO_MANY_VIAS = 135
};

typedef struct reroute_fault { uint32_t code; int64_t value; } reroute_fault;

/* The handle of a session: where its room is. Only the calls below read or write it. */
typedef struct reroute_session { void *held; } reroute_session;

/* --- Open and close ---------------------------------------------------------------------------------------------- */
/* How many bytes a session's room takes. */
size_t reroute_size(void);
/* Makes the room, of reroute_size() bytes, that of a closed session. Call it once for a room, before any other call. */
void reroute_ready(void *room);
/* Opens the empty scene: penalty 50000, buffer 4000, nudge 4000. If the session is open, it stays: REROUTE_ALREADY_OPEN; after
 * REROUTE_MEMORY it is closed, and may be opened again. */
reroute_fault reroute_open(reroute_session *session);
/* Opens the scene of a diagram in GML, with its boxes, pins, connectors, checkpoints and settings, as the program reads it.
 * The text is not NULL. If the session is open, it stays: REROUTE_ALREADY_OPEN; after any other fault it is closed, and may be
 * opened again. */
reroute_fault reroute_open_gml(reroute_session *session, const uint8_t *text, size_t length);
/* Closes the session and gives its memory back, all but the room. Does nothing if it is closed. */
void reroute_close(reroute_session *session);

/* --- Transactions ------------------------------------------------------------------------------------------------ */
/* Opens a transaction. Its edits are seen by its later edits, and by no line before the commit. */
reroute_fault reroute_begin(reroute_session *session);
/* Closes it: the scene is that after its edits, and each connector has the first of its cheapest legal routes there, or
 * none if no route is legal. Only connectors that the edits may affect are searched. The scene before can be undone to, at
 * most 100 of them; what was undone before can no longer be redone. */
reroute_fault reroute_commit(reroute_session *session);
/* Drops it. Takes no memory: the faults are REROUTE_NO_TRANSACTION and REROUTE_NO_SESSION. */
reroute_fault reroute_abort(reroute_session *session);
/* The scene before the last commit that is not undone, with the routes that it had. Nothing is searched. */
reroute_fault reroute_undo(reroute_session *session);
/* The scene before the last undo, with the routes that it had. Nothing is searched. */
reroute_fault reroute_redo(reroute_session *session);

/* --- Edits of the open transaction -------------------------------------------------------------------------------- */
/* A box by its centre and its whole width and height. Its id has at most 18 digits, since no diagram that is read has more:
 * otherwise REROUTE_OUT_OF_RANGE with the value 2. */
reroute_fault reroute_add_box(reroute_session *session, int64_t id, int64_t x, int64_t y, int64_t w, int64_t h);
reroute_fault reroute_move_box(reroute_session *session, int64_t id, int64_t x, int64_t y);
reroute_fault reroute_size_box(reroute_session *session, int64_t id, int64_t w, int64_t h);
reroute_fault reroute_drop_box(reroute_session *session, int64_t id);
/* The directions in which lines may leave a pin. */
typedef struct reroute_directions { bool east, south, west, north; } reroute_directions;
/* A pin of a class from 1 to 65535 at an offset from the box's centre. Class 0 is the centre itself, in all directions.
 * Without a direction: REROUTE_SYNTAX, and the transaction is dropped. */
reroute_fault reroute_add_pin(reroute_session *session, int64_t id, uint32_t pin_class, int64_t dx, int64_t dy, reroute_directions directions);
/* Removes the pin at a place of the box, from 1. */
reroute_fault reroute_drop_pin(reroute_session *session, int64_t id, uint32_t place);
/* A connector between any pins of the two classes. *number, which is not NULL, becomes its number; if the call is refused, it
 * stays. */
reroute_fault reroute_connect(reroute_session *session, int64_t from, uint32_t from_class, int64_t to, uint32_t to_class, uint32_t *number);
/* Moves an end of a connector to another box, at any pin of the class there: the end where it begins, or with target the one
 * where it ends. The connector is cut, and a new one with its other end, the class of that and its checkpoints is added, without
 * the weight, the label and the other keys that came with a diagram, and without a label that was given to the old number.
 * *number, which is not NULL, becomes the number of the new one; if the call is refused, it stays. */
reroute_fault reroute_reconnect(reroute_session *session, uint32_t connector, bool target, int64_t id, uint32_t pin_class, uint32_t *number);
/* The number that the next connector gets: in the open transaction, if one is open; 0 if the session is closed. */
uint32_t reroute_next(reroute_session *session);
reroute_fault reroute_cut(reroute_session *session, uint32_t number);
reroute_fault reroute_set_classes(reroute_session *session, uint32_t number, uint32_t from_class, uint32_t to_class);
/* A checkpoint that the line passes through, before the one that has the place now, from 1. */
reroute_fault reroute_add_checkpoint(reroute_session *session, uint32_t number, uint32_t place, int64_t x, int64_t y);
reroute_fault reroute_drop_checkpoint(reroute_session *session, uint32_t number, uint32_t place);
/* What a bend costs, as a length: 1 to 10^9. */
reroute_fault reroute_set_penalty(reroute_session *session, int64_t value);
/* How far lines keep from boxes: 1 to 10^6. */
reroute_fault reroute_set_buffer(reroute_session *session, int64_t value);
/* How far lines side by side are kept apart where there is room: 0 to 10^6. */
reroute_fault reroute_set_nudge(reroute_session *session, int64_t value);

/* --- Labels --------------------------------------------------------------------------------------------------------- */
/* The diagram that is written has the labels of the boxes and connectors of the present scene that edits added. A label of any
 * other, as of one that was undone, is kept and not written. Edits, undo and redo change no label, and no transaction need be
 * open. Each call gives a label in place of the one that there is; one of length 0 takes that away. A label that has a `"`,
 * which no text in GML has: REROUTE_SYNTAX. After any fault all stays, the open transaction too. text is not NULL. */
reroute_fault reroute_label_box(reroute_session *session, int64_t id, const uint8_t *text, size_t length);
reroute_fault reroute_label_connector(reroute_session *session, uint32_t number, const uint8_t *text, size_t length);

/* --- Lines --------------------------------------------------------------------------------------------------------- */
/* Lines are reported by reroute_lines. Both calls below compare the lines that they give with those that were reported last:
 * a line changed if none was reported of its connector or another was, and a connector is gone if a line was reported of it
 * and it has none now, since it was cut or has no legal route. No line was reported when a session opens. count is not NULL. */
/* Nudges the lines of the present scene, whether or not a transaction is open, and sets *count to how many connectors have one.
 * These are the lines that are reported from now on. They are in the order of the connectors' numbers, and can be read by
 * their places from 0 until one of the two calls is done again. The faults are REROUTE_NO_SESSION and REROUTE_MEMORY; after one,
 * the lines that could be read before, those that are reported, and *count are as they were. */
reroute_fault reroute_lines(reroute_session *session, size_t *count);
/* The same for the lines that a commit of the open transaction would give, but these are not reported: what was reported last
 * stays, and so does the transaction. So nothing is lost where it is dropped, and a reroute_lines after its commit says what
 * differs from what was reported before the first preview. If none is open: REROUTE_NO_TRANSACTION; the other faults are
 * REROUTE_NO_SESSION and REROUTE_MEMORY, and after any, all stays as after a fault of reroute_lines. */
reroute_fault reroute_preview(reroute_session *session, size_t *count);
/* A line of those that were asked for last: its connector, its number of corners, and whether it changed. */
typedef struct reroute_line_info { uint32_t connector; size_t corners; bool changed; } reroute_line_info;
/* The line at a place. If there is none, or the session is closed: connector 0, no corners, not changed. */
reroute_line_info reroute_line(reroute_session *session, size_t place);
typedef struct reroute_point { int64_t x, y; } reroute_point;
/* Writes the corner at a place, from 0, of the line at a place. False, and nothing is written, if there is none, or the session
 * is closed. corner is not NULL. */
bool reroute_corner(reroute_session *session, size_t place, size_t at, reroute_point *corner);
/* How many connectors are gone from the lines that were asked for last; 0 if the session is closed. */
size_t reroute_gone_count(reroute_session *session);
/* The number of such a connector, by its place from 0; 0 if there is none, or the session is closed. */
uint32_t reroute_gone(reroute_session *session, size_t place);

/* --- The present scene; an open transaction makes no difference ------------------------------------------------------ */
/* Writes what a connector's route costs: its length and the penalty for each bend, before nudging. False, and nothing is
 * written, if the connector has no route, or the session is closed. cost is not NULL. */
bool reroute_cost(reroute_session *session, uint32_t number, uint64_t *cost);
/* How many searches the session has made; 0 if it is closed. */
uint64_t reroute_searched(reroute_session *session);
/* A path that the routes of two connectors share, before nudging. a stands earlier in the scene than b. Runs are the straight
 * pieces of a route, counted from 1: the path has the runs from first to last of a, and those from b_first to b_last of b, which
 * count down where b goes the other way. back is the end where the path begins, seen along a, and ahead that where it ends:
 * REROUTE_TIE if both routes stop there, else the hand on which a is where they part. side is the hand on which a belongs all
 * along, and where nudging puts it; REROUTE_TIE if there is none: no end parts, or the two part to different hands. */
enum { REROUTE_TIE = 0, REROUTE_LEFT = 1, REROUTE_RIGHT = 2 };
typedef struct reroute_shared_info { uint32_t a, b, first, last, b_first, b_last, back, ahead, side; } reroute_shared_info;
/* Writes the first of these paths, as many as there is room for, and sets *count to how many there are: ask with a room of 0
 * first. They are in the order of a, of b, of first and of b_first. out and count are not NULL. The faults are
 * REROUTE_NO_SESSION and REROUTE_MEMORY; after one nothing is written. Nothing else changes. */
reroute_fault reroute_shared(reroute_session *session, reroute_shared_info *out, size_t room, size_t *count);
/* Sets *count, which is not NULL, to how often the nudged lines cross. The faults are REROUTE_NO_SESSION and REROUTE_MEMORY; after
 * one *count stays. Nothing else changes. */
reroute_fault reroute_crossings(reroute_session *session, uint64_t *count);
/* The verdict on a line: the first rule that it breaks, or what it costs if it breaks none. */
enum {
    REROUTE_LEGAL = 0,
    REROUTE_SLANTED = 1,            /* its segment at the place is neither horizontal nor vertical */
    REROUTE_START_OFF = 2,          /* it does not begin at a pin of its box, or not to a side of that pin; or it has no corner */
    REROUTE_END_OFF = 3,            /* the same of its end */
    REROUTE_HITS = 4,               /* its segment at the place runs through the box with the id, or nearer to it than the buffer */
    REROUTE_MISSES_VIA = 5          /* it does not pass the checkpoint at the place, after those before it */
};
/* The place counts segments or checkpoints from 1; it is 0 for the other breaches and for none. box is 0 but for REROUTE_HITS,
 * and cost is 0 but for REROUTE_LEGAL. */
typedef struct reroute_verdict { uint32_t breach; uint32_t place; int64_t box; uint64_t cost; } reroute_verdict;
/* Writes the verdict on the line with these corners, as that of a connector of the present scene; it need not be drawn there.
 * corners and verdict are not NULL. The faults are REROUTE_UNKNOWN_EDGE, REROUTE_SAME_NODE for a connector from a box to itself,
 * REROUTE_TOO_MANY, REROUTE_OUT_OF_RANGE for the first corner beyond 2 * 10^9, REROUTE_NO_SESSION and REROUTE_MEMORY; after
 * one nothing is written, and after any answer all stays, the open transaction too. */
reroute_fault reroute_check(reroute_session *session, uint32_t connector, const reroute_point *corners, size_t count, reroute_verdict *verdict);

/* --- The scene, by places: that of the open transaction if one is open, otherwise the present one ------------------- */
/* Each call with a place writes what has it, from 0, and returns true; it returns false and writes nothing if nothing has the place,
 * or the session is closed. What is written to is not NULL. Places stay until the next edit, commit, undo or redo. */
/* How many boxes have a place, and how many connectors, those from a box to itself among them; 0 if the session is closed. */
size_t reroute_box_count(reroute_session *session);
size_t reroute_connector_count(reroute_session *session);
/* A box: its id, its centre, its whole width and height, how many pins it has, and whether it is a group, which lines may
 * cross. A width or a height that was not even is told rounded up to an even number. */
typedef struct reroute_box_info { int64_t id, x, y, w, h; size_t pins; bool group; } reroute_box_info;
bool reroute_box(reroute_session *session, size_t place, reroute_box_info *box);
/* A pin of the box at a place: its class, its offset from the box's centre, and the directions in which lines may leave it. */
typedef struct reroute_pin_info { uint32_t pin_class; int64_t dx, dy; reroute_directions directions; } reroute_pin_info;
bool reroute_pin(reroute_session *session, size_t box_place, size_t place, reroute_pin_info *pin);
/* A connector, in the order of their numbers: its number, its ends with the classes of their pins, and how many checkpoints it
 * has. reroute_cost says what its route costs, if it has one in the present scene. */
typedef struct reroute_connector_info { uint32_t number; int64_t from; uint32_t from_class; int64_t to; uint32_t to_class; size_t checkpoints; } reroute_connector_info;
bool reroute_connector(reroute_session *session, size_t place, reroute_connector_info *connector);
/* A checkpoint of the connector at a place, in the order in which the line passes them. */
bool reroute_checkpoint(reroute_session *session, size_t connector_place, size_t place, reroute_point *point);
/* What a bend costs, how far lines keep from boxes, and how far lines side by side are kept apart. */
typedef struct reroute_settings_info { int64_t penalty, buffer, nudge; } reroute_settings_info;
bool reroute_settings(reroute_session *session, reroute_settings_info *settings);

/* --- Texts ----------------------------------------------------------------------------------------------------------- */
/* Writes the diagram that was opened, with the present scene, its lines and the labels put in, as the program writes it;
 * reroute_open opens `graph [ ]`. It writes the first bytes, as many as there is room for, and sets *length to how many there are in all:
 * ask with a room of 0 first. out and length are not NULL. After a fault nothing is written, and nothing else changes. */
reroute_fault reroute_write_gml(reroute_session *session, uint8_t *out, size_t room, size_t *length);
/* Plays the lines of a script, as the program does, up to the first that is refused: the fault is that of the line, and *line
 * becomes its number, from 1; 0 if none is refused, or if memory runs out before the first, and then all stays. What the lines
 * before it committed stays; no transaction is open after it, and one that was open is dropped, also if it was open before the
 * call. Where none is refused, a transaction that is open at the end stays open. script and line are not NULL. */
reroute_fault reroute_play(reroute_session *session, const uint8_t *script, size_t length, size_t *line);

/* --- In C, over the calls above: not part of the library ----------------------------------------------------------- */
/* The name of a fault, as the program prints it before the value; "" if the code is none. */
static inline const char *reroute_fault_name(uint32_t code) {
    static const char *const names[] = {
        "", "X1 Syntax", "X2 NoTransaction", "X3 AlreadyOpen", "X4 UnknownNode", "X5 UnknownEdge", "X6 NodeExists",
        "X7 NodeInUse", "X8 SameNode", "X9 OutOfRange", "X10 PinOutside", "X11 UnknownPinClass", "X12 NoSuchPlace",
        "X13 TooMany", "X14 NothingToUndo", "X15 NothingToRedo", "", "X17 PinInUse"
    };
    static const char *const diagram_names[] = {
        "", "Syntax at", "TooDeep at", "NoGraph", "BadId node", "SameId node", "NoPlace node", "BadPin node", "BadEnd edge",
        "BadVia edge", "BadWeight edge", "BadNumber router", "BadNumber node"
    };
    switch (code) {
    case REROUTE_ROUTER_OUT_OF_RANGE: return "OutOfRange router";
    case REROUTE_NODE_OUT_OF_RANGE: return "OutOfRange node";
    case REROUTE_TOO_MANY_NODES: return "TooMany node";
    case REROUTE_TOO_MANY_EDGES: return "TooMany edge";
    case REROUTE_TOO_MANY_PINS: return "TooMany pin";
    case REROUTE_TOO_MANY_VIAS: return "TooMany via";
    case REROUTE_NO_SESSION: return "NoSession";
    case REROUTE_MEMORY: return "NoMemory";
    default: break;
    }
    if (code <= REROUTE_PIN_IN_USE) return names[code];
    if (code >= 100 && code <= REROUTE_NODE_BAD_NUMBER) return diagram_names[code - 100];
    return "";
}
/* Takes a room by malloc, and opens in it the empty scene, or the scene of a diagram if the text is not NULL. After a fault
 * nothing is to be ended, and the handle may be started again. */
static inline reroute_fault reroute_start_gml(reroute_session *session, const uint8_t *text, size_t length) {
    reroute_fault fault = { REROUTE_MEMORY, 0 };
    session->held = malloc(reroute_size());
    if (!session->held) return fault;
    reroute_ready(session->held);
    fault = text ? reroute_open_gml(session, text, length) : reroute_open(session);
    if (fault.code != REROUTE_OK) {
        free(session->held);
        session->held = NULL;
    }
    return fault;
}
/* The same for the empty scene. */
static inline reroute_fault reroute_start(reroute_session *session) {
    return reroute_start_gml(session, NULL, 0);
}
/* Closes the session and gives its room back. Does nothing if the handle has none. */
static inline void reroute_end(reroute_session *session) {
    if (!session->held) return;
    reroute_close(session);
    free(session->held);
    session->held = NULL;
}
/* Writes the first corners of the line at a place, as many as there is room for, and returns how many were written. out is not
 * NULL. */
static inline size_t reroute_corners(reroute_session *session, size_t place, reroute_point *out, size_t room) {
    size_t at = 0;
    while (at < room && reroute_corner(session, place, at, &out[at])) at++;
    return at;
}
/* Reports the lines, and calls back for each that changed and for each connector that is gone, whose line has no corners, in
 * place of libavoid's callback of a connector. After a fault nothing is called. changed is not NULL; it may read the lines, and
 * not ask for others. */
static inline reroute_fault reroute_for_changed(reroute_session *session, void (*changed)(void *context, reroute_line_info line, size_t place), void *context) {
    size_t count = 0;
    reroute_fault fault = reroute_lines(session, &count);
    for (size_t place = 0; fault.code == REROUTE_OK && place < count; place++) {
        reroute_line_info line = reroute_line(session, place);
        if (line.changed) changed(context, line, place);
    }
    for (size_t place = 0; fault.code == REROUTE_OK && place < reroute_gone_count(session); place++) {
        reroute_line_info line = { reroute_gone(session, place), 0, true };
        changed(context, line, count + place);
    }
    return fault;
}

#ifdef __cplusplus
}
#endif
#endif
