/* Solgwid: a topology engine for plot maps (SQL/MM Spatial, Topo-Geo), proved. docs/MANUAL.md explains every ticket.

       (cd crates/solgwid && rt lib) && cc -Iinclude program.c crates/solgwid/out/libsolgwid.a -o program

   A map is three tables of rows and a head. The caller owns all four and lends them to each call. The library
   allocates nothing and keeps nothing: copy tables and head to undo, write them to a file to store them, free them as
   you like. It is for x86-64 and needs memcpy and memset, no more; this header needs C11 or C++11.

   Every function answers a refusal: 0 (SOLGWID_DONE) where the call was carried out, else the first reason against it.
   Where it is not 0, nothing lent differs and the value stored is 0. A call is safe whatever tables and head hold.

   Points. A map is created for curves of at most 12 points or of at most 6, and the head records which: 12 for screens,
     6 for a plotting program. Refusals 2, 5 and 18 go by the record, and no ticket changes it. Any record but 6 and 12
     is refusal 2 in every call that looks at a map, and at creation too. Rows have room for 12 points in either case.
   How long a list must be. The edges of a face are at most 4 numbers for each edge of the map: an edge has two
     directed edges, and each may be a ring by itself, with its length before it. So 4 * edge_count always suffices,
     and 8,000 for any map; a shorter list may be refusal 20. The contents are one line for each face and each piece,
     and there are no more pieces than nodes: node_count + face_count lines of 3 numbers always suffice, and 2,000 lines
     for any map. A run stores a refusal and a value for each ticket; room for fewer of either is refusal 20.
   NULL. Of length 0, a table, `numbers`, a curve, `list`, `lengths`, `refusals` and `values` may be NULL. `head` and
     `value` may never be, nor may the map of an inline function. Where an inline function stores a value the pointer to
     it may be NULL, and the value is dropped.
   Threads. There is no state between calls, so any number of maps may be worked on at once. One map is for one thread
     at a time; solgwid_edges_of_face and solgwid_contents only read, so several threads may list one map together.
   Stack, as measured with an older kit. A call takes up to 68 KB; solgwid_empty_map takes under 1 KB. Where many edge
     ends leave one node into one quadrant, each of them takes 112 bytes more: 181 KB for 999 of them, and 517 KB for
     4,000, the most that tables can hold. solgwid_contents takes 356 KB whatever it is lent, and more where very many
     lines follow one another: 537 KB for 1,000 wells, 777 KB for 999 plots one in the other. 1 MB is enough for any
     call.
   Memory. Things lent in one call must not overlap, and each is aligned as its type asks.
   Version. SOLGWID_VERSION is the number of a landing (docs/LANDINGS.md). It rises with each landing that changes what
     a call takes or does. */

#ifndef SOLGWID_H
#define SOLGWID_H

#include <assert.h>
#include <stddef.h>
#include <stdint.h>

#ifdef __cplusplus
extern "C" {
#endif

#define SOLGWID_VERSION 18

/* ---- limits and widths */

#define SOLGWID_MAX_NODES 1000          /* rows of a table */
#define SOLGWID_MAX_EDGES 2000
#define SOLGWID_MAX_FACES 1000
#define SOLGWID_MAX_POINTS 12           /* points of a curve; at least 2 */
#define SOLGWID_PLOTTER_POINTS 6        /* in a map for a plotting program; 12 and 6 are the records of points */
#define SOLGWID_MAX_COORDINATE 1048575  /* coordinates are 0 to this */
#define SOLGWID_LAST_NUMBER 999999      /* the last number of a node, edge or face */

#define SOLGWID_NODE_WIDTH 4            /* numbers of a row, and of the head */
#define SOLGWID_EDGE_WIDTH 32
#define SOLGWID_FACE_WIDTH 5
#define SOLGWID_HEAD_WIDTH 7
#define SOLGWID_LINE_WIDTH 3            /* numbers of a line of the contents */

/* ---- rows: each table is filled from the front in rising number order, and rows past its count are all 0 */

typedef struct solgwid_point {
    int64_t x, y;
} solgwid_point;

typedef struct solgwid_node {
    int64_t number, x, y;
    int64_t face;                       /* the containing face; -1 where an edge ends */
} solgwid_node;

/* A directed edge is e (start to end) or -e (end to start). Next left follows e, next right follows -e. */
typedef struct solgwid_edge {
    int64_t number, start, end;         /* start and end are node numbers */
    int64_t next_left, next_right;
    int64_t left_face, right_face;
    int64_t point_count;
    solgwid_point points[SOLGWID_MAX_POINTS];
} solgwid_edge;

/* The rectangle is the least one around all points of edges with the face on a side. Face 0, and a face that no edge
   has on a side, has zeros. Every ticket sets the rectangles that it affects. Tables with other rectangles
   get refusal 2. */
typedef struct solgwid_face {
    int64_t number;                     /* face 0, the universal face, always exists */
    int64_t least_x, least_y;
    int64_t greatest_x, greatest_y;
} solgwid_face;

typedef struct solgwid_head {
    int64_t node_count, edge_count, face_count;
    int64_t next_node, next_edge, next_face;
    int64_t points;                     /* the record: how many points a curve has at most, 6 or 12 */
} solgwid_head;

/* A line of the contents. A piece is what a chain of edges connects, or a node on no edge by itself. */
typedef struct solgwid_line {
    int64_t depth;                      /* 0 for face 0; one more than that of the line that it stands under */
    int64_t is_piece;                   /* 0 for a face, 1 for a piece */
    int64_t number;                     /* of the face, or of the lowest node of the piece */
} solgwid_line;

static_assert(sizeof(solgwid_node) == SOLGWID_NODE_WIDTH * sizeof(int64_t), "a node row is 4 numbers");
static_assert(sizeof(solgwid_edge) == SOLGWID_EDGE_WIDTH * sizeof(int64_t), "an edge row is 32 numbers");
static_assert(sizeof(solgwid_face) == SOLGWID_FACE_WIDTH * sizeof(int64_t), "a face row is 5 numbers");
static_assert(sizeof(solgwid_head) == SOLGWID_HEAD_WIDTH * sizeof(int64_t), "the head is 7 numbers");
static_assert(sizeof(solgwid_line) == SOLGWID_LINE_WIDTH * sizeof(int64_t), "a line is 3 numbers");

/* The three tables, each with its room in rows, and the head. solgwid_map_empty makes the empty map in it; a copy of
   this struct shares the tables. */
typedef struct solgwid_map {
    solgwid_node *nodes;
    size_t node_room;
    solgwid_edge *edges;
    size_t edge_room;
    solgwid_face *faces;
    size_t face_room;
    solgwid_head head;
} solgwid_map;

/* ---- kinds of tickets: the first number of a ticket */

typedef enum solgwid_kind {
    SOLGWID_ADD_ISO_NODE = 1,
    SOLGWID_MOVE_ISO_NODE = 2,
    SOLGWID_REMOVE_ISO_NODE = 3,
    SOLGWID_ADD_ISO_EDGE = 4,
    SOLGWID_REMOVE_ISO_EDGE = 5,
    SOLGWID_CHANGE_EDGE_GEOM = 6,
    SOLGWID_NEW_EDGES_SPLIT = 7,
    SOLGWID_MOD_EDGE_SPLIT = 8,
    SOLGWID_NEW_EDGE_HEAL = 9,
    SOLGWID_MOD_EDGE_HEAL = 10,
    SOLGWID_ADD_EDGE_NEW_FACES = 11,
    SOLGWID_ADD_EDGE_MOD_FACE = 12,
    SOLGWID_REM_EDGE_NEW_FACE = 13,
    SOLGWID_REM_EDGE_MOD_FACE = 14
} solgwid_kind;

/* ---- refusals */

typedef enum solgwid_refusal {
    SOLGWID_DONE = 0,
    SOLGWID_NOT_WHOLE = 1,              /* 1 and 2: the lending program */
    SOLGWID_NOT_IN_FORM = 2,            /* at creation: a record of points other than 6 and 12 */
    SOLGWID_BAD_TICKET = 3,             /* 3 to 19 and 22 to 24: the person at the screen */
    SOLGWID_MISSING_ROW = 4,
    SOLGWID_OUT_OF_RANGE = 5,           /* 5 and 18 go by the record of points */
    SOLGWID_REDUNDANT_POINT = 6,
    SOLGWID_NOT_SIMPLE = 7,
    SOLGWID_ENDS_OFF_NODES = 8,
    SOLGWID_NOT_ISOLATED = 9,
    SOLGWID_POINT_TAKEN = 10,
    SOLGWID_SAME_DIRECTION = 11,
    SOLGWID_FACES_DIFFER = 12,
    SOLGWID_NOT_ON_EDGE = 13,
    SOLGWID_CROSSES_NODE = 14,
    SOLGWID_CROSSES_EDGE = 15,          /* where a ticket is looked at, 23 comes just before 15, and 24 just after */
    SOLGWID_NOT_ADJACENT = 16,
    SOLGWID_OTHER_EDGES = 17,
    SOLGWID_TOO_MANY_POINTS = 18,
    SOLGWID_ORDER_CHANGES = 19,
    SOLGWID_NO_ROOM = 20,               /* 20: tables or list too small; 21: the map's age */
    SOLGWID_NUMBERS_USED_UP = 21,
    SOLGWID_SIDES_CHANGE = 22,          /* after 19 and before 20 */
    SOLGWID_OVERLAPS_EDGE = 23,
    SOLGWID_TOUCHES_EDGE = 24,
    SOLGWID_NOT_NESTED = 28             /* contents alone, before 20; never for a map that tickets made */
} solgwid_refusal;

/* A refusal as a sentence. */
static inline const char *solgwid_refusal_text(uint64_t refusal) {
    switch (refusal) {
    case SOLGWID_DONE: return "done";
    case SOLGWID_NOT_WHOLE: return "a table is not whole rows or exceeds a limit, or the face table is empty";
    case SOLGWID_NOT_IN_FORM:
        return "the tables and the head are not in form, or the record of points is neither 6 nor 12";
    case SOLGWID_BAD_TICKET: return "the kind is unknown, or its count of numbers is wrong";
    case SOLGWID_MISSING_ROW: return "a named node, edge or face is missing";
    case SOLGWID_OUT_OF_RANGE:
        return "a coordinate is out of range, or the curve has too few points or more than the map allows";
    case SOLGWID_REDUNDANT_POINT: return "neighbouring points of the curve are equal";
    case SOLGWID_NOT_SIMPLE: return "the curve meets itself other than by closing";
    case SOLGWID_ENDS_OFF_NODES: return "the curve does not start and end on its nodes' points";
    case SOLGWID_NOT_ISOLATED: return "the node or edge is not isolated, or one node is both ends";
    case SOLGWID_POINT_TAKEN: return "another node is at the point, or an isolated node would lie on an edge";
    case SOLGWID_SAME_DIRECTION: return "the curve leaves a node in the direction of another edge";
    case SOLGWID_FACES_DIFFER:
        return "the given face is not the point's, or the curve leaves its nodes into different faces";
    case SOLGWID_NOT_ON_EDGE: return "the split point is not on the edge";
    case SOLGWID_CROSSES_NODE: return "a node lies on the curve between its ends";
    case SOLGWID_CROSSES_EDGE: return "the curve crosses another edge";
    case SOLGWID_NOT_ADJACENT: return "the edges are one and the same, or share no node";
    case SOLGWID_OTHER_EDGES: return "no shared node has exactly two edge ends";
    case SOLGWID_TOO_MANY_POINTS: return "the healed curve would have more points than the map allows";
    case SOLGWID_ORDER_CHANGES: return "the order of the edges about an end would change";
    case SOLGWID_NO_ROOM: return "the rows after the edit, or the list, would not fit";
    case SOLGWID_NUMBERS_USED_UP: return "a number above 999,999 would be needed";
    case SOLGWID_SIDES_CHANGE: return "an isolated node or another piece would change sides, or a face turn inside out";
    case SOLGWID_OVERLAPS_EDGE: return "the curve lies along another edge for a stretch";
    case SOLGWID_TOUCHES_EDGE: return "the curve touches another edge other than at an end of both";
    case SOLGWID_NOT_NESTED: return "the contents would list a face or a piece twice, or miss one";
    default: return "unknown refusal";
    }
}

/* ---- the five proved functions; lengths count numbers, not rows */

/* The empty map for curves of at most `points` points, 6 or 12, whatever the tables and the head held. Refusals: 1, and
   2 where `points` is anything else. */
uint64_t solgwid_empty_map(int64_t *nodes, size_t nodes_length, int64_t *edges, size_t edges_length,
                           int64_t *faces, size_t faces_length, int64_t head[SOLGWID_HEAD_WIDTH], int64_t points);

/* One ticket: its kind and the numbers after it. */
uint64_t solgwid_ticket(int64_t *nodes, size_t nodes_length, int64_t *edges, size_t edges_length,
                        int64_t *faces, size_t faces_length, int64_t head[SOLGWID_HEAD_WIDTH],
                        const int64_t *numbers, size_t numbers_length, int64_t *value);

/* The rings of a face, each as its length and then its directed edges. The value is the count of numbers written; the
   rest of the list is untouched. Refusals: 1, 2, 4, 20. */
uint64_t solgwid_edges_of_face(const int64_t *nodes, size_t nodes_length, const int64_t *edges, size_t edges_length,
                               const int64_t *faces, size_t faces_length, const int64_t head[SOLGWID_HEAD_WIDTH],
                               int64_t face, int64_t *list, size_t list_length, int64_t *value);

/* The contents of the sheet, as an indented list: a face lists the pieces in it, by lowest node number, and a piece the
   other faces it bounds, by number; each line is followed at once by those under it. It starts at face 0. A line is
   three numbers, as in solgwid_line. The value is the count of numbers written; the rest of the list is untouched.
   Refusals: 1, 2, 28, 20. */
uint64_t solgwid_contents(const int64_t *nodes, size_t nodes_length, const int64_t *edges, size_t edges_length,
                          const int64_t *faces, size_t faces_length, const int64_t head[SOLGWID_HEAD_WIDTH],
                          int64_t *list, size_t list_length, int64_t *value);

/* A list of tickets from the empty map for `points` points on, whatever the tables and the head held: the tickets'
   numbers one after the other, and how many each has. Where the lengths ask for more numbers than there are, the last
   tickets have what is left. A refusal and a value for each ticket; the answer is that of the whole call: 0, 1, 2 (as
   for the empty map) or 20. */
uint64_t solgwid_run(int64_t *nodes, size_t nodes_length, int64_t *edges, size_t edges_length,
                     int64_t *faces, size_t faces_length, int64_t head[SOLGWID_HEAD_WIDTH], int64_t points,
                     const int64_t *numbers, size_t numbers_length, const size_t *lengths, size_t lengths_length,
                     uint64_t *refusals, size_t refusals_length, int64_t *values, size_t values_length);

/* ---- the same over a map */

/* The tables of a map as the first six arguments of a proved function. */
#define SOLGWID_TABLES(map) \
    (int64_t *)(map)->nodes, (map)->node_room * SOLGWID_NODE_WIDTH, \
    (int64_t *)(map)->edges, (map)->edge_room * SOLGWID_EDGE_WIDTH, \
    (int64_t *)(map)->faces, (map)->face_room * SOLGWID_FACE_WIDTH

/* `points` is the record: SOLGWID_MAX_POINTS or SOLGWID_PLOTTER_POINTS. */
static inline solgwid_refusal solgwid_map_empty(solgwid_map *map, int64_t points) {
    return (solgwid_refusal)solgwid_empty_map(SOLGWID_TABLES(map), (int64_t *)&map->head, points);
}

static inline solgwid_refusal solgwid_map_ticket(solgwid_map *map, const int64_t *numbers, size_t numbers_length,
                                                 int64_t *value) {
    int64_t dropped;
    return (solgwid_refusal)solgwid_ticket(SOLGWID_TABLES(map), (int64_t *)&map->head, numbers, numbers_length,
                                           value ? value : &dropped);
}

/* `written` is how many numbers of the list were written. */
static inline solgwid_refusal solgwid_map_edges_of_face(const solgwid_map *map, int64_t face, int64_t *list,
                                                        size_t list_length, int64_t *written) {
    int64_t dropped;
    return (solgwid_refusal)solgwid_edges_of_face(SOLGWID_TABLES(map), (const int64_t *)&map->head, face, list,
                                                  list_length, written ? written : &dropped);
}

/* `line_count` is how many lines were written, of at most `line_room`. */
static inline solgwid_refusal solgwid_map_contents(const solgwid_map *map, solgwid_line *lines, size_t line_room,
                                                   size_t *line_count) {
    int64_t written;
    uint64_t refusal = solgwid_contents(SOLGWID_TABLES(map), (const int64_t *)&map->head, (int64_t *)lines,
                                        line_room * SOLGWID_LINE_WIDTH, &written);
    if (line_count) *line_count = (size_t)written / SOLGWID_LINE_WIDTH;
    return (solgwid_refusal)refusal;
}

/* `points` is the record. `refusals` and `values` have room for an answer to each ticket, so the call answers 0, 1
   or 2. */
static inline solgwid_refusal solgwid_map_run(solgwid_map *map, int64_t points,
                                              const int64_t *numbers, size_t numbers_length,
                                              const size_t *lengths, size_t ticket_count,
                                              uint64_t *refusals, int64_t *values) {
    return (solgwid_refusal)solgwid_run(SOLGWID_TABLES(map), (int64_t *)&map->head, points, numbers, numbers_length,
                                        lengths, ticket_count, refusals, ticket_count, values, ticket_count);
}

#undef SOLGWID_TABLES

/* ---- the fourteen tickets by the names of SQL/MM */

/* A ticket of some numbers and then a curve. Inner points straight between their neighbours are dropped, so that the
   row may have fewer points than were sent. Every count of points above 12 gets the same answer (5, unless 1, 2 or 4
   comes first), so the first 13 stand for all, and the buffer need not grow. */
static inline solgwid_refusal solgwid_map_curve(solgwid_map *map, const int64_t *first, size_t first_length,
                                                const solgwid_point *points, size_t point_count, int64_t *value) {
    int64_t numbers[3 + 2 * (SOLGWID_MAX_POINTS + 1)];
    size_t length = 0;
    while (length < first_length) {
        numbers[length] = first[length];
        length++;
    }
    for (size_t i = 0; i < point_count && i <= SOLGWID_MAX_POINTS; i++) {
        numbers[length++] = points[i].x;
        numbers[length++] = points[i].y;
    }
    return solgwid_map_ticket(map, numbers, length, value);
}

/* `face` is the face that the point must lie in, or -1. */
static inline solgwid_refusal solgwid_add_iso_node(solgwid_map *map, int64_t face, int64_t x, int64_t y,
                                                   int64_t *node) {
    int64_t numbers[] = {SOLGWID_ADD_ISO_NODE, face, x, y};
    return solgwid_map_ticket(map, numbers, 4, node);
}

static inline solgwid_refusal solgwid_move_iso_node(solgwid_map *map, int64_t node, int64_t x, int64_t y) {
    int64_t numbers[] = {SOLGWID_MOVE_ISO_NODE, node, x, y};
    return solgwid_map_ticket(map, numbers, 4, NULL);
}

static inline solgwid_refusal solgwid_remove_iso_node(solgwid_map *map, int64_t node) {
    int64_t numbers[] = {SOLGWID_REMOVE_ISO_NODE, node};
    return solgwid_map_ticket(map, numbers, 2, NULL);
}

static inline solgwid_refusal solgwid_add_iso_edge(solgwid_map *map, int64_t start, int64_t end,
                                                   const solgwid_point *points, size_t point_count, int64_t *edge) {
    int64_t first[] = {SOLGWID_ADD_ISO_EDGE, start, end};
    return solgwid_map_curve(map, first, 3, points, point_count, edge);
}

static inline solgwid_refusal solgwid_remove_iso_edge(solgwid_map *map, int64_t edge) {
    int64_t numbers[] = {SOLGWID_REMOVE_ISO_EDGE, edge};
    return solgwid_map_ticket(map, numbers, 2, NULL);
}

/* Links and faces stay, so a curve that would leave a well or another piece in another face, or turn a face inside
   out, is refusal 22. */
static inline solgwid_refusal solgwid_change_edge_geom(solgwid_map *map, int64_t edge,
                                                       const solgwid_point *points, size_t point_count) {
    int64_t first[] = {SOLGWID_CHANGE_EDGE_GEOM, edge};
    return solgwid_map_curve(map, first, 2, points, point_count, NULL);
}

/* The edge goes; its halves are the two last edges, the start half first. */
static inline solgwid_refusal solgwid_new_edges_split(solgwid_map *map, int64_t edge, int64_t x, int64_t y,
                                                      int64_t *node) {
    int64_t numbers[] = {SOLGWID_NEW_EDGES_SPLIT, edge, x, y};
    return solgwid_map_ticket(map, numbers, 4, node);
}

/* The start half keeps the edge's number; the other is the last edge. */
static inline solgwid_refusal solgwid_mod_edge_split(solgwid_map *map, int64_t edge, int64_t x, int64_t y,
                                                     int64_t *node) {
    int64_t numbers[] = {SOLGWID_MOD_EDGE_SPLIT, edge, x, y};
    return solgwid_map_ticket(map, numbers, 4, node);
}

/* Both edges go; the healed one is new. They join at the end node of the first if both share it and exactly two edge
   ends meet there, else at its start node on the same terms. */
static inline solgwid_refusal solgwid_new_edge_heal(solgwid_map *map, int64_t edge, int64_t other, int64_t *healed) {
    int64_t numbers[] = {SOLGWID_NEW_EDGE_HEAL, edge, other};
    return solgwid_map_ticket(map, numbers, 3, healed);
}

/* The same; the healed edge keeps the number of the first. */
static inline solgwid_refusal solgwid_mod_edge_heal(solgwid_map *map, int64_t edge, int64_t other) {
    int64_t numbers[] = {SOLGWID_MOD_EDGE_HEAL, edge, other};
    return solgwid_map_ticket(map, numbers, 3, NULL);
}

/* Where a face is split it goes, and both sides are new faces; face 0 stays, and one side is new. */
static inline solgwid_refusal solgwid_add_edge_new_faces(solgwid_map *map, int64_t start, int64_t end,
                                                         const solgwid_point *points, size_t point_count,
                                                         int64_t *edge) {
    int64_t first[] = {SOLGWID_ADD_EDGE_NEW_FACES, start, end};
    return solgwid_map_curve(map, first, 3, points, point_count, edge);
}

/* Where a face is split it stays, and one side is a new face. */
static inline solgwid_refusal solgwid_add_edge_mod_face(solgwid_map *map, int64_t start, int64_t end,
                                                        const solgwid_point *points, size_t point_count,
                                                        int64_t *edge) {
    int64_t first[] = {SOLGWID_ADD_EDGE_MOD_FACE, start, end};
    return solgwid_map_curve(map, first, 3, points, point_count, edge);
}

/* The face is the one that remains of two, and -1 where one face was on both sides. */
static inline solgwid_refusal solgwid_rem_edge_new_face(solgwid_map *map, int64_t edge, int64_t *face) {
    int64_t numbers[] = {SOLGWID_REM_EDGE_NEW_FACE, edge};
    return solgwid_map_ticket(map, numbers, 2, face);
}

/* Of two faces the one with the lower number remains. */
static inline solgwid_refusal solgwid_rem_edge_mod_face(solgwid_map *map, int64_t edge) {
    int64_t numbers[] = {SOLGWID_REM_EDGE_MOD_FACE, edge};
    return solgwid_map_ticket(map, numbers, 2, NULL);
}

#ifdef __cplusplus
}
#endif

#endif
