/* The refusals that the lending program causes (1, 2), full tables and short lists (20), an old map (21), a plot
   redrawn so that its well would lie outside (22), a ditch that lies along a boundary (23), crosses it (15) or touches
   it (24), and a face that no contents could list (28). Nothing lent differs after any of them.

       (cd crates/solgwid && rt lib) && cc -Iinclude examples/refusals.c crates/solgwid/out/libsolgwid.a -o refusals */
#include <stdio.h>
#include <string.h>
#include "solgwid.h"

enum { ROWS = 10 };

/* All that is lent, so that it can be compared as a whole. */
static struct loan {
    solgwid_node nodes[SOLGWID_MAX_NODES + 1];
    solgwid_edge edges[ROWS];
    solgwid_face faces[ROWS];
    solgwid_map map;
    int64_t list[4 * ROWS], value;
    solgwid_line lines[ROWS];
} lent, before;

/* A map of one plot. Each case below spoils it, or outgrows it, in its own way. */
static void draw_plot(void) {
    const solgwid_map map = {lent.nodes, ROWS, lent.edges, ROWS, lent.faces, ROWS, {0, 0, 0, 0, 0, 0, 0}};
    const solgwid_point loop[] = {{0, 0}, {10, 0}, {10, 10}, {0, 10}, {0, 0}};
    lent.map = map;
    solgwid_map_empty(&lent.map, SOLGWID_MAX_POINTS);
    solgwid_add_iso_node(&lent.map, -1, 0, 0, NULL);
    solgwid_add_edge_mod_face(&lent.map, 1, 1, loop, 5, NULL);
    memcpy(&before, &lent, sizeof lent);
}

static void print_refusal(const char *cause, uint64_t refusal) {
    printf("%d %s: %s\n", (int)refusal, cause, solgwid_refusal_text(refusal));
    if (memcmp(&before, &lent, sizeof lent)) printf("but something lent differs\n");
    draw_plot();
}

/* The plot redrawn with one corner cut off, once that corner has a well. */
static void redraw_past_well(const char *cause) {
    const solgwid_point smaller[] = {{0, 0}, {10, 0}, {3, 3}, {0, 10}, {0, 0}};
    solgwid_add_iso_node(&lent.map, 1, 8, 8, NULL);
    memcpy(&before, &lent, sizeof lent);
    print_refusal(cause, solgwid_change_edge_geom(&lent.map, 1, smaller, 5));
}

/* A ditch along the points, between two new nodes to the right of the plot. */
static void draw_ditch(const char *cause, const solgwid_point *points, size_t point_count) {
    solgwid_add_iso_node(&lent.map, 0, 12, 2, NULL);
    solgwid_add_iso_node(&lent.map, 0, 12, 8, NULL);
    memcpy(&before, &lent, sizeof lent);
    print_refusal(cause, solgwid_add_iso_edge(&lent.map, 2, 3, points, point_count, &lent.value));
}

static void try_well(const char *cause) {
    memcpy(&before, &lent, sizeof lent);
    print_refusal(cause, solgwid_add_iso_node(&lent.map, -1, 5, 5, &lent.value));
}

int main(void) {
    const solgwid_point along[] = {{12, 2}, {10, 4}, {10, 6}, {12, 8}};
    const solgwid_point across[] = {{12, 2}, {9, 5}, {12, 8}}, touching[] = {{12, 2}, {10, 5}, {12, 8}};
    int64_t *nodes = (int64_t *)lent.nodes, *edges = (int64_t *)lent.edges, *faces = (int64_t *)lent.faces;
    draw_plot();
    print_refusal("half a row", solgwid_empty_map(nodes, 6, edges, SOLGWID_EDGE_WIDTH, faces, SOLGWID_FACE_WIDTH,
                                                  (int64_t *)&lent.map.head, SOLGWID_MAX_POINTS));
    lent.map.node_room = SOLGWID_MAX_NODES + 1;
    try_well("a row above the limit");
    lent.map.face_room = 0;
    try_well("no face row");
    lent.edges[0].next_left = -1;
    try_well("a spoiled link");
    lent.faces[1].greatest_x = 11;
    try_well("a spoiled rectangle");
    lent.map.head.node_count = 2;
    try_well("a spoiled count");
    lent.map.node_room = 1;
    try_well("a full table");
    print_refusal("a short list", solgwid_map_edges_of_face(&lent.map, 1, lent.list, 1, &lent.value));
    lent.map.head.next_node = SOLGWID_LAST_NUMBER + 1;
    try_well("the last number given");
    redraw_past_well("a well left outside");
    draw_ditch("a ditch along the boundary", along, 4);
    draw_ditch("a ditch across it", across, 3);
    draw_ditch("a ditch that touches it", touching, 3);
    /* a face row more, which nothing bears: in form, but no list of tickets leaves it */
    lent.faces[2].number = lent.map.head.next_face++;
    lent.map.head.face_count++;
    memcpy(&before, &lent, sizeof lent);
    print_refusal("a face that nothing bears", solgwid_map_contents(&lent.map, lent.lines, ROWS, NULL));
    return 0;
}
