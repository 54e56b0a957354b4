/* The square sheet: a loop around a plot, the loop split, a boundary across the plot. Then a split taken back, a curve
   sent with points along its straight runs, a well in the plot and what lies in what, a map for a plotting program.

       (cd crates/solgwid && rt lib) && cc -Iinclude examples/square.c crates/solgwid/out/libsolgwid.a -o square */
#include <inttypes.h>
#include <stdio.h>
#include <string.h>
#include "solgwid.h"

enum { ROWS = 200 };

static solgwid_node nodes[ROWS];
static solgwid_edge edges[ROWS];
static solgwid_face faces[ROWS];
static solgwid_map map = {nodes, ROWS, edges, ROWS, faces, ROWS, {0, 0, 0, 0, 0, 0, 0}};
static int64_t value;

/* The answer to a call that stored `value`. */
static void print_answer(const char *call, solgwid_refusal refusal) {
    if (refusal == SOLGWID_DONE) printf("%s: %" PRId64 "\n", call, value);
    else printf("%s: refused, %d: %s\n", call, (int)refusal, solgwid_refusal_text(refusal));
}

static void print_edges_of_face(int64_t face) {
    int64_t list[4 * ROWS];
    solgwid_map_edges_of_face(&map, face, list, 4 * ROWS, &value);
    printf("edges of face %" PRId64 ":", face);
    for (int64_t i = 0; i < value; i++) printf(" %" PRId64, list[i]);
    printf("\n");
}

/* What is in a plot, or bounded by a piece, stands under it. */
static void print_contents(void) {
    solgwid_line lines[2 * ROWS];
    size_t line_count;
    if (solgwid_map_contents(&map, lines, 2 * ROWS, &line_count) != SOLGWID_DONE) return;
    for (size_t i = 0; i < line_count; i++) {
        for (int64_t level = 0; level < lines[i].depth; level++) printf("  ");
        printf("%s %" PRId64 "\n", lines[i].is_piece ? "piece" : "face", lines[i].number);
    }
}

int main(void) {
    const solgwid_point loop[] = {{0, 0}, {10, 0}, {10, 10}, {0, 10}, {0, 0}};
    const solgwid_point across[] = {{0, 0}, {10, 10}};
    if (solgwid_map_empty(&map, SOLGWID_MAX_POINTS) != SOLGWID_DONE) return 1;
    print_answer("node", solgwid_add_iso_node(&map, -1, 0, 0, &value));
    print_answer("loop", solgwid_add_edge_mod_face(&map, 1, 1, loop, 5, &value));
    print_answer("split", solgwid_mod_edge_split(&map, 1, 10, 10, &value));
    print_answer("boundary", solgwid_add_edge_mod_face(&map, 1, 2, across, 2, &value));
    print_answer("heal", solgwid_new_edge_heal(&map, 1, 2, &value));
    print_edges_of_face(1);
    print_edges_of_face(2);
    print_answer("face left", solgwid_rem_edge_new_face(&map, 3, &value));

    /* the loop is split where a sluice will stand; the sluice is cancelled, and every row is as before */
    static solgwid_node nodes_before[ROWS];
    static solgwid_edge edges_before[ROWS];
    static solgwid_face faces_before[ROWS];
    memcpy(nodes_before, nodes, sizeof nodes);
    memcpy(edges_before, edges, sizeof edges);
    memcpy(faces_before, faces, sizeof faces);
    int64_t half = map.head.next_edge;
    print_answer("sluice", solgwid_mod_edge_split(&map, 1, 10, 4, &value));
    solgwid_refusal refusal = solgwid_mod_edge_heal(&map, 1, half);
    int same = !memcmp(nodes_before, nodes, sizeof nodes) && !memcmp(edges_before, edges, sizeof edges)
        && !memcmp(faces_before, faces, sizeof faces);
    printf("taken back: %s, %s\n", solgwid_refusal_text(refusal), same ? "every row as before" : "rows differ");

    /* the surveyor sends the first half again, with points along the way: they are dropped, and the row is the same */
    const solgwid_point surveyed[] = {{0, 0}, {3, 0}, {8, 0}, {10, 0}, {10, 4}, {10, 10}};
    refusal = solgwid_change_edge_geom(&map, 1, surveyed, 6);
    printf("surveyed: %s, 6 points sent, %" PRId64 " in the row, %s\n", solgwid_refusal_text(refusal),
           edges[0].point_count, memcmp(edges_before, edges, sizeof edges) ? "which differs" : "which is as before");

    /* a well in the plot, and the contents of the sheet */
    print_answer("well", solgwid_add_iso_node(&map, -1, 5, 5, &value));
    print_contents();

    /* a map for a plotting program: a line has at most 6 points, drawn or healed */
    const solgwid_point line[] = {{0, 0}, {1, 1}, {2, 0}, {3, 1}, {4, 0}, {5, 1}, {6, 0}};
    print_answer("a map for 7 points", solgwid_map_empty(&map, 7));
    if (solgwid_map_empty(&map, SOLGWID_PLOTTER_POINTS) != SOLGWID_DONE) return 1;
    solgwid_add_iso_node(&map, -1, 0, 0, NULL);
    solgwid_add_iso_node(&map, -1, 5, 1, NULL);
    solgwid_add_iso_node(&map, -1, 6, 0, NULL);
    print_answer("7 points", solgwid_add_edge_mod_face(&map, 1, 3, line, 7, &value));
    print_answer("6 points", solgwid_add_edge_mod_face(&map, 1, 2, line, 6, &value));
    print_answer("the rest", solgwid_add_edge_mod_face(&map, 2, 3, line + 5, 2, &value));
    print_answer("heal to 7", solgwid_new_edge_heal(&map, 1, 2, &value));
    return 0;
}
