/* Friday's levy: a week of tickets in one call, then a walk round every plot. Then a screen's question: which plots may
   have a point in a window? At last an office's: what lies in what?

       (cd crates/solgwid && rt lib) && cc -Iinclude examples/levy.c crates/solgwid/out/libsolgwid.a -o levy
       ./levy < examples/meadow.txt */
#include <inttypes.h>
#include <stdio.h>
#include <stdlib.h>
#include <string.h>
#include "solgwid.h"

enum { ROWS = 200, TICKETS = 100, LINE = 1000 };

static solgwid_node nodes[ROWS];
static solgwid_edge edges[ROWS];
static solgwid_face faces[ROWS];
static solgwid_map map = {nodes, ROWS, edges, ROWS, faces, ROWS, {0, 0, 0, 0, 0, 0, 0}};
static int64_t numbers[TICKETS * LINE], values[TICKETS], list[4 * ROWS];
static size_t lengths[TICKETS], number_count, ticket_count;
static uint64_t refusals[TICKETS];

/* Twice the area between a directed edge and the origin. Round a ring these add up to the ring's own. */
static int64_t doubled_area(int64_t directed) {
    const solgwid_edge *edge = edges;
    while (edge->number != llabs(directed)) edge++;
    int64_t sum = 0;
    for (int64_t i = 1; i < edge->point_count; i++)
        sum += edge->points[i - 1].x * edge->points[i].y - edge->points[i].x * edge->points[i - 1].y;
    return directed < 0 ? -sum : sum;
}

/* The rings of a face, and twice its area: that of its outer ring less those of its holes. */
static void print_face(int64_t face) {
    int64_t written, area = 0;
    if (solgwid_map_edges_of_face(&map, face, list, 4 * ROWS, &written) != SOLGWID_DONE) exit(1);
    printf("face %" PRId64 ":", face);
    for (int64_t i = 0; i < written; i += list[i] + 1) {
        printf(" (");
        for (int64_t j = 1; j <= list[i]; j++) {
            printf("%s%" PRId64, j > 1 ? " " : "", list[i + j]);
            area += doubled_area(list[i + j]);
        }
        printf(")");
    }
    if (face != 0) printf(" doubled area %" PRId64, area);
    printf("\n");
}

/* The plots whose rectangles meet a window. The first row is face 0, which has none. */
static void print_window(solgwid_point least, solgwid_point greatest) {
    printf("window (%" PRId64 ",%" PRId64 ") to (%" PRId64 ",%" PRId64 "):", least.x, least.y, greatest.x, greatest.y);
    for (int64_t i = 1; i < map.head.face_count; i++)
        if (faces[i].least_x <= greatest.x && least.x <= faces[i].greatest_x
            && faces[i].least_y <= greatest.y && least.y <= faces[i].greatest_y)
            printf(" %" PRId64, faces[i].number);
    printf("\n");
}

/* The contents of the sheet: what is in a plot, or bounded by a piece, stands under it. */
static void print_contents(void) {
    static solgwid_line lines[2 * ROWS];
    size_t line_count;
    if (solgwid_map_contents(&map, lines, 2 * ROWS, &line_count) != SOLGWID_DONE) exit(1);
    for (size_t i = 0; i < line_count; i++)
        printf("%*s%s %" PRId64 "\n", (int)(2 * lines[i].depth), "", lines[i].is_piece ? "piece" : "face",
               lines[i].number);
}

int main(void) {
    const solgwid_point least = {12, 7}, greatest = {23, 12};
    char line[LINE + 2];
    for (; ticket_count < TICKETS && fgets(line, LINE + 2, stdin); ticket_count++)
        for (char *word = strtok(line, " \n"); word; word = strtok(NULL, " \n"), lengths[ticket_count]++)
            numbers[number_count++] = atoll(word);
    solgwid_refusal refusal = solgwid_map_run(&map, SOLGWID_MAX_POINTS, numbers, number_count, lengths, ticket_count,
                                              refusals, values);
    if (refusal != SOLGWID_DONE) return 1;
    for (size_t i = 0; i < ticket_count; i++)
        if (refusals[i] != SOLGWID_DONE)
            printf("ticket %zu: refused, %" PRIu64 ": %s\n", i + 1, refusals[i], solgwid_refusal_text(refusals[i]));
    for (int64_t i = 0; i < map.head.face_count; i++) print_face(faces[i].number);
    print_window(least, greatest);
    print_contents();
    return 0;
}
