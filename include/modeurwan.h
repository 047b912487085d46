/* Modeurwan: schedules for control graphs, checked. Link libmodeurwan.a.
 *
 * Every function takes any bytes, lengths and numbers: nothing has to be tested first. A caller sees to what C's types do not
 * say: each pointer is good for the length beside it, and is NULL only where that length is 0; a buffer that is written
 * overlaps no other buffer of the call; slots are aligned as uint64_t. No pointer is kept after the call.
 *
 * Files are the graph file and the table file of the project's scope document, edition 1. */
#ifndef MODEURWAN_H
#define MODEURWAN_H

#include <stddef.h>
#include <stdint.h>

#ifdef __cplusplus
extern "C" {
#endif

/* Sizes of edition 1. */
#define MODEURWAN_MOST_OPERATIONS 24
#define MODEURWAN_MOST_CLASSES 8
#define MODEURWAN_MOST_CONTROLS 4
#define MODEURWAN_MOST_ARCS 276
#define MODEURWAN_LARGEST_GRAPH 1480
#define MODEURWAN_MOST_ROWS 384
#define MODEURWAN_TABLE_HEADER 8
#define MODEURWAN_ROW_BYTES 8
#define MODEURWAN_LARGEST_TABLE (MODEURWAN_TABLE_HEADER + MODEURWAN_ROW_BYTES * MODEURWAN_MOST_ROWS)

/* Refusal numbers, in the order in which they are tested; 0 is success. */
enum {
    MODEURWAN_OK = 0,
    MODEURWAN_GRAPH_SHORT = 1,        /* graph shorter than 16 bytes */
    MODEURWAN_GRAPH_MARK = 2,         /* mark or edition differs */
    MODEURWAN_GRAPH_COUNT = 3,        /* a count is above its maximum */
    MODEURWAN_GRAPH_OFFSET = 4,       /* an offset differs */
    MODEURWAN_GRAPH_LENGTH = 5,       /* the length differs; a list to write ends inside a record */
    MODEURWAN_CLASS = 6,              /* class not below the classes; place: operation */
    MODEURWAN_PATH = 7,               /* a path mask's bits; place: operation */
    MODEURWAN_CONTROL = 8,            /* a control's operation; place: control */
    MODEURWAN_BRANCH = 9,             /* a path without its control's path; place: operation */
    MODEURWAN_ARC = 10,               /* an arc's fields or order; place: arc */
    MODEURWAN_JOIN = 11,              /* a literal of the source's path is lost on the way; place: arc */
    MODEURWAN_SLOTS = 12,             /* more reachable states than work slots lent */
    MODEURWAN_NO_SCHEDULE = 13,       /* no table would be accepted */
    MODEURWAN_ROOM = 14,              /* the lent table buffer or output is too short */
    MODEURWAN_TABLE_LAYOUT = 15,      /* length, mark, edition, offset or row count of the table */
    MODEURWAN_TABLE_ORDER = 16,       /* row not above the row before; place: row, from 1 */
    MODEURWAN_ROW_STATE = 17,         /* row's state is not met in its cycle; place: row */
    MODEURWAN_ROW_STEP = 18,          /* row's step is not legal in its state; place: row */
    MODEURWAN_ROW_MISSING = 19,       /* a state that is met has no row; place: 0 for the start, or the row before */
    MODEURWAN_CYCLES = 20             /* cycles is not the last row's cycle */
};

/* What reading a graph gives: a refusal number with its place and zero counts, or 0 with the graph's counts. */
struct modeurwan_reading {
    size_t number, place;
    size_t operations, classes, controls, arcs;
};

/* What scheduling or checking gives: a refusal number with its place and zero counts, or 0 with the counts. */
struct modeurwan_answer {
    size_t number, place;
    size_t cycles, rows, states;
};

/* What writing a graph gives: a refusal number with its place and length 0, or 0 with the length of the file. */
struct modeurwan_writing {
    size_t number, place;
    size_t length;
};

/* A part of a table: the bytes from start on, up to and without end. */
struct modeurwan_part {
    size_t start, end;
};

/* Reads a graph file: refusals 1 to 11. No graph (NULL, 0) is refused by 1, here and in every function that takes a graph. */
struct modeurwan_reading modeurwan_read(const uint8_t *graph, size_t graph_length);

/* Schedules a graph file: refusals 1 to 14, or the shortest table, written to the front of `table`, with its cycles, rows
 * and the number of reachable states. Each slot pays for one reachable state and may come with any content. After refusals
 * 1 to 11 both buffers hold what they held; after any other answer all slots are 0, and only success changes `table`.
 * `graph`, `slots` and `table` do not overlap. No slots (NULL, 0) are refused by 12, and no room (NULL, 0) by 14 where there is
 * a schedule. */
struct modeurwan_answer modeurwan_schedule(const uint8_t *graph, size_t graph_length, uint64_t *slots, size_t slot_count,
                                           uint8_t *table, size_t table_room);

/* Checks a table file for a graph file: refusals 1 to 11 and 15 to 20, or success with the table's cycles and rows. Nothing is
 * written, so graph and table may overlap. No table (NULL, 0) is refused by 15. */
struct modeurwan_answer modeurwan_check(const uint8_t *graph, size_t graph_length, const uint8_t *table,
                                        size_t table_length);

/* The rows of one cycle, as a part of the table: [0, 0) where graph or table is refused, [length, length) where the cycle is 0
 * or above the table's. */
struct modeurwan_part modeurwan_rows_of(const uint8_t *graph, size_t graph_length, const uint8_t *table,
                                        size_t table_length, uint32_t cycle);

/* Writes the one graph file that holds these lists to the front of `output`. The lists hold records one behind the other, every
 * field one byte: an operation is its class, path-true mask and path-false mask; a limit is a unit count; a control is the
 * operation that produces it; an arc is source, target, kind, true mask and false mask. Lengths are in bytes. Counts and
 * offsets come from the lists. Refusals, in this order: 2 for an edition that there is not; 3 for more whole records than the
 * maximum; 5 for a list that ends inside a record; 6 to 11 as reading the file would give them; 14 for an output shorter than
 * the file. After a refusal `output` holds what it held, and after success what it held past the file. MODEURWAN_LARGEST_GRAPH
 * bytes are always room. `output` overlaps no list; the lists may overlap. An empty list is (NULL, 0), and so is no output. */
struct modeurwan_writing modeurwan_write(uint8_t edition, const uint8_t *operations, size_t operations_length,
                                         const uint8_t *limits, size_t limits_length, const uint8_t *controls,
                                         size_t controls_length, const uint8_t *arcs, size_t arcs_length, uint8_t *output,
                                         size_t output_room);

#ifdef __cplusplus
}
#endif

#endif
