/* Holds include/modeurwan.h to the library. The numbers in the answers differ, so that two fields of a struct in exchanged
 * places are seen; and every function is called with NULL and length 0. Says what is wrong, and ends in 0 if nothing is. */
#include "modeurwan.h"

#include <stdio.h>
#include <string.h>

enum { SLOTS = 64, CLASS_OF_OPERATION_2 = 16 + 3 + 3 * 2 };

/* Case J of the scope document: 4 operations, 3 classes, 1 control, 2 arcs; its table has 3 cycles and 5 rows. */
static const uint8_t graph[] = {
    0x48, 0x53, 1, 4, 3, 1, 2, 0, 16, 0, 19, 0, 31, 0, 32, 0, /* header */
    1, 1, 1,                                                  /* limits */
    0, 0, 0, 1, 1, 0, 1, 0, 1, 2, 0, 0,                       /* operations */
    0,                                                        /* control */
    1, 3, 0, 1, 0, 2, 3, 0, 0, 1,                             /* arcs */
};

/* The lists of a graph, as modeurwan_write takes them. */
struct list {
    const uint8_t *bytes;
    size_t length;
};

struct lists {
    struct list operations, limits, controls, arcs;
};

/* Case J's lists, where they stand in its file; their lengths differ. */
static const struct lists lists_of_graph = {
    .operations = {graph + 19, 12}, .limits = {graph + 16, 3}, .controls = {graph + 31, 1}, .arcs = {graph + 32, 10}};
static const struct list no_list = {NULL, 0};

static uint64_t slots[SLOTS];
static uint8_t table[MODEURWAN_LARGEST_TABLE];
static size_t table_length;
static int wrong;

static void same(const char *call, const char *field, size_t found, size_t due)
{
    if (found != due) {
        printf("%s: %s is %zu, and not %zu\n", call, field, found, due);
        wrong = 1;
    }
}

static void same_reading(const char *call, struct modeurwan_reading found, struct modeurwan_reading due)
{
    same(call, "number", found.number, due.number);
    same(call, "place", found.place, due.place);
    same(call, "operations", found.operations, due.operations);
    same(call, "classes", found.classes, due.classes);
    same(call, "controls", found.controls, due.controls);
    same(call, "arcs", found.arcs, due.arcs);
}

static void same_answer(const char *call, struct modeurwan_answer found, struct modeurwan_answer due)
{
    same(call, "number", found.number, due.number);
    same(call, "place", found.place, due.place);
    same(call, "cycles", found.cycles, due.cycles);
    same(call, "rows", found.rows, due.rows);
    same(call, "states", found.states, due.states);
}

static void same_part(const char *call, struct modeurwan_part found, struct modeurwan_part due)
{
    same(call, "start", found.start, due.start);
    same(call, "end", found.end, due.end);
}

static void same_writing(const char *call, struct modeurwan_writing found, struct modeurwan_writing due)
{
    same(call, "number", found.number, due.number);
    same(call, "place", found.place, due.place);
    same(call, "length", found.length, due.length);
}

static struct modeurwan_writing write_lists(struct lists lists, uint8_t *output, size_t room)
{
    return modeurwan_write(1, lists.operations.bytes, lists.operations.length, lists.limits.bytes, lists.limits.length,
                           lists.controls.bytes, lists.controls.length, lists.arcs.bytes, lists.arcs.length, output, room);
}

/* All bytes of a buffer are `byte`. */
static void all_are(const char *call, const void *buffer, size_t size, uint8_t byte)
{
    for (size_t i = 0; i < size; i++)
        same(call, "a byte of a buffer", ((const uint8_t *)buffer)[i], byte);
}

/* Successes. The table is kept for what follows. */
static void successes(void)
{
    same_reading("read", modeurwan_read(graph, sizeof graph),
                 (struct modeurwan_reading){.operations = 4, .classes = 3, .controls = 1, .arcs = 2});
    same_answer("schedule", modeurwan_schedule(graph, sizeof graph, slots, SLOTS, table, sizeof table),
                (struct modeurwan_answer){.cycles = 3, .rows = 5, .states = 17});
    table_length = MODEURWAN_TABLE_HEADER + 5 * MODEURWAN_ROW_BYTES;
    same_answer("check", modeurwan_check(graph, sizeof graph, table, table_length),
                (struct modeurwan_answer){.cycles = 3, .rows = 5});
    same_part("rows of cycle 2", modeurwan_rows_of(graph, sizeof graph, table, table_length, 2),
              (struct modeurwan_part){.start = 16, .end = 32});
}

/* Refusals whose number is not their place: a class that there is not, at operation 2; a state that is not met, in row 3. */
static void refusals(void)
{
    uint8_t bad_graph[sizeof graph], bad_table[MODEURWAN_LARGEST_TABLE];
    memcpy(bad_graph, graph, sizeof graph);
    memcpy(bad_table, table, table_length);
    bad_graph[CLASS_OF_OPERATION_2] = 3;
    bad_table[MODEURWAN_TABLE_HEADER + 2 * MODEURWAN_ROW_BYTES + 2] = 3;
    struct modeurwan_answer of_graph = {.number = MODEURWAN_CLASS, .place = 2};
    struct modeurwan_answer of_table = {.number = MODEURWAN_ROW_STATE, .place = 3};
    same_reading("read, refused", modeurwan_read(bad_graph, sizeof bad_graph),
                 (struct modeurwan_reading){.number = MODEURWAN_CLASS, .place = 2});
    same_answer("schedule, refused", modeurwan_schedule(bad_graph, sizeof bad_graph, slots, SLOTS, table, sizeof table),
                of_graph);
    same_answer("check, graph refused", modeurwan_check(bad_graph, sizeof bad_graph, table, table_length), of_graph);
    same_answer("check, table refused", modeurwan_check(graph, sizeof graph, bad_table, table_length), of_table);
}

/* NULL and length 0 for the graph: every function refuses it as too short, whatever else is lent, and writes nothing. */
static void no_graph(void)
{
    struct modeurwan_answer too_short = {.number = MODEURWAN_GRAPH_SHORT};
    struct modeurwan_part front = {.start = 0, .end = 0};
    uint8_t lent[MODEURWAN_LARGEST_TABLE];
    memset(slots, 0xa5, sizeof slots);
    memset(lent, 0xa5, sizeof lent);
    same_reading("read NULL", modeurwan_read(NULL, 0), (struct modeurwan_reading){.number = MODEURWAN_GRAPH_SHORT});
    same_answer("schedule NULL", modeurwan_schedule(NULL, 0, slots, SLOTS, lent, sizeof lent), too_short);
    same_answer("schedule NULL, no slots", modeurwan_schedule(NULL, 0, NULL, 0, lent, sizeof lent), too_short);
    same_answer("schedule NULL, no table", modeurwan_schedule(NULL, 0, slots, SLOTS, NULL, 0), too_short);
    same_answer("schedule NULL, nothing lent", modeurwan_schedule(NULL, 0, NULL, 0, NULL, 0), too_short);
    all_are("schedule NULL", slots, sizeof slots, 0xa5);
    all_are("schedule NULL", lent, sizeof lent, 0xa5);
    same_answer("check NULL", modeurwan_check(NULL, 0, table, table_length), too_short);
    same_answer("check NULL, no table", modeurwan_check(NULL, 0, NULL, 0), too_short);
    same_part("rows of NULL", modeurwan_rows_of(NULL, 0, table, table_length, 1), front);
    same_part("rows of NULL, no table", modeurwan_rows_of(NULL, 0, NULL, 0, 1), front);
}

/* NULL and length 0 for the slots or the table: no slot pays for the start, no room holds a header, no file is a table. */
static void no_slots_no_table(void)
{
    struct modeurwan_answer no_slot = {.number = MODEURWAN_SLOTS}, no_room = {.number = MODEURWAN_ROOM};
    struct modeurwan_answer no_table = {.number = MODEURWAN_TABLE_LAYOUT};
    uint8_t lent[MODEURWAN_LARGEST_TABLE];
    memset(slots, 0xa5, sizeof slots);
    memset(lent, 0xa5, sizeof lent);
    same_answer("schedule, no slots", modeurwan_schedule(graph, sizeof graph, NULL, 0, lent, sizeof lent), no_slot);
    all_are("schedule, no slots", lent, sizeof lent, 0xa5);
    same_answer("schedule, nothing lent", modeurwan_schedule(graph, sizeof graph, NULL, 0, NULL, 0), no_slot);
    same_answer("schedule, no table", modeurwan_schedule(graph, sizeof graph, slots, SLOTS, NULL, 0), no_room);
    all_are("schedule, no table", slots, sizeof slots, 0);
    same_answer("check, no table", modeurwan_check(graph, sizeof graph, NULL, 0), no_table);
    same_part("rows of no table", modeurwan_rows_of(graph, sizeof graph, NULL, 0, 1), (struct modeurwan_part){0, 0});
}

/* The lists of case J give its file; lists that overlap are as good as others. */
static void written(void)
{
    static const uint8_t zeros[3];
    struct lists overlapping = {.operations = {zeros, 3}, .limits = {zeros, 1}, .controls = {zeros, 1}};
    uint8_t output[MODEURWAN_LARGEST_GRAPH];
    memset(output, 0xa5, sizeof output);
    same_writing("write", write_lists(lists_of_graph, output, sizeof output),
                 (struct modeurwan_writing){.length = sizeof graph});
    for (size_t i = 0; i < sizeof graph; i++)
        same("write", "a byte of the file", output[i], graph[i]);
    all_are("write", output + sizeof graph, sizeof output - sizeof graph, 0xa5);
    same_writing("write overlapping lists", write_lists(overlapping, output, sizeof output),
                 (struct modeurwan_writing){.length = 21});
    same_reading("read what overlapping lists gave", modeurwan_read(output, 21),
                 (struct modeurwan_reading){.operations = 1, .classes = 1, .controls = 1});
}

/* Refusals of the writer, one whose number is not its place: a class that there is not, at operation 2. */
static void not_written(void)
{
    uint8_t operations[12], output[sizeof graph];
    struct lists lists = lists_of_graph;
    memcpy(operations, lists.operations.bytes, sizeof operations);
    memset(output, 0xa5, sizeof output);
    operations[3 * 2] = 3;
    lists.operations.bytes = operations;
    same_writing("write, refused", write_lists(lists, output, sizeof output),
                 (struct modeurwan_writing){.number = MODEURWAN_CLASS, .place = 2});
    same_writing("write, edition 2", modeurwan_write(2, NULL, 0, NULL, 0, NULL, 0, NULL, 0, output, sizeof output),
                 (struct modeurwan_writing){.number = MODEURWAN_GRAPH_MARK});
    same_writing("write, a byte too little", write_lists(lists_of_graph, output, sizeof output - 1),
                 (struct modeurwan_writing){.number = MODEURWAN_ROOM});
    all_are("write, refused", output, sizeof output, 0xa5);
}

/* NULL and length 0 for each list of case J, for all of them, and for the output: what needs the list is refused, and a file
 * without arcs, or with nothing but its header, is a file. */
static void no_lists_no_output(void)
{
    struct modeurwan_writing no_room = {.number = MODEURWAN_ROOM};
    struct lists no_operations = lists_of_graph, no_limits = lists_of_graph, no_controls = lists_of_graph;
    struct lists no_arcs = lists_of_graph, nothing = {no_list, no_list, no_list, no_list};
    uint8_t output[MODEURWAN_LARGEST_GRAPH];
    no_operations.operations = no_limits.limits = no_controls.controls = no_arcs.arcs = no_list;
    same_writing("write, no operations", write_lists(no_operations, output, sizeof output),
                 (struct modeurwan_writing){.number = MODEURWAN_CONTROL, .place = 0});
    same_writing("write, no limits", write_lists(no_limits, output, sizeof output),
                 (struct modeurwan_writing){.number = MODEURWAN_CLASS, .place = 0});
    same_writing("write, no controls", write_lists(no_controls, output, sizeof output),
                 (struct modeurwan_writing){.number = MODEURWAN_PATH, .place = 1});
    same_writing("write, no arcs", write_lists(no_arcs, output, sizeof output), (struct modeurwan_writing){.length = 32});
    same_reading("read what has no arcs", modeurwan_read(output, 32),
                 (struct modeurwan_reading){.operations = 4, .classes = 3, .controls = 1});
    same_writing("write nothing", write_lists(nothing, output, sizeof output), (struct modeurwan_writing){.length = 16});
    same_reading("read nothing", modeurwan_read(output, 16), (struct modeurwan_reading){.number = MODEURWAN_OK});
    same_writing("write, no output", write_lists(lists_of_graph, NULL, 0), no_room);
    same_writing("write nothing, no output", write_lists(nothing, NULL, 0), no_room);
}

int main(void)
{
    successes();
    refusals();
    no_graph();
    no_slots_no_table();
    written();
    not_written();
    no_lists_no_output();
    return wrong;
}
