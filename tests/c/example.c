/* Schedules a graph file given by name, checks the table, and prints each cycle's rows. */
#include "modeurwan.h"

#include <stdio.h>

static void print_cycle(const uint8_t *table, struct modeurwan_part rows)
{
    for (size_t at = rows.start; at < rows.end; at += MODEURWAN_ROW_BYTES) {
        const uint8_t *row = table + at;
        unsigned done = row[2] | row[3] << 8 | row[4] << 16;
        unsigned step = row[5] | row[6] << 8 | row[7] << 16;
        printf("cycle %u values %u done %u step %u\n", row[0], row[1], done, step);
    }
}

int main(int count, char **arguments)
{
    static uint8_t graph[MODEURWAN_LARGEST_GRAPH + 1], table[MODEURWAN_LARGEST_TABLE];
    static uint64_t slots[4096];
    FILE *file = count == 2 ? fopen(arguments[1], "rb") : NULL;
    if (file == NULL) {
        fprintf(stderr, "usage: example GRAPH\n");
        return 2;
    }
    size_t length = fread(graph, 1, sizeof graph, file);
    fclose(file);

    struct modeurwan_reading reading = modeurwan_read(graph, length);
    if (reading.number != MODEURWAN_OK) {
        printf("refused %zu at %zu\n", reading.number, reading.place);
        return 1;
    }
    printf("operations %zu classes %zu controls %zu arcs %zu\n", reading.operations, reading.classes, reading.controls,
           reading.arcs);

    struct modeurwan_answer answer =
        modeurwan_schedule(graph, length, slots, sizeof slots / sizeof *slots, table, sizeof table);
    if (answer.number != MODEURWAN_OK) {
        printf("refused %zu at %zu\n", answer.number, answer.place);
        return 1;
    }
    printf("cycles %zu rows %zu states %zu\n", answer.cycles, answer.rows, answer.states);

    size_t table_length = MODEURWAN_TABLE_HEADER + MODEURWAN_ROW_BYTES * answer.rows;
    struct modeurwan_answer checked = modeurwan_check(graph, length, table, table_length);
    printf("checked %zu cycles %zu rows %zu\n", checked.number, checked.cycles, checked.rows);
    for (uint32_t cycle = 1; cycle <= answer.cycles; cycle++)
        print_cycle(table, modeurwan_rows_of(graph, length, table, table_length, cycle));
    return 0;
}
