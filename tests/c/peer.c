/* Serves the library over its standard input and output, for tests on a processor that cannot link it: the library is for
 * x86-64, and this program runs there under an emulator. A request is a byte that says which function, the numbers and then
 * the buffers of the call; an answer is the numbers of the result and the buffers that the function was lent to write. */
#include "modeurwan.h"

#include <stdio.h>
#include <stdlib.h>

static void receive(void *to, size_t size)
{
    if (fread(to, 1, size, stdin) != size)
        exit(2);
}

static void send(const void *from, size_t size)
{
    if (fwrite(from, 1, size, stdout) != size)
        exit(2);
}

static uint64_t number(void)
{
    uint64_t value;
    receive(&value, sizeof value);
    return value;
}

static void *buffer(size_t size)
{
    void *bytes = malloc(size + 1);
    if (bytes == NULL)
        exit(2);
    receive(bytes, size);
    return bytes;
}

static void serve_read(void)
{
    uint64_t length = number();
    uint8_t *graph = buffer(length);
    struct modeurwan_reading reading = modeurwan_read(graph, length);
    send(&reading, sizeof reading);
    free(graph);
}

static void serve_schedule(void)
{
    uint64_t length = number(), slot_count = number(), room = number();
    uint8_t *graph = buffer(length);
    uint64_t *slots = buffer(slot_count * sizeof *slots);
    uint8_t *table = buffer(room);
    struct modeurwan_answer answer = modeurwan_schedule(graph, length, slots, slot_count, table, room);
    send(&answer, sizeof answer);
    send(slots, slot_count * sizeof *slots);
    send(table, room);
    free(graph);
    free(slots);
    free(table);
}

static void serve_check(void)
{
    uint64_t length = number(), table_length = number();
    uint8_t *graph = buffer(length), *table = buffer(table_length);
    struct modeurwan_answer answer = modeurwan_check(graph, length, table, table_length);
    send(&answer, sizeof answer);
    free(graph);
    free(table);
}

static void serve_rows_of(void)
{
    uint64_t length = number(), table_length = number(), cycle = number();
    uint8_t *graph = buffer(length), *table = buffer(table_length);
    struct modeurwan_part part = modeurwan_rows_of(graph, length, table, table_length, (uint32_t)cycle);
    send(&part, sizeof part);
    free(graph);
    free(table);
}

static void serve_write(void)
{
    uint64_t edition = number();
    uint64_t operations_length = number(), limits_length = number(), controls_length = number(), arcs_length = number();
    uint64_t room = number();
    uint8_t *operations = buffer(operations_length), *limits = buffer(limits_length);
    uint8_t *controls = buffer(controls_length), *arcs = buffer(arcs_length), *output = buffer(room);
    struct modeurwan_writing writing =
        modeurwan_write((uint8_t)edition, operations, operations_length, limits, limits_length, controls, controls_length, arcs,
                        arcs_length, output, room);
    send(&writing, sizeof writing);
    send(output, room);
    free(operations);
    free(limits);
    free(controls);
    free(arcs);
    free(output);
}

int main(void)
{
    for (int function = getchar(); function != EOF; function = getchar()) {
        switch (function) {
        case 'r': serve_read(); break;
        case 's': serve_schedule(); break;
        case 'c': serve_check(); break;
        case 'q': serve_rows_of(); break;
        case 'w': serve_write(); break;
        default: return 2;
        }
        fflush(stdout);
    }
    return 0;
}
