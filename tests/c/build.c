/* Builds case A of the scope document from lists and writes its graph file to standard output: compare 0 decides control 0, add
 * 1 stands on its true side, add 2 on its false side, and no arc leads from one to another. */
#include "modeurwan.h"

#include <stdio.h>

enum { COMPARATOR, ADDER }; /* classes */

static const uint8_t limits[] = {[COMPARATOR] = 1, [ADDER] = 1};

/* Class, then the masks of the controls on whose true and false sides an operation stands; bit 0 is control 0. */
static const uint8_t operations[] = {
    COMPARATOR, 0, 0, /* compare 0 */
    ADDER, 1, 0,      /* add 1 */
    ADDER, 0, 1,      /* add 2 */
};

/* The operation that produces each control. */
static const uint8_t controls[] = {0};

int main(void)
{
    uint8_t file[MODEURWAN_LARGEST_GRAPH];
    struct modeurwan_writing writing = modeurwan_write(1, operations, sizeof operations, limits, sizeof limits, controls,
                                                       sizeof controls, NULL, 0, file, sizeof file);
    if (writing.number != MODEURWAN_OK) {
        fprintf(stderr, "refused %zu at %zu\n", writing.number, writing.place);
        return 1;
    }
    if (fwrite(file, 1, writing.length, stdout) != writing.length || fflush(stdout) != 0) {
        fprintf(stderr, "the graph file could not be written\n");
        return 1;
    }
    return 0;
}
