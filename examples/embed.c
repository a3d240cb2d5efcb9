/*
 * embed.c: the least zero-skew tree of four sinks, by the exact search. The
 * last sink delays the clock by 3 grid units, so its path is to be shorter
 * than the others by that much: it is joined last, where two and two would be
 * joined without the delay.
 *
 *   cc -std=c99 -Wall -Wextra -Iinclude examples/embed.c libskeprafter_c.a
 *
 * Prints, with lengths and delays in half grid units and places doubled and
 * tilted:
 *
 *   total 32, proven in 25 steps
 *   node 0: U 0, V 0, wire 7, path 14 plus delay 0
 *   node 1: U 8, V 8, wire 3, path 14 plus delay 0
 *   node 2: U 14, V 14, wire 3, path 14 plus delay 0
 *   node 3: U 22, V 22, wire 8, path 8 plus delay 6
 *   node 4: U 11, V 11, wire 4, joins 1 and 2
 *   node 5: U 7, V 7, wire 7, joins 0 and 4
 *   node 6: U 14, V 14, wire 0, joins 5 and 3
 */
#include <inttypes.h>
#include <stdio.h>

#include "skeprafter.h"

#define SINKS 4
#define NODES (2 * SINKS - 1)
#define NAMES (2 * (SINKS - 1))
#define SUBSETS (1 << SINKS)

static const int32_t x[SINKS] = {0, 4, 7, 11};
static const int32_t y[SINKS] = {0, 0, 0, 0};
static const uint32_t delays[SINKS] = {0, 0, 0, 3};

static int refused(const uint64_t said[SKEPRAFTER_SAID])
{
    printf("refused %" PRIu64, said[SKEPRAFTER_NUMBER]);
    if (said[SKEPRAFTER_PLACED])
        printf(" at %" PRIu64, said[SKEPRAFTER_PLACE]);
    printf("\n");
    return 1;
}

int main(void)
{
    uint32_t table[SUBSETS], wires[NODES], paths[NODES];
    uint16_t joins[NAMES];
    int32_t u[NODES], v[NODES];
    uint64_t said[SKEPRAFTER_SAID];

    skeprafter_search(x, SINKS, y, SINKS, delays, SINKS, UINT64_MAX, table, SUBSETS,
                      joins, NAMES, u, NODES, v, NODES, wires, NODES, said);
    if (said[SKEPRAFTER_NUMBER] != 0)
        return refused(said);

    /* from the root down: the path to a join is known before its children's */
    paths[NODES - 1] = 0;
    for (int name = NAMES - 1; name >= 0; name--)
        paths[joins[name]] = paths[SINKS + name / 2] + wires[joins[name]];

    printf("total %" PRIu64 ", %s in %" PRIu64 " steps\n", said[SKEPRAFTER_VALUE],
           said[SKEPRAFTER_PROVEN] ? "proven" : "unproven", said[SKEPRAFTER_STEPS]);
    for (int node = 0; node < NODES; node++) {
        printf("node %d: U %" PRId32 ", V %" PRId32 ", wire %" PRIu32, node, u[node],
               v[node], wires[node]);
        if (node < SINKS)
            printf(", path %" PRIu32 " plus delay %" PRIu32 "\n", paths[node],
                   2 * delays[node]);
        else
            printf(", joins %d and %d\n", joins[2 * (node - SINKS)],
                   joins[2 * (node - SINKS) + 1]);
    }
    return 0;
}
