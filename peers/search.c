/*
 * The exact search with an unlimited budget, tuned to examine splits by
 * vectors instead of one by one.
 *
 * A subset's number is cut in two: the low three sinks, and the high rest. A
 * set of three has 27 ways to be dealt to a first part, a second part and
 * neither: these are the lanes. For each high set two rows of lanes are kept,
 * one with what the first part costs in each lane and one with what the
 * second costs; then one split of a high set, all three low sinks included,
 * is one sum and one minimum of rows, without a gather. Splits whose second
 * part has no high sink are examined one by one.
 *
 * Only the least sums are worked out for all subsets. The first split that
 * has it is looked for afterwards, for the subsets of the tree alone.
 */
#include "peers.h"

#define LOW 3
#define BLOCK (1 << LOW)
#define LANES 28 /* 27, and one that is never looked at */
#define FAR 100000000u /* above any sum of two entries */

/* First and second part by lane, grouped by their union: 7, 3, 5, 6, 1, 2, 4, 0. */
static const uint8_t FIRST[LANES] = {0, 1, 2, 3, 4, 5, 6, 7, 0, 1, 2, 3, 0, 1,
                                     4, 5, 0, 2, 4, 6, 0, 1, 0, 2, 0, 4, 0, 0};
static const uint8_t SECOND[LANES] = {7, 6, 5, 4, 3, 2, 1, 0, 3, 2, 1, 0, 5, 4,
                                      1, 0, 6, 4, 2, 0, 1, 0, 2, 0, 4, 0, 0, 0};
/* Where the lanes of a union begin; there are two to the size of it. */
static const uint8_t BEGIN[BLOCK] = {26, 20, 22, 8, 24, 12, 16, 0};

typedef struct {
    uint32_t first[LANES], second[LANES];
} Row;

static inline uint32_t least(uint32_t a, uint32_t b) { return a < b ? a : b; }
static inline int32_t greater(int32_t a, int32_t b) { return a > b ? a : b; }

/* Ends of the boxes of up to 64 subsets, the least ones negated. */
typedef struct {
    int32_t end[4][64];
} Boxes;

static void subset_boxes(const int32_t *x, const int32_t *y, const uint32_t *delays, size_t n,
                         Boxes *boxes)
{
    for (int k = 0; k < 4; k++)
        boxes->end[k][0] = -4000000;
    for (size_t sink = 0; sink < n; sink++) {
        const int32_t u = x[sink] + y[sink], v = x[sink] - y[sink];
        const int32_t w = (int32_t)delays[sink];
        const int32_t own[4] = {w - u, w + u, w - v, w + v};
        const size_t half = (size_t)1 << sink;
        for (int k = 0; k < 4; k++)
            for (size_t s = 0; s < half; s++)
                boxes->end[k][half + s] = greater(boxes->end[k][s], own[k]);
    }
}

/* The diameters of all subsets; those of the empty set do not matter. */
static void subset_diameters(const int32_t *x, const int32_t *y, const uint32_t *delays,
                             size_t n, int32_t *d)
{
    const size_t few = n < 6 ? n : 6;
    Boxes low, high;
    subset_boxes(x, y, delays, few, &low);
    subset_boxes(x + few, y + few, delays + few, n - few, &high);
    for (size_t h = 0; h < (size_t)1 << (n - few); h++) {
        const int32_t a = high.end[0][h], b = high.end[1][h];
        const int32_t c = high.end[2][h], e = high.end[3][h];
        for (size_t l = 0; l < (size_t)1 << few; l++) {
            int32_t wu = greater(a, low.end[0][l]) + greater(b, low.end[1][l]);
            int32_t wv = greater(c, low.end[2][l]) + greater(e, low.end[3][l]);
            *d++ = greater(wu, wv);
        }
    }
}

/* The least sum over all splits of a subset, one by one. */
static uint32_t plain_least(size_t subset, const uint32_t *table)
{
    const size_t lowest = subset & -subset, others = subset ^ lowest;
    uint32_t sum = FAR;
    for (size_t rest = 0; rest != others; rest = (rest - others) & others)
        sum = least(sum, table[lowest | rest] + table[others ^ rest]);
    return sum;
}

/* Fills in the rows of a high set from its finished block. */
static inline void fill_row(const uint32_t *restrict block, Row *restrict row)
{
#pragma GCC unroll 28
    for (int k = 0; k < LANES; k++) {
        row->first[k] = block[FIRST[k]];
        row->second[k] = block[SECOND[k]];
    }
}

/* Fills the block of the subsets with this high set of two or more sinks. */
static void fill_block(size_t high, const int32_t *d, uint32_t *table, const Row *rows)
{
    const size_t lowest = high & -high, others = high ^ lowest;
    uint32_t sums[LANES];
    for (int k = 0; k < LANES; k++)
        sums[k] = FAR;
    for (size_t rest = 0; rest != others; rest = (rest - others) & others) {
        const uint32_t *first = rows[lowest | rest].first;
        const uint32_t *second = rows[others ^ rest].second;
        for (int k = 0; k < LANES; k++)
            sums[k] = least(sums[k], first[k] + second[k]);
    }
    /* Worked out away from the table, so that it can stay in registers. */
    uint32_t block[BLOCK], small[BLOCK];
    for (size_t low = 0; low < BLOCK; low++)
        small[low] = table[low];
#pragma GCC unroll 8
    for (size_t low = 0; low < BLOCK; low++) {
        uint32_t sum = FAR;
#pragma GCC unroll 8
        for (size_t k = 0; k < (size_t)1 << __builtin_popcountl(low); k++)
            sum = least(sum, sums[BEGIN[low] + k]);
#pragma GCC unroll 8
        for (size_t part = low; part != 0; part = (part - 1) & low)
            sum = least(sum, block[low ^ part] + small[part]);
        block[low] = sum + (uint32_t)d[BLOCK * high + low];
    }
    for (size_t low = 0; low < BLOCK; low++)
        table[BLOCK * high + low] = block[low];
}

static void fill_table(const int32_t *d, size_t n, uint32_t *table)
{
    Row rows[1 << (12 - LOW)];
    const size_t low_end = (size_t)1 << (n < LOW ? n : LOW);
    table[0] = 0;
    for (size_t s = 1; s < low_end; s++)
        table[s] = s & (s - 1) ? plain_least(s, table) + (uint32_t)d[s] : 0;
    if (n <= LOW)
        return;
    for (size_t high = 1; high < (size_t)1 << (n - LOW); high++) {
        const size_t from = BLOCK * high;
        if (high & (high - 1)) {
            fill_block(high, d, table, rows);
        } else {
            table[from] = 0;
            for (size_t s = from + 1; s < from + BLOCK; s++)
                table[s] = plain_least(s, table) + (uint32_t)d[s];
        }
        fill_row(table + from, &rows[high]);
    }
}

/* The part with the lowest sink of the first split that has the least sum. */
static size_t first_part(size_t subset, const uint32_t *table, const int32_t *d)
{
    const size_t lowest = subset & -subset, others = subset ^ lowest;
    const uint32_t sum = table[subset] - (uint32_t)d[subset];
    size_t rest = 0;
    while (table[lowest | rest] + table[others ^ rest] != sum)
        rest = (rest - others) & others;
    return lowest | rest;
}

typedef struct {
    const uint32_t *table;
    const int32_t *d;
    uint16_t *joins;
    size_t next; /* number of the next join */
} Numbering;

/* Numbers the two parts of a subset, then their join; gives its number. */
static size_t number_subset(Numbering *numbering, size_t subset)
{
    if ((subset & (subset - 1)) == 0)
        return (size_t)__builtin_ctzl(subset);
    const size_t part = first_part(subset, numbering->table, numbering->d);
    const size_t first = number_subset(numbering, part);
    const size_t second = number_subset(numbering, subset ^ part);
    *numbering->joins++ = (uint16_t)first;
    *numbering->joins++ = (uint16_t)second;
    return numbering->next++;
}

uint64_t peer_search(const int32_t *x, const int32_t *y, const uint32_t *delays, size_t n,
                     uint32_t *table, uint16_t *joins, int32_t *u, int32_t *v,
                     uint32_t *wires)
{
    int32_t d[1 << 12];
    if (!peer_in_range(x, y, delays, n))
        return PEER_REFUSED;
    subset_diameters(x, y, delays, n, d);
    fill_table(d, n, table);
    Numbering numbering = {table, d, joins, n};
    number_subset(&numbering, ((size_t)1 << n) - 1);
    return peer_embed(x, y, delays, n, joins, u, v, wires);
}
