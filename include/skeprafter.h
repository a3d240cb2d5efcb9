/*
 * skeprafter.h: zero-skew clock trees over a proved library.
 *
 * Link with libskeprafter_c.a (x86-64-v2). All that a call leaves behind is in
 * what it was lent.
 *
 * Measures. A sink has whole x and y from -1,000,000 to 1,000,000 and a whole
 * delay w from 0 to 1,000,000, in grid units; several sinks may share a place.
 * The clock is to reach every sink over a path whose length plus the sink's
 * delay is the same for all. A sink's tilted coordinates are u = x + y and
 * v = x - y, and its box runs from u - w to u + w and from v - w to v + w.
 * Places of tree nodes are stored doubled: U = 2u, V = 2v. Lengths (wires,
 * totals) count HALF grid units. Plane position in quarters of a grid unit:
 * U + V for x, U - V for y.
 *
 * Nodes. Of n sinks, nodes 0 to n-1 are the sinks in input order and nodes n
 * to 2n-2 are the joins; the last node is the root (sink 0 where n = 1). A
 * joining order is a flat list of 2(n-1) node numbers; entries 2i and 2i+1
 * are the children of node n+i, both smaller than n+i and different, and
 * every node but the root is named exactly once.
 *
 * Lists. A list passes as a pointer and its length in ENTRIES (not bytes).
 * Pointers are aligned for their type and not null, also where the length is
 * 0, and lead to as many initialised entries. What is lent for writing
 * overlaps nothing else that is passed, and nobody else writes to what is
 * lent during the call.
 *
 * Refusals. An accepted call changes only the entries that its answer fills,
 * from the front of each lent list; a longer list keeps the rest. A refused
 * call changes nothing but `said`. The numbers, and the place with each:
 *
 *   1  the lists of x, y and delays differ in length     no place
 *   2  no sink                                           no place
 *   3  over 512 sinks (over 12 for the search)           no place
 *   4  a coordinate outside its range                    the lowest such sink
 *   5  withdrawn: no call says it
 *   6  the joining order is wrong                        wrong count: the smaller
 *                                                        of whole pairs given and
 *                                                        n-1; else the first bad
 *                                                        pair
 *   7  a lent list is shorter than what is filled in it  no place
 *   8  a file is not of the form                         a byte offset
 *   9  tags 4 or 5 are not what embedding gives          wrong count: no place;
 *                                                        else the lowest node
 *  15  a delay outside its range                         the lowest such sink
 *
 * Places count from 0, and place 0 is a place: look at said[1] to tell it
 * from none. Where several refusals apply, the first in the order named at
 * each call is the one said.
 */
#ifndef SKEPRAFTER_H
#define SKEPRAFTER_H

#include <stddef.h>
#include <stdint.h>

#ifdef __cplusplus
extern "C" {
#endif

/*
 * What a call says: always six numbers, all written by every call that takes
 * them. On a refusal value, steps and proven are 0; on an acceptance number,
 * placed and place are.
 */
enum {
    SKEPRAFTER_NUMBER = 0, /* refusal number, or 0 if accepted */
    SKEPRAFTER_PLACED = 1, /* 1 if the refusal has a place, else 0 */
    SKEPRAFTER_PLACE = 2,  /* that place, or 0 */
    SKEPRAFTER_VALUE = 3,  /* total wire, bytes written or sinks read, else 0 */
    SKEPRAFTER_STEPS = 4,  /* splits examined (search only, else 0) */
    SKEPRAFTER_PROVEN = 5, /* 1 if proven least (search only, else 0) */
    SKEPRAFTER_SAID = 6    /* how many numbers are said */
};

/* ------------------------------------------------------------- boxes --- */

/*
 * The box of all sinks, least and greatest u, least and greatest v: each the
 * least or greatest end of a sink's own box. Its four raw numbers go to `box`;
 * read them with skeprafter_ends only.
 * Refusals: 1 to 4, 15. Value: 0.
 */
void skeprafter_box_of(const int32_t *x, size_t nx, const int32_t *y, size_t ny,
                       const uint32_t *delays, size_t nd, uint32_t box[4],
                       uint64_t said[6]);

/*
 * Widens a held box where it stands by one more sink.
 * Refusals: 4, then 15, place 0, for a sink outside its range. Value: 0.
 */
void skeprafter_widen(uint32_t box[4], int32_t x, int32_t y, uint32_t delay,
                      uint64_t said[6]);

/*
 * The ends of a held box, in tilted coordinates: least u, greatest u, least
 * v, greatest v. Never refuses.
 */
void skeprafter_ends(const uint32_t box[4], int64_t ends[4]);

/*
 * The diameter of a held box: the larger of the two absolute differences of
 * its ends. For a box of sinks it is, in grid units, the greatest of what two
 * of them are apart (their Manhattan distance plus both delays) and of twice
 * the delay of one. Never refuses.
 */
uint32_t skeprafter_diameter(const uint32_t box[4]);

/* ------------------------------------------------------------- trees --- */

/*
 * Embeds a given joining order. Fills 2n-1 entries each of u and v (doubled
 * places) and of wires (the wire to the parent; the root's is 0).
 * Refusals: 1 to 4, 15, 6, 7. Value: the total wire in half units.
 */
void skeprafter_embed(const int32_t *x, size_t nx, const int32_t *y, size_t ny,
                      const uint32_t *delays, size_t nd, const uint16_t *joins,
                      size_t nj, int32_t *u, size_t nu, int32_t *v, size_t nv,
                      uint32_t *wires, size_t nw, uint64_t said[6]);

/*
 * Joins by least diameter: again and again the two live nodes whose union has
 * the least diameter, then the lower first, then the lower second number.
 * Fills 2(n-1) entries of joins, lower number first in each pair.
 * Refusals: 1 to 4, 15, 7. Value: 0.
 */
void skeprafter_join_nearest(const int32_t *x, size_t nx, const int32_t *y, size_t ny,
                             const uint32_t *delays, size_t nd, uint16_t *joins,
                             size_t nj, uint64_t said[6]);

/*
 * Joins by least diameter and embeds the result. Fills 2(n-1) entries of
 * joins and 2n-1 each of u, v and wires.
 * Refusals: 1 to 4, 15, 7. Value: the total wire in half units.
 */
void skeprafter_embed_nearest(const int32_t *x, size_t nx, const int32_t *y, size_t ny,
                              const uint32_t *delays, size_t nd, uint16_t *joins,
                              size_t nj, int32_t *u, size_t nu, int32_t *v, size_t nv,
                              uint32_t *wires, size_t nw, uint64_t said[6]);

/*
 * The exact search over subsets, for at most 12 sinks. It examines splits
 * until all F(n) = (3^n + 1)/2 - 2^n are done or `budget` of them are. With a
 * budget of at least F(n) (UINT64_MAX will always do) the tree is the least
 * one and proven; else it is the tree of joining by least diameter, unproven.
 * Fills 2^n entries of table, 2(n-1) of joins, and 2n-1 each of u, v and
 * wires. The table goes by subset, bit i for sink i: a finished subset holds
 * its best, the one in progress its diameter plus the least sum examined so
 * far, one of two or more sinks without an examined split UINT32_MAX, and the
 * empty set and single sinks 0.
 * Refusals: 1 to 4 with 3 from 13 sinks on, 15, 7. Value: the total wire in half
 * units; steps: the smaller of budget and F(n); proven: 1 or 0.
 */
void skeprafter_search(const int32_t *x, size_t nx, const int32_t *y, size_t ny,
                       const uint32_t *delays, size_t nd, uint64_t budget,
                       uint32_t *table, size_t nt, uint16_t *joins, size_t nj,
                       int32_t *u, size_t nu, int32_t *v, size_t nv, uint32_t *wires,
                       size_t nw, uint64_t said[6]);

/* ------------------------------------------------------------- files --- */

/*
 * Files hold no delays: every sink of a file has delay 0, and its writers and
 * readers take and give none.
 */

/*
 * Writes a sink file (tags 1, 2): 7 + 8n bytes of out.
 * Refusals: 1 to 4, 7. Value: the bytes written.
 */
void skeprafter_write_sinks(const int32_t *x, size_t nx, const int32_t *y, size_t ny,
                            uint8_t *out, size_t no, uint64_t said[6]);

/*
 * Writes a joined file (tags 1 to 3): 6 + 12n bytes of out.
 * Refusals: 1 to 4, 6, 7. Value: the bytes written.
 */
void skeprafter_write_joined(const int32_t *x, size_t nx, const int32_t *y, size_t ny,
                             const uint16_t *joins, size_t nj, uint8_t *out, size_t no,
                             uint64_t said[6]);

/*
 * Writes a tree file (tags 1 to 5): 36n bytes of out, at most 18,432. Places
 * and wires are worked out from sinks and joins.
 * Refusals: 1 to 4, 6, 7. Value: the bytes written.
 */
void skeprafter_write_tree(const int32_t *x, size_t nx, const int32_t *y, size_t ny,
                           const uint16_t *joins, size_t nj, uint8_t *out, size_t no,
                           uint64_t said[6]);

/*
 * Reads a sink file. Fills n entries each of x and y.
 * Refusals: 8, 2 to 4, 7. Value: the number of sinks.
 */
void skeprafter_read_sinks(const uint8_t *file, size_t nf, int32_t *x, size_t nx,
                           int32_t *y, size_t ny, uint64_t said[6]);

/*
 * Reads a joined file. Fills n entries each of x and y, 2(n-1) of joins.
 * Refusals: 8, 2 to 4, 6, 7. Value: the number of sinks.
 */
void skeprafter_read_joined(const uint8_t *file, size_t nf, int32_t *x, size_t nx,
                            int32_t *y, size_t ny, uint16_t *joins, size_t nj,
                            uint64_t said[6]);

/*
 * Reads a tree file and checks its places and wires against the embedding;
 * they are not handed out. Fills n entries each of x and y, 2(n-1) of joins.
 * Refusals: 8, 2 to 4, 6, 9, 7. Value: the number of sinks.
 */
void skeprafter_read_tree(const uint8_t *file, size_t nf, int32_t *x, size_t nx,
                          int32_t *y, size_t ny, uint16_t *joins, size_t nj,
                          uint64_t said[6]);

/* ------------------------------------------------------------- lines --- */

/*
 * What the tree program prints for the given input (the bytes of a sink
 * file), a refusal's line included. Returns the length of the text in bytes.
 * The text stands at the front of out, without a zero byte after it; every
 * text fits.
 */
#define SKEPRAFTER_LINES 49152
size_t skeprafter_tree_lines(const uint8_t *input, size_t ni,
                             uint8_t out[SKEPRAFTER_LINES]);

#ifdef __cplusplus
}
#endif

#endif /* SKEPRAFTER_H */
