/*
 * peers.h: three calls of the library again, tuned for speed alone.
 *
 * Nothing here is proved, and nothing is shared with the library or with the
 * second program; the bench holds their answers against one another. They
 * fill the same buffers as the calls of include/skeprafter.h.
 *
 * A peer looks at each sink once, as the library does, and gives
 * PEER_REFUSED where a coordinate or a delay is outside its range. It makes
 * no other check of what it is lent: 1 to 512 sinks (12 for the search), each
 * with a delay, and buffers of at least the lengths that the answer fills.
 */
#ifndef PEERS_H
#define PEERS_H

#include <stddef.h>
#include <stdint.h>

#define PEER_REFUSED UINT64_MAX

/* Joins by least diameter: fills 2(n-1) entries of joins. Gives 0. */
uint64_t peer_join(const int32_t *x, const int32_t *y, const uint32_t *delays, size_t n,
                   uint16_t *joins);

/*
 * The exact search with an unlimited budget: fills 2^n entries of table,
 * 2(n-1) of joins and 2n-1 each of u, v and wires. Gives the total wire.
 */
uint64_t peer_search(const int32_t *x, const int32_t *y, const uint32_t *delays, size_t n,
                     uint32_t *table, uint16_t *joins, int32_t *u, int32_t *v,
                     uint32_t *wires);

/*
 * Embeds a joining order: fills 2n-1 entries each of u, v and wires. Gives
 * the total wire, or PEER_REFUSED where the order is wrong.
 */
uint64_t peer_embed(const int32_t *x, const int32_t *y, const uint32_t *delays, size_t n,
                    const uint16_t *joins, int32_t *u, int32_t *v, uint32_t *wires);

/* 1 if coordinates and delays lie within their range: one pass, no branch. */
static inline int peer_in_range(const int32_t *x, const int32_t *y, const uint32_t *delays,
                                size_t n)
{
    uint32_t outside = 0;
    for (size_t i = 0; i < n; i++) {
        /* -1,000,000 goes to 0: all else outside goes beyond 2,000,000. */
        outside |= (uint32_t)x[i] + 1000000u > 2000000u;
        outside |= (uint32_t)y[i] + 1000000u > 2000000u;
        outside |= delays[i] > 1000000u;
    }
    return outside == 0;
}

#endif
