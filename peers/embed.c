/*
 * The embedding of a joining order, tuned for short loops over few bytes.
 *
 * A box is four numbers side by side, the least ones negated, so that the
 * hull is four times the greater of two: one vector instruction. One pass up
 * makes boxes, diameters and parents, and checks the order by the parents;
 * one pass down places the joins alone. The places of sinks are known
 * without their parents, and wires need no order.
 */
#include "peers.h"

typedef struct {
    int32_t end[4]; /* -least u, greatest u, -least v, greatest v */
} Box;

static inline int32_t greater(int32_t a, int32_t b) { return a > b ? a : b; }
static inline int32_t lesser(int32_t a, int32_t b) { return a < b ? a : b; }

/* The value nearest to `to` of a node's range on the axis of two ends. */
static inline int32_t nearest(const int32_t *end, int32_t d, int32_t to)
{
    return lesser(greater(to, 2 * end[1] - d), d - 2 * end[0]);
}

uint64_t peer_embed(const int32_t *x, const int32_t *y, const uint32_t *delays, size_t n,
                    const uint16_t *joins, int32_t *u, int32_t *v, uint32_t *wires)
{
    Box boxes[1023];
    int32_t d[1023];
    uint16_t parent[1023] = {0}; /* no node has parent 0 */
    uint32_t total = 0;          /* wraps around on the way */
    if (!peer_in_range(x, y, delays, n))
        return PEER_REFUSED;
    for (size_t i = 0; i < n; i++) {
        const int32_t w = (int32_t)delays[i], su = x[i] + y[i], sv = x[i] - y[i];
        boxes[i] = (Box){{w - su, w + su, w - sv, w + sv}};
        d[i] = 2 * w;
        total -= (uint32_t)d[i];
    }
    const size_t root = 2 * n - 2;
    for (size_t i = n; i <= root; i++) {
        const size_t a = joins[2 * (i - n)], b = joins[2 * (i - n) + 1];
        if (a >= i || b >= i || a == b || parent[a] | parent[b])
            return PEER_REFUSED;
        parent[a] = parent[b] = (uint16_t)i;
        Box box;
        for (int k = 0; k < 4; k++)
            box.end[k] = greater(boxes[a].end[k], boxes[b].end[k]);
        boxes[i] = box;
        d[i] = greater(box.end[0] + box.end[1], box.end[2] + box.end[3]);
        total += (uint32_t)d[i];
    }

    u[root] = 2 * boxes[root].end[1] - d[root];
    v[root] = 2 * boxes[root].end[3] - d[root];
    for (size_t i = root; i-- > n;) {
        const size_t above = parent[i];
        u[i] = nearest(boxes[i].end, d[i], u[above]);
        v[i] = nearest(boxes[i].end + 2, d[i], v[above]);
    }
    for (size_t i = 0; i < n; i++) {
        u[i] = 2 * (x[i] + y[i]);
        v[i] = 2 * (x[i] - y[i]);
    }
    for (size_t i = 0; i < root; i++)
        wires[i] = (uint32_t)(d[parent[i]] - d[i]);
    wires[root] = 0;
    total += (uint32_t)d[root];
    return total;
}
