/*
 * Joining by least diameter, tuned for long passes that the compiler turns
 * into vector code.
 *
 * Each live node (a row) keeps a partner among the live nodes with higher
 * numbers, as one key of 32 bits: the diameter above, a number for the
 * partner below, so the least key is the first of the best partners. Ends of
 * boxes are kept with the diameter's shift: the difference of two is a
 * diameter in its place.
 *
 * Where all sinks together have a diameter below 2^22, as they have without
 * delays, 10 bits are left for numbers, and those of the nodes fit. Else a
 * diameter takes up to 23 bits and leaves 9. Never more than 512 nodes live,
 * so a node then goes by a short number, given in rising order; when all are
 * given, the live nodes get new ones from 0 on, in the order that they have.
 * With 512 sinks that happens at the joins 1, 3, 7, 15 and so on, since each
 * join leaves one more to give; up to 256 sinks it never does.
 *
 * Tuned for:
 * - slots in any order, four arrays for the boxes. The last slot is moved
 *   into a hole, so nothing is shifted; whole steps of STEP slots are looked
 *   through, the slots past the last being void.
 * - one pass for each join: it holds every row against the new node and
 *   finds the best row on the way.
 * - late repair. A row whose partner is gone keeps its key, below which no
 *   later partner can come; it is looked through again only when it is the
 *   best of all rows, and that pass finds the best row anew too.
 */
#include "peers.h"

#define STEP 16
#define SLOTS (512 + STEP)
#define GONE UINT16_MAX

typedef struct {
    int32_t least_u, greatest_u, least_v, greatest_v;
} Box;

typedef struct {
    int32_t least_u[SLOTS], greatest_u[SLOTS], least_v[SLOTS], greatest_v[SLOTS];
    uint32_t number[SLOTS]; /* of the node in the slot, the one in keys */
    uint32_t key[SLOTS];
    uint32_t low;        /* the bits of a number in a key: 1,023 or 511 */
    uint16_t slot[1024]; /* of a node by its number in keys, or GONE */
    uint16_t node[1024]; /* its number in the answer by the one in keys */
} Rows;

/*
 * The sinks for the first pass. Sinks have numbers below 512, so u, v and w
 * are times 512 here. w is less 2^31 besides: the sum of a difference and a w
 * stays within 32 bits with sign, and two w take 2^32 off, which is nothing.
 */
typedef struct {
    int32_t u[SLOTS], v[SLOTS], w[SLOTS], number[SLOTS];
} Sinks;

static inline int32_t lesser(int32_t a, int32_t b) { return a < b ? a : b; }
static inline int32_t greater(int32_t a, int32_t b) { return a > b ? a : b; }
static inline uint32_t least(uint32_t a, uint32_t b) { return a < b ? a : b; }
static inline uint32_t greatest(uint32_t a, uint32_t b) { return a > b ? a : b; }

/* Wraps around on the way; the width itself is below 2^32. */
static inline uint32_t width(int32_t from, int32_t to)
{
    return (uint32_t)to - (uint32_t)from;
}

/* gcc makes one instruction of it on AArch64, and few on x86-64. */
static inline int32_t difference(int32_t a, int32_t b)
{
#ifdef __aarch64__
    return greater(a, b) - lesser(a, b);
#else
    int32_t d = a - b;
    return d < 0 ? -d : d;
#endif
}

static inline int32_t shifted(int32_t a, int bits)
{
    return (int32_t)((uint32_t)a << bits);
}

static inline size_t whole_steps(size_t slots)
{
    return (slots + STEP - 1) & ~(size_t)(STEP - 1);
}

/* The diameter of a row's key with the row's own number below it. */
static inline uint32_t rank(uint32_t key, uint32_t number, uint32_t low)
{
    return ((key ^ number) & low) ^ key;
}

static inline Box box_in(const Rows *rows, size_t i)
{
    return (Box){rows->least_u[i], rows->greatest_u[i], rows->least_v[i], rows->greatest_v[i]};
}

static inline uint32_t union_diameter(const Rows *rows, size_t i, Box box)
{
    uint32_t u = width(lesser(box.least_u, rows->least_u[i]),
                       greater(box.greatest_u, rows->greatest_u[i]));
    uint32_t v = width(lesser(box.least_v, rows->least_v[i]),
                       greater(box.greatest_v, rows->greatest_v[i]));
    return greatest(u, v);
}

static inline void put(Rows *rows, size_t i, Box box, uint32_t number, uint32_t key)
{
    rows->least_u[i] = box.least_u;
    rows->greatest_u[i] = box.greatest_u;
    rows->least_v[i] = box.least_v;
    rows->greatest_v[i] = box.greatest_v;
    rows->number[i] = number;
    rows->key[i] = key;
}

/* A void slot makes every key and rank that it enters the greatest. */
static inline void put_void(Rows *rows, size_t i)
{
    const Box all = {INT32_MIN, INT32_MAX, INT32_MIN, INT32_MAX};
    put(rows, i, all, UINT32_MAX, UINT32_MAX);
}

/*
 * The keys of the sinks, which stand in rising order. The diameter of two is
 * the greatest of their differences in u, v and w, plus both w: so it needs no
 * boxes, and a row's own w is added after its pass. Where all w are alike,
 * u and v are enough. Gives the best rank.
 */
static inline uint32_t first_keys(Rows *rows, const Sinks *sinks, size_t n, int alike)
{
    const uint32_t low = rows->low;
    uint32_t best = UINT32_MAX;
    for (size_t i = 0; i + 1 < n; i++) {
        const int32_t u = sinks->u[i], v = sinks->v[i], w = sinks->w[i];
        const size_t end = i + 1 + whole_steps(n - i - 1);
        int32_t first = INT32_MAX;
#pragma GCC unroll 4
        for (size_t j = i + 1; j < end; j++) {
            int32_t d = greater(difference(u, sinks->u[j]), difference(v, sinks->v[j]));
            if (!alike)
                d = greater(d, difference(w, sinks->w[j])) + sinks->w[j];
            first = lesser(first, d | sinks->number[j]);
        }
        const uint32_t key = (uint32_t)first + (uint32_t)w + (alike ? (uint32_t)w : 0);
        rows->key[i] = (key >> 9) * (low + 1) + (key & 511);
        best = least(best, rank(rows->key[i], (uint32_t)i, low));
    }
    return best;
}

/* Looks row i through again; gives the best rank of all rows. */
static uint32_t repair(Rows *rows, size_t i, size_t live)
{
    const Box box = box_in(rows, i);
    const uint32_t own = rows->number[i], low = rows->low;
    const size_t end = whole_steps(live);
    uint32_t key = UINT32_MAX, best = UINT32_MAX;
    rows->key[i] = UINT32_MAX;
#pragma GCC unroll 4
    for (size_t j = 0; j < end; j++) {
        uint32_t number = rows->number[j];
        uint32_t earlier = number <= own ? UINT32_MAX : 0;
        key = least(key, union_diameter(rows, j, box) | number | earlier);
        best = least(best, rank(rows->key[j], number, low));
    }
    rows->key[i] = key;
    return least(best, rank(key, own, low));
}

/* Holds every row against a new node; gives the best rank of all rows. */
static uint32_t hold(Rows *rows, Box box, uint32_t new_number, size_t live)
{
    const uint32_t low = rows->low;
    const size_t end = whole_steps(live);
    uint32_t best = UINT32_MAX;
#pragma GCC unroll 4
    for (size_t j = 0; j < end; j++) {
        uint32_t key = least(rows->key[j], union_diameter(rows, j, box) | new_number);
        rows->key[j] = key;
        best = least(best, rank(key, rows->number[j], low));
    }
    return best;
}

/*
 * New numbers from 0 on for the live nodes; gives the first one left over. A
 * row whose partner is gone names itself, which no later partner is below.
 */
static uint32_t renumber(Rows *rows, size_t slots)
{
    const uint32_t low = rows->low;
    uint16_t shorter[1024];
    uint32_t next = 0;
    for (uint32_t i = 0; i <= low; i++) {
        shorter[i] = GONE;
        if (rows->slot[i] == GONE)
            continue;
        shorter[i] = (uint16_t)next;
        rows->slot[next] = rows->slot[i];
        rows->node[next++] = rows->node[i];
    }
    for (size_t i = 0; i < slots; i++) {
        const uint32_t own = shorter[rows->number[i]], key = rows->key[i];
        const uint32_t partner = shorter[key & low];
        rows->number[i] = own;
        /* One without a partner stays above all that have one. */
        rows->key[i] = rank(key, partner == GONE ? own : partner, low);
    }
    return next;
}

/* Puts the sinks into rows; the keys are still to come. */
static void first_rows(Rows *rows, const int32_t *x, const int32_t *y, const uint32_t *delays,
                       size_t n)
{
    Box all = {INT32_MAX, INT32_MIN, INT32_MAX, INT32_MIN};
    for (size_t i = 0; i < n; i++) {
        const int32_t u = x[i] + y[i], v = x[i] - y[i], w = (int32_t)delays[i];
        all = (Box){lesser(all.least_u, u - w), greater(all.greatest_u, u + w),
                    lesser(all.least_v, v - w), greater(all.greatest_v, v + w)};
    }
    const uint32_t wide_u = width(all.least_u, all.greatest_u);
    const uint32_t wide_v = width(all.least_v, all.greatest_v);
    rows->low = greatest(wide_u, wide_v) < 1u << 22 ? 1023 : 511;
    /* From the middle of them all, so that no end leaves 32 bits. */
    const int32_t mid_u = all.greatest_u - (int32_t)(wide_u / 2);
    const int32_t mid_v = all.greatest_v - (int32_t)(wide_v / 2);
    const int bits = rows->low == 1023 ? 10 : 9;
    for (size_t i = 0; i < n; i++) {
        const int32_t u = x[i] + y[i] - mid_u, v = x[i] - y[i] - mid_v;
        const int32_t w = (int32_t)delays[i];
        const Box box = {shifted(u - w, bits), shifted(u + w, bits), shifted(v - w, bits),
                         shifted(v + w, bits)};
        put(rows, i, box, (uint32_t)i, UINT32_MAX);
        rows->slot[i] = rows->node[i] = (uint16_t)i;
    }
    for (size_t i = n; i < n + STEP; i++)
        put_void(rows, i);
}

/* Fills whole steps, with the last sink again. Gives 1 if all w are alike. */
static int first_sinks(Sinks *sinks, const int32_t *x, const int32_t *y,
                       const uint32_t *delays, size_t n)
{
    uint32_t unlike = 0;
    for (size_t i = 0; i < n; i++) {
        unlike |= delays[i] ^ delays[0];
        sinks->u[i] = (x[i] + y[i]) * 512;
        sinks->v[i] = (x[i] - y[i]) * 512;
        sinks->w[i] = (int32_t)delays[i] * 512 + INT32_MIN;
        sinks->number[i] = (int32_t)i;
    }
    for (size_t i = n; i < n + STEP; i++) {
        sinks->u[i] = sinks->u[n - 1];
        sinks->v[i] = sinks->v[n - 1];
        sinks->w[i] = sinks->w[n - 1];
        sinks->number[i] = sinks->number[n - 1];
    }
    return unlike == 0;
}

uint64_t peer_join(const int32_t *x, const int32_t *y, const uint32_t *delays, size_t n,
                   uint16_t *joins)
{
    Rows rows;
    Sinks sinks;
    if (!peer_in_range(x, y, delays, n))
        return PEER_REFUSED;
    first_rows(&rows, x, y, delays, n);

    const uint32_t low = rows.low;
    const int alike = first_sinks(&sinks, x, y, delays, n);
    uint32_t best = alike ? first_keys(&rows, &sinks, n, 1) : first_keys(&rows, &sinks, n, 0);
    uint32_t number = (uint32_t)n;
    size_t live = n;
    for (size_t join = n; live > 1; join++) {
        uint32_t a = best & low;
        size_t at = rows.slot[a];
        uint32_t b = rows.key[at] & low;
        while (rows.slot[b] == GONE || b == a) {
            best = repair(&rows, at, live);
            a = best & low;
            at = rows.slot[a];
            b = rows.key[at] & low;
        }
        size_t other = rows.slot[b];
        *joins++ = rows.node[a];
        *joins++ = rows.node[b];
        rows.slot[a] = rows.slot[b] = GONE;
        if (number > low)
            number = renumber(&rows, live);

        const Box p = box_in(&rows, at), q = box_in(&rows, other);
        const Box both = {lesser(p.least_u, q.least_u), greater(p.greatest_u, q.greatest_u),
                          lesser(p.least_v, q.least_v), greater(p.greatest_v, q.greatest_v)};
        /* The new node takes one of the two slots, the last node the other. */
        size_t last = --live;
        size_t kept = at < other ? at : other, hole = at < other ? other : at;
        if (hole != last) {
            put(&rows, hole, box_in(&rows, last), rows.number[last], rows.key[last]);
            rows.slot[rows.number[hole]] = (uint16_t)hole;
        }
        put_void(&rows, last);
        put_void(&rows, kept);
        best = hold(&rows, both, number, live);
        put(&rows, kept, both, number, UINT32_MAX);
        rows.slot[number] = (uint16_t)kept;
        rows.node[number++] = (uint16_t)join;
    }
    return 0;
}
