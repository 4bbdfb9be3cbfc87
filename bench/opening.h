/* The commitment and the whole opening over somebody else's arithmetic, for the benchmark.
 *
 * A file that includes this has defined `struct tables`, which begins with `struct shape shape`, and these functions on it:
 *
 *   prepare   takes key and message over into the arithmetic's own form; no time is taken of it
 *   admitted  whether key and message are within their bounds, where the arithmetic's form leaves that open
 *   inner     the sum of m_i*G_i over the first `count` elements
 *   round     the three sums <m0,G0>, <m0,G1>+<m1,G0>, <m1,G1> over `half` elements
 *   fold      folds both tables by X^e: the second `half` elements into the first
 *   last      the first message element
 *   release   gives the memory back
 *
 * With FEWER an opening takes 2.5n products of elements instead of 4n, or of 5n where the cross products are two: <m0,G0> and <m1,G1> add up to the commitment, each
 * claim is 2*(c0 + c2), and c1 comes from the product of the halves' sums. Then instead of `round` there are
 *
 *   part      the sum of m_i*G_i over `count` elements from the element `from` on
 *   of_sums   <m0+m1,G0+G1> over `half` elements
 *
 * With WIDE a residue has 64 bits and the modulus 61, else 32 and 31. What is left, the scaling, the verifier's equations and the end, is the same for all and costs next to nothing: it is done here.
 */
#ifndef OPENING_H
#define OPENING_H

#include <stddef.h>
#include <stdint.h>
#include <stdlib.h>
#include <string.h>

#define MOST 128
#define ROUNDS 8

/* A residue, and a sum of products of residues and message coefficients. */
#ifdef WIDE
typedef uint64_t residue;
typedef unsigned __int128 total;
#else
typedef uint32_t residue;
typedef uint64_t total;
#endif

struct shape {
    uint32_t d, l, b;
    residue q;
    size_t n;
    uint64_t reciprocal; /* 2^64 divided by q, rounded down */
    const uint32_t *challenges;
};

static inline residue reduce(const struct shape *s, total x)
{
#ifdef WIDE
    return (residue)(x % s->q);
#else
    uint64_t quotient = (uint64_t)(((unsigned __int128)x * s->reciprocal) >> 64);
    uint64_t rest = x - quotient * s->q;
    return (uint32_t)(rest >= s->q ? rest - s->q : rest);
#endif
}

static inline residue add(residue q, residue x, residue y)
{
    residue sum = x + y, less = sum - q;
    return sum < less ? sum : less;
}

static inline residue subtract(residue q, residue x, residue y)
{
    residue difference = x - y, more = difference + q;
    return difference < more ? difference : more;
}

/* Whether a folded message can be told from its residues. Where it cannot, an arithmetic that has residues alone folds the whole numbers beside them. */
static inline int told(const struct shape *s) { return 2 * (uint64_t)s->n * s->b < s->q; }

/* a0 + X^e*a1 over whole numbers, in place. */
static inline void fold_wholes(uint32_t d, int32_t *a0, const int32_t *a1, uint32_t e)
{
    uint32_t shift = e % d;
    int32_t sign = e < d ? 1 : -1;
    for (uint32_t k = shift; k < d; k++)
        a0[k] += sign * a1[k - shift];
    for (uint32_t k = 0; k < shift; k++)
        a0[k] -= sign * a1[k + d - shift];
}

#ifdef __cplusplus
extern "C" {
#endif

struct tables;
static int admitted(const struct tables *t);
static void inner(struct tables *t, size_t count, residue *out);
#ifdef FEWER
static void part(struct tables *t, size_t from, size_t count, residue *out);
static void of_sums(struct tables *t, size_t half, residue *out);
#else
static void round_sums(struct tables *t, size_t half, residue *out);
#endif
static void fold(struct tables *t, size_t half, uint32_t e);
static void last_element(const struct tables *t, int32_t *out);

/* Adds X^e*a to out. */
static void add_rotated(const struct shape *s, residue *out, const residue *a, uint32_t e)
{
    uint32_t d = s->d;
    for (uint32_t k = 0; k < d; k++) {
        uint32_t at = (k + e) % (2 * d);
        if (at < d)
            out[at] = add(s->q, out[at], a[k]);
        else
            out[at - d] = subtract(s->q, out[at - d], a[k]);
    }
}

#ifndef FEWER
/* Scales a round's three sums by half^i. */
static void scale_round(const struct shape *s, residue scale, residue *c)
{
    for (uint32_t k = 0; k < 3 * s->d; k++)
        c[k] = reduce(s, (total)c[k] * scale);
}
#else
/* A round's three elements: from <m0,G0>, the claim, and the product of the halves' sums. */
static void claimed_round(const struct shape *s, residue scale, const residue *first, const residue *sums, const residue *claim, residue *c)
{
    uint32_t d = s->d;
    residue q = s->q;
    for (uint32_t k = 0; k < d; k++) {
        residue halved = claim[k] / 2 + (claim[k] % 2 ? q / 2 + 1 : 0);
        c[k] = reduce(s, (total)first[k] * scale);
        c[d + k] = subtract(q, reduce(s, (total)sums[k] * scale), halved);
        c[2 * d + k] = subtract(q, halved, c[k]);
    }
}
#endif

/* Tests a round and goes on to the next claim. */
static int verifier_round(const struct shape *s, uint32_t e, const residue *c, residue *claim)
{
    uint32_t d = s->d;
    int holds = 1;
    for (uint32_t k = 0; k < d; k++) {
        residue sum = add(s->q, c[k], c[2 * d + k]);
        holds &= add(s->q, sum, sum) == claim[k];
    }
    memcpy(claim, c, d * sizeof *c);
    add_rotated(s, claim, c + d, e);
    add_rotated(s, claim, c + 2 * d, 2 * e);
    return holds;
}

/* Whether the final element is within its bound and 2^L times the claim is its product with the folded key. */
static int verifier_end(struct tables *t, const struct shape *s, const residue *claim, const int32_t *last)
{
    int64_t bound = (int64_t)s->n * s->b;
    residue product[MOST];
    int meets = 1;
    inner(t, 1, product);
    for (uint32_t k = 0; k < s->d; k++) {
        meets &= -bound <= last[k] && last[k] <= bound;
        meets &= product[k] == reduce(s, (total)claim[k] << s->l);
    }
    return meets;
}

/* Residues as they are handed out: numbers of 64 bits. */
static void hand_out(const residue *from, size_t count, uint64_t *to)
{
    for (size_t k = 0; k < count; k++)
        to[k] = from[k];
}

/* 0, or 1 where the input is refused. */
uint32_t baseline_commit(struct tables *t, uint64_t *out)
{
    const struct shape *s = (const struct shape *)t;
    residue commitment[MOST];
    if (!admitted(t))
        return 1;
    inner(t, s->n, commitment);
    hand_out(commitment, s->d, out);
    return 0;
}

/* 2 says accepted, 3 rejected, 0 that the input is refused. */
uint32_t baseline_open(struct tables *t, uint64_t *rounds_out, uint64_t *commitment_out, int32_t *last)
{
    const struct shape *s = (const struct shape *)t;
    residue rounds[3 * ROUNDS * MOST], commitment[MOST], claim[MOST], scale = 1, half = s->q / 2 + 1;
    int holds = 1;
    if (!admitted(t))
        return 0;
#ifdef FEWER
    residue first[MOST], sums[MOST];
    part(t, 0, s->n / 2, first);
    part(t, s->n / 2, s->n - s->n / 2, commitment);
    for (uint32_t k = 0; k < s->d; k++)
        commitment[k] = add(s->q, commitment[k], first[k]);
#else
    inner(t, s->n, commitment);
#endif
    memcpy(claim, commitment, s->d * sizeof *claim);
    for (uint32_t i = 0; i < s->l; i++) {
        size_t rest = s->n >> (i + 1);
        residue *c = rounds + (size_t)3 * s->d * i;
        scale = reduce(s, (total)scale * half);
#ifdef FEWER
        of_sums(t, rest, sums);
        claimed_round(s, scale, first, sums, claim, c);
#else
        round_sums(t, rest, c);
        scale_round(s, scale, c);
#endif
        holds &= verifier_round(s, s->challenges[i], c, claim);
        fold(t, rest, s->challenges[i]);
#ifdef FEWER
        if (rest > 1)
            part(t, 0, rest / 2, first);
#endif
    }
    hand_out(commitment, s->d, commitment_out);
    hand_out(rounds, (size_t)3 * s->d * s->l, rounds_out);
    last_element(t, last);
    return verifier_end(t, s, claim, last) && holds ? 2 : 3;
}

static void start(struct shape *s, uint32_t d, uint32_t l, uint64_t q, uint32_t b)
{
    s->d = d;
    s->l = l;
    s->q = (residue)q;
    s->b = b;
    s->n = (size_t)1 << l;
    s->reciprocal = UINT64_MAX / q;
}

const char *baseline_name(void) { return NAME; }

/* The moduli that it is measured with: 1 for 2^31 - 1, 2 for 2^61 - 1, 4 for 12289, added up. */
#ifdef TRANSFORM
#define MODULI 4
#elif defined(WIDE)
#define MODULI 2
#elif !defined(MODULI)
#define MODULI 1
#endif
uint32_t baseline_moduli(void) { return MODULI; }

struct tables *baseline_prepare(uint32_t d, uint32_t l, uint64_t q, uint32_t b, const uint64_t *key, const int32_t *message, const uint32_t *challenges);
void baseline_release(struct tables *t);

#ifdef __cplusplus
}
#endif

#endif
