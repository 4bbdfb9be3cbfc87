/* The benchmark's C, in the verified library's way: products stay unreduced in 64 bits and are reduced once per coefficient, a negative coefficient takes
 * the row d places before, and four rows are added at a time. It tests its input.
 *
 * With BY_HAND it is as quick as we could make it: the innermost loop is in vector instructions, with degree 64 fixed, and a round takes three inner products instead
 * of four, as the two cross products come from one product of sums, less the outer ones.
 *
 * With FEWER, by hand or not, an opening takes 2.5n products of elements, as the verified library's does (opening.h).
 *
 * With WIDE products are summed in 128 bits. transform.c includes this with TRANSFORM, and has a function that takes some of the sums of products. */
#ifndef NAME
#define NAME "C"
#endif
#include "opening.h"
#ifdef BY_HAND
#include <immintrin.h>
#define INLINE static inline __attribute__((always_inline))
#else
#define INLINE static
#endif

struct tables {
    struct shape shape;
    residue *key;
    int32_t *message;
};

/* Where the row of coefficient j begins, and how often it is added. */
static uint32_t row(uint32_t d, const int32_t *m, uint32_t j) { return (m[j] < 0 ? d : 2 * d) - j; }

static uint32_t magnitude(const int32_t *m, uint32_t j) { return (uint32_t)(m[j] < 0 ? -m[j] : m[j]); }

#ifdef WIDE
static total times(uint32_t m, uint64_t y) { return (total)m * y; }
#else
/* m*y, y being below 2^32: a compiler that sees this needs one instruction for it. */
static total times(uint32_t m, uint64_t y) { return m * (y & UINT32_MAX); }
#endif

#if defined(BY_HAND) && defined(__AVX512F__)
#define STEP 8
#define VECTOR __m512i
#define LOAD(p) _mm512_loadu_si512(p)
#define STORE(p, x) _mm512_storeu_si512(p, x)
#define ADD _mm512_add_epi64
#define TIMES _mm512_mul_epu32
#define ALL(m) _mm512_set1_epi64(m)
#elif defined(BY_HAND)
#define STEP 2
#define VECTOR __m128i
#define LOAD(p) _mm_loadu_si128((const __m128i *)(p))
#define STORE(p, x) _mm_storeu_si128((__m128i *)(p), x)
#define ADD _mm_add_epi64
#define TIMES _mm_mul_epu32
#define ALL(m) _mm_set1_epi64x(m)
#endif

/* Adds m0*w0 + m1*w1 + m2*w2 + m3*w3 to the sums. */
INLINE void add_four(total *restrict sums, uint32_t d, uint32_t m0, const uint64_t *w0, uint32_t m1, const uint64_t *w1, uint32_t m2, const uint64_t *w2,
                     uint32_t m3, const uint64_t *w3)
{
    uint32_t k = 0;
#ifdef STEP
    VECTOR v0 = ALL(m0), v1 = ALL(m1), v2 = ALL(m2), v3 = ALL(m3);
    for (; k + STEP <= d; k += STEP) {
        VECTOR first = ADD(TIMES(v0, LOAD(w0 + k)), TIMES(v1, LOAD(w1 + k)));
        VECTOR second = ADD(TIMES(v2, LOAD(w2 + k)), TIMES(v3, LOAD(w3 + k)));
        STORE(sums + k, ADD(LOAD(sums + k), ADD(first, second)));
    }
#endif
    for (; k < d; k++)
        sums[k] += times(m0, w0[k]) + times(m1, w1[k]) + times(m2, w2[k]) + times(m3, w3[k]);
}

/* Adds m*g to the sums; the coefficients of g are at most `top`, a multiple of q. */
INLINE void add_product(total *restrict sums, uint32_t d, const int32_t *m, const residue *g, residue top)
{
    uint64_t window[3 * MOST];
    for (uint32_t k = 0; k < d; k++) {
        window[k] = g[k];
        window[d + k] = top - g[k];
        window[2 * d + k] = g[k];
    }
    uint32_t j = 0;
    for (; j + 4 <= d; j += 4) {
        const uint64_t *w[4];
        uint32_t by[4];
        for (uint32_t i = 0; i < 4; i++) {
            w[i] = window + row(d, m, j + i);
            by[i] = magnitude(m, j + i);
        }
        add_four(sums, d, by[0], w[0], by[1], w[1], by[2], w[2], by[3], w[3]);
    }
    for (; j < d; j++) {
        const uint64_t *w = window + row(d, m, j);
        for (uint32_t k = 0; k < d; k++)
            sums[k] += times(magnitude(m, j), w[k]);
    }
}

/* By hand, the largest degree has loops of its own. */
#ifdef BY_HAND
#define ADD_PRODUCT(sums, d, m, g, top) ((d) == 64 ? add_product(sums, 64, m, g, top) : add_product(sums, d, m, g, top))
#else
#define ADD_PRODUCT add_product
#endif

static void add_products(total *sums, const struct shape *s, uint32_t d, size_t count, const int32_t *m, const residue *g)
{
    for (size_t i = 0; i < count; i++)
        ADD_PRODUCT(sums, d, m + i * d, g + i * d, s->q);
}

static void reduced(const struct shape *s, uint32_t d, const total *sums, residue *out)
{
    for (uint32_t k = 0; k < d; k++)
        out[k] = reduce(s, sums[k]);
}

#ifndef TRANSFORM
#define transformed(shape, count, message, key, beside, out) 0
#endif

static void inner(struct tables *t, size_t count, residue *out)
{
    if (transformed(&t->shape, count, t->message, t->key, 0, out))
        return;
    uint32_t d = t->shape.d;
    total sums[MOST] = {0};
    add_products(sums, &t->shape, d, count, t->message, t->key);
    reduced(&t->shape, d, sums, out);
}

#if !defined(BY_HAND) && !defined(FEWER)

static void cross_at(total *sums, struct tables *t, uint32_t d, size_t half)
{
    add_products(sums, &t->shape, d, half, t->message, t->key + half * d);
    add_products(sums, &t->shape, d, half, t->message + half * d, t->key);
}

#else

static void cross_at(total *sums, struct tables *t, uint32_t d, size_t half)
{
    const int32_t *m0 = t->message, *m1 = m0 + half * d;
    const residue *g0 = t->key, *g1 = g0 + half * d;
    for (size_t i = 0; i < half * d; i += d) {
        int32_t m[MOST];
        residue g[MOST];
        for (uint32_t k = 0; k < d; k++) {
            m[k] = m0[i + k] + m1[i + k];
            g[k] = g0[i + k] + g1[i + k];
        }
        ADD_PRODUCT(sums, d, m, g, 2 * t->shape.q);
    }
}

#endif

#ifdef FEWER

static void part(struct tables *t, size_t from, size_t count, residue *out)
{
    uint32_t d = t->shape.d;
    if (transformed(&t->shape, count, t->message + from * d, t->key + from * d, 0, out))
        return;
    total sums[MOST] = {0};
    add_products(sums, &t->shape, d, count, t->message + from * d, t->key + from * d);
    reduced(&t->shape, d, sums, out);
}

static void of_sums(struct tables *t, size_t half, residue *out)
{
    if (transformed(&t->shape, half, t->message, t->key, half * t->shape.d, out))
        return;
    total sums[MOST] = {0};
    cross_at(sums, t, t->shape.d, half);
    reduced(&t->shape, t->shape.d, sums, out);
}

#else

static void round_sums(struct tables *t, size_t half, residue *out)
{
    const struct shape *s = &t->shape;
    uint32_t d = s->d;
    total first[MOST] = {0}, cross[MOST] = {0}, second[MOST] = {0};
    add_products(first, s, d, half, t->message, t->key);
    cross_at(cross, t, d, half);
    add_products(second, s, d, half, t->message + half * d, t->key + half * d);
    reduced(s, d, first, out);
    reduced(s, d, cross, out + d);
    reduced(s, d, second, out + 2 * d);
#ifdef BY_HAND
    for (uint32_t k = 0; k < d; k++)
        out[d + k] = subtract(s->q, subtract(s->q, out[d + k], out[k]), out[2 * d + k]);
#endif
}

#endif

static void fold(struct tables *t, size_t half, uint32_t e)
{
    residue q = t->shape.q;
    uint32_t d = t->shape.d, shift = e % d;
    for (size_t i = 0; i < half; i++) {
        int32_t *m0 = t->message + i * d;
        residue *g0 = t->key + i * d;
        const int32_t *m1 = m0 + half * d;
        const residue *g1 = g0 + half * d;
        if (e < d) {
            for (uint32_t k = shift; k < d; k++) m0[k] += m1[k - shift], g0[k] = add(q, g0[k], g1[k - shift]);
            for (uint32_t k = 0; k < shift; k++) m0[k] -= m1[k + d - shift], g0[k] = subtract(q, g0[k], g1[k + d - shift]);
        } else {
            for (uint32_t k = shift; k < d; k++) m0[k] -= m1[k - shift], g0[k] = subtract(q, g0[k], g1[k - shift]);
            for (uint32_t k = 0; k < shift; k++) m0[k] += m1[k + d - shift], g0[k] = add(q, g0[k], g1[k + d - shift]);
        }
    }
}

static int admitted(const struct tables *t)
{
    size_t places = t->shape.n * t->shape.d;
    int32_t bound = (int32_t)t->shape.b;
    int good = 1;
    for (size_t k = 0; k < places; k++)
        good &= t->key[k] < t->shape.q;
    for (size_t k = 0; k < places; k++)
        good &= -bound <= t->message[k] && t->message[k] <= bound;
    return good;
}

static void last_element(const struct tables *t, int32_t *out)
{
    memcpy(out, t->message, t->shape.d * sizeof *out);
}

struct tables *baseline_prepare(uint32_t d, uint32_t l, uint64_t q, uint32_t b, const uint64_t *key, const int32_t *message, const uint32_t *challenges)
{
    struct tables *t = malloc(sizeof *t);
    start(&t->shape, d, l, q, b);
    size_t places = t->shape.n * d;
    t->shape.challenges = challenges;
    t->key = malloc(places * sizeof *t->key);
    t->message = malloc(places * sizeof *t->message);
    for (size_t k = 0; k < places; k++)
        t->key[k] = (residue)key[k];
    memcpy(t->message, message, places * sizeof *t->message);
    return t;
}

void baseline_release(struct tables *t)
{
    free(t->key);
    free(t->message);
    free(t);
}
