/* The benchmark's NTL, on zz_pX, or with WIDE on ZZ_pX, as zz_p ends at 60 bits. Key and message are polynomials over the residues; a whole number is told from
 * its residue, where it is far below q/2; with a small modulus the whole numbers are folded beside.
 * Input is not tested. There are two ways to the sums of products:
 *
 *   plain        mul for each product; products are added up unreduced, then X^d = -1 is put in and one reduction made per coefficient
 *   TRANSFORMED  elements are brought into NTL's transform (fftRep, FFTRep), multiplied and added up there, and one sum is brought back at the end
 */
#ifdef WIDE
#include <NTL/ZZ_pX.h>
#else
#include <NTL/lzz_pX.h>
#define MODULI 5
#endif
#include <vector>
#ifdef TRANSFORMED
#define NAME "NTL, summed transforms"
#elif defined(WIDE)
#define NAME "NTL ZZ_pX"
#else
#define NAME "NTL zz_pX"
#endif
#include "opening.h"

#ifdef WIDE
using Number = NTL::ZZ_p;
using Polynomial = NTL::ZZ_pX;
using Transform = NTL::FFTRep;
static inline long number(const Number &x) { return NTL::conv<long>(NTL::rep(x)); }
static inline void transform(Transform &to, const Polynomial &a, long k) { NTL::ToFFTRep(to, a, k); }
static inline void transform_back(Polynomial &to, Transform &a, long last) { NTL::FromFFTRep(to, a, 0, last); }
static inline void begin(uint64_t q) { Number::init(NTL::conv<NTL::ZZ>((long)q)); }
#else
using Number = NTL::zz_p;
using Polynomial = NTL::zz_pX;
using Transform = NTL::fftRep;
static inline long number(const Number &x) { return NTL::rep(x); }
static inline void transform(Transform &to, const Polynomial &a, long k) { NTL::TofftRep(to, a, k); }
static inline void transform_back(Polynomial &to, Transform &a, long last) { NTL::FromfftRep(to, a, 0, last); }
static inline void begin(uint64_t q) { Number::init((long)q); }
#endif

struct tables {
    struct shape shape;
    std::vector<Polynomial> key, message;
    std::vector<int32_t> wholes; /* empty where they are told from the residues */
};

/* The coefficient of X^k; leading zeros are not stored. */
static inline long at(const Polynomial &a, long k) { return k < a.rep.length() ? number(a.rep[k]) : 0; }

#ifndef TRANSFORMED

struct Sum {
    total places[2 * MOST] = {};
    Polynomial product;

    void add_product(const Polynomial &m, const Polynomial &g)
    {
        NTL::mul(product, m, g);
        for (long k = 0; k < product.rep.length(); k++)
            places[k] += (total)number(product.rep[k]);
    }

    void residues(const struct shape *s, residue *out) const
    {
        for (uint32_t k = 0; k < s->d; k++)
            out[k] = subtract(s->q, reduce(s, places[k]), reduce(s, places[s->d + k]));
    }
};

static void inner(struct tables *t, size_t count, residue *out)
{
    Sum sum;
    for (size_t i = 0; i < count; i++)
        sum.add_product(t->message[i], t->key[i]);
    sum.residues(&t->shape, out);
}

static void round_sums(struct tables *t, size_t half, residue *out)
{
    uint32_t d = t->shape.d;
    residue q = t->shape.q;
    Sum first, middle, second;
    Polynomial m, g;
    for (size_t i = 0; i < half; i++) {
        const Polynomial &m0 = t->message[i], &m1 = t->message[half + i], &g0 = t->key[i], &g1 = t->key[half + i];
        NTL::add(m, m0, m1);
        NTL::add(g, g0, g1);
        first.add_product(m0, g0);
        second.add_product(m1, g1);
        middle.add_product(m, g);
    }
    first.residues(&t->shape, out);
    middle.residues(&t->shape, out + d);
    second.residues(&t->shape, out + 2 * d);
    for (uint32_t k = 0; k < d; k++)
        out[d + k] = subtract(q, subtract(q, out[d + k], out[k]), out[2 * d + k]);
}

#else

/* A transform has 2^places >= 2d-1 points. */
static long places(uint32_t d)
{
    long k = 0;
    while (((uint32_t)1 << k) < 2 * d - 1)
        k++;
    return k;
}

struct Sum {
    Transform whole, product;
    bool empty = true;

    void add_product(const Transform &m, const Transform &g)
    {
        if (empty) {
            NTL::mul(whole, m, g);
            empty = false;
        } else {
            NTL::mul(product, m, g);
            NTL::add(whole, whole, product);
        }
    }

    void residues(const struct shape *s, residue *out)
    {
        Polynomial sum;
        transform_back(sum, whole, 2 * (long)s->d - 2);
        for (uint32_t k = 0; k < s->d; k++)
            out[k] = subtract(s->q, (residue)at(sum, k), (residue)at(sum, s->d + k));
    }
};

static void inner(struct tables *t, size_t count, residue *out)
{
    long k = places(t->shape.d);
    Sum sum;
    Transform m, g;
    for (size_t i = 0; i < count; i++) {
        transform(m, t->message[i], k);
        transform(g, t->key[i], k);
        sum.add_product(m, g);
    }
    sum.residues(&t->shape, out);
}

static void round_sums(struct tables *t, size_t half, residue *out)
{
    long k = places(t->shape.d);
    Sum first, cross, second;
    Transform m0, m1, g0, g1;
    for (size_t i = 0; i < half; i++) {
        transform(m0, t->message[i], k);
        transform(m1, t->message[half + i], k);
        transform(g0, t->key[i], k);
        transform(g1, t->key[half + i], k);
        first.add_product(m0, g0);
        second.add_product(m1, g1);
        cross.add_product(m0, g1);
        cross.add_product(m1, g0);
    }
    first.residues(&t->shape, out);
    cross.residues(&t->shape, out + t->shape.d);
    second.residues(&t->shape, out + 2 * t->shape.d);
}

#endif

/* a0 + X^e*a1, in place, with all d coefficients stored meanwhile. */
static void fold_element(const struct shape *s, Polynomial &a0, const Polynomial &a1, uint32_t e)
{
    long d = s->d, shift = e % d;
    long length = a1.rep.length();
    a0.rep.SetLength(d);
    for (long k = 0; k < length; k++) {
        bool wraps = k + shift >= d;
        Number &x = a0.rep[wraps ? k + shift - d : k + shift];
        if (wraps == (e >= s->d))
            NTL::add(x, x, a1.rep[k]);
        else
            NTL::sub(x, x, a1.rep[k]);
    }
    a0.normalize();
}

static void fold(struct tables *t, size_t half, uint32_t e)
{
    for (size_t i = 0; i < half; i++) {
        fold_element(&t->shape, t->message[i], t->message[half + i], e);
        fold_element(&t->shape, t->key[i], t->key[half + i], e);
        if (!t->wholes.empty())
            fold_wholes(t->shape.d, &t->wholes[i * t->shape.d], &t->wholes[(half + i) * t->shape.d], e);
    }
}

static int admitted(const struct tables *) { return 1; }

static void last_element(const struct tables *t, int32_t *out)
{
    for (uint32_t k = 0; k < t->shape.d; k++) {
        long x = at(t->message[0], k), q = (long)t->shape.q;
        out[k] = t->wholes.empty() ? (int32_t)(x > q / 2 ? x - q : x) : t->wholes[k];
    }
}

struct tables *baseline_prepare(uint32_t d, uint32_t l, uint64_t q, uint32_t b, const uint64_t *key, const int32_t *message, const uint32_t *challenges)
{
    struct tables *t = new tables;
    start(&t->shape, d, l, q, b);
    t->shape.challenges = challenges;
    begin(q);
    t->key.resize(t->shape.n);
    t->message.resize(t->shape.n);
    for (size_t i = 0; i < t->shape.n; i++)
        for (uint32_t k = 0; k < d; k++) {
            NTL::SetCoeff(t->key[i], k, (long)key[i * d + k]);
            NTL::SetCoeff(t->message[i], k, (long)message[i * d + k]);
        }
    if (!told(&t->shape))
        t->wholes.assign(message, message + t->shape.n * d);
    return t;
}

void baseline_release(struct tables *t) { delete t; }
