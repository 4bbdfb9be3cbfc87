/* The benchmark's FLINT, on the vectors of nmod_poly. Key and message are vectors of residues; a whole number is told from its residue, where it is far
 * below q/2; with a small modulus the whole numbers are folded beside. Input is not tested. There are two ways to the sums of products:
 *
 *   plain    _nmod_poly_mul for each product; products are added up unreduced, then X^d = -1 is put in and one reduction made per coefficient
 *   PACKED   elements are packed into long integers (FLINT's own Kronecker substitution), GMP multiplies and adds these, and one sum is unpacked and
 *            reduced at the end. Message coefficients are lifted by their bound, which keeps the places narrow; with a small modulus residues do. There is no WIDE of it.
 */
#include <flint/flint.h>
#include <flint/nmod_vec.h>
#include <flint/nmod_poly.h>
#ifndef WIDE
#define MODULI 5
#endif
#ifdef PACKED
#define NAME "FLINT, reduced once"
#else
#define NAME "FLINT nmod_poly"
#endif
#include "opening.h"

struct tables {
    struct shape shape;
    nmod_t mod;
    mp_ptr key, message;
    int32_t *wholes; /* null where they are told from the residues */
};

static mp_limb_t reduced(const struct tables *t, total x)
{
    mp_limb_t rest;
#ifdef WIDE
    NMOD2_RED2(rest, (mp_limb_t)(x >> 64), (mp_limb_t)x, t->mod);
#else
    NMOD_RED(rest, x, t->mod);
#endif
    return rest;
}

/* Puts X^d = -1 in a sum of degree 2d-2, and reduces it. */
static void put_in(const struct tables *t, const total *sum, residue *out)
{
    uint32_t d = t->shape.d;
    for (uint32_t k = 0; k < d; k++) {
        mp_limb_t low = reduced(t, sum[k]), high = k + 1 < d ? reduced(t, sum[d + k]) : 0;
        out[k] = (residue)nmod_sub(low, high, t->mod);
    }
}

static void add_to(total *sum, const mp_limb_t *a, uint32_t count)
{
    for (uint32_t k = 0; k < count; k++)
        sum[k] += a[k];
}

#ifndef PACKED

static void add_product(const struct tables *t, total *sum, mp_srcptr m, mp_srcptr g)
{
    uint32_t d = t->shape.d;
    mp_limb_t product[2 * MOST];
    _nmod_poly_mul(product, m, d, g, d, t->mod);
    add_to(sum, product, 2 * d - 1);
}

static void inner(struct tables *t, size_t count, residue *out)
{
    total sum[2 * MOST] = {0};
    uint32_t d = t->shape.d;
    for (size_t i = 0; i < count; i++)
        add_product(t, sum, t->message + i * d, t->key + i * d);
    put_in(t, sum, out);
}

static void round_sums(struct tables *t, size_t half, residue *out)
{
    total first[2 * MOST] = {0}, middle[2 * MOST] = {0}, second[2 * MOST] = {0};
    uint32_t d = t->shape.d;
    for (size_t i = 0; i < half; i++) {
        mp_limb_t m[MOST], g[MOST];
        mp_srcptr m0 = t->message + i * d, g0 = t->key + i * d, m1 = m0 + half * d, g1 = g0 + half * d;
        _nmod_vec_add(m, m0, m1, d, t->mod);
        _nmod_vec_add(g, g0, g1, d, t->mod);
        add_product(t, first, m0, g0);
        add_product(t, second, m1, g1);
        add_product(t, middle, m, g);
    }
    put_in(t, first, out);
    put_in(t, middle, out + d);
    put_in(t, second, out + 2 * d);
    for (uint32_t k = 0; k < d; k++)
        out[d + k] = subtract(t->shape.q, subtract(t->shape.q, out[d + k], out[k]), out[2 * d + k]);
}

#else

/* Bits of a place: 16 for a lifted message coefficient times the number of elements, at every round, 32 for a sum of two key coefficients, 6 for d. */
#define WIDTH 54

/* A sum of products of lifted message elements and key elements, with the sum of the keys. */
struct sum {
    mp_limb_t lift, places[2 * MOST + 1];
    total keys[MOST];
};

static mp_size_t limbs(uint32_t d) { return ((mp_size_t)d * WIDTH + 63) / 64; }

static residue reduce_signed(const struct shape *s, int64_t x)
{
    residue rest = reduce(s, (total)(x < 0 ? -x : x));
    return x < 0 && rest != 0 ? s->q - rest : rest;
}

/* The lifted message element, packed. */
static void pack_message(const struct tables *t, mp_ptr out, mp_srcptr m, mp_limb_t lift)
{
    mp_limb_t lifted[MOST] = {0};
    for (uint32_t k = 0; k < t->shape.d; k++)
        lifted[k] = nmod_add(m[k], lift, t->mod);
    _nmod_poly_bit_pack(out, lifted, t->shape.d, WIDTH);
}

static void add_product(const struct tables *t, struct sum *s, mp_srcptr m, mp_srcptr g)
{
    mp_size_t size = limbs(t->shape.d);
    mp_limb_t product[2 * MOST];
    mpn_mul_n(product, m, g, size);
    mpn_add_n(s->places, s->places, product, 2 * size);
}

/* Takes the lift times 1 + X + ... + X^(d-1) times the keys away. */
static void residues(const struct tables *t, const struct sum *s, residue *out)
{
    uint32_t d = t->shape.d;
    mp_limb_t unpacked[2 * MOST];
    total sum[2 * MOST] = {0};
    int64_t difference = 0;
    _nmod_poly_bit_unpack(unpacked, 2 * d - 1, s->places, WIDTH, t->mod);
    add_to(sum, unpacked, 2 * d - 1);
    put_in(t, sum, out);
    for (uint32_t k = 0; k < d; k++)
        difference -= (int64_t)s->keys[k];
    for (uint32_t k = 0; k < d; k++) {
        difference += 2 * (int64_t)s->keys[k];
        out[k] = subtract(t->shape.q, out[k], reduce_signed(&t->shape, (int64_t)s->lift * difference));
    }
}

static void inner(struct tables *t, size_t count, residue *out)
{
    struct sum s = {t->wholes ? 0 : t->shape.n / count * t->shape.b, {0}, {0}};
    uint32_t d = t->shape.d;
    for (size_t i = 0; i < count; i++) {
        mp_limb_t m[MOST], g[MOST];
        pack_message(t, m, t->message + i * d, s.lift);
        _nmod_poly_bit_pack(g, t->key + i * d, d, WIDTH);
        add_product(t, &s, m, g);
        add_to(s.keys, t->key + i * d, d);
    }
    residues(t, &s, out);
}

static void round_sums(struct tables *t, size_t half, residue *out)
{
    uint32_t d = t->shape.d;
    mp_limb_t lift = t->wholes ? 0 : t->shape.n / (2 * half) * t->shape.b;
    struct sum first = {lift, {0}, {0}}, second = first, middle = {2 * lift, {0}, {0}};
    for (size_t i = 0; i < half; i++) {
        mp_limb_t pm0[MOST], pm1[MOST], pg0[MOST], pg1[MOST];
        mp_srcptr m0 = t->message + i * d, g0 = t->key + i * d, m1 = m0 + half * d, g1 = g0 + half * d;
        pack_message(t, pm0, m0, lift);
        pack_message(t, pm1, m1, lift);
        _nmod_poly_bit_pack(pg0, g0, d, WIDTH);
        _nmod_poly_bit_pack(pg1, g1, d, WIDTH);
        add_product(t, &first, pm0, pg0);
        add_product(t, &second, pm1, pg1);
        mpn_add_n(pm0, pm0, pm1, limbs(d));
        mpn_add_n(pg0, pg0, pg1, limbs(d));
        add_product(t, &middle, pm0, pg0);
        add_to(first.keys, g0, d);
        add_to(second.keys, g1, d);
    }
    for (uint32_t k = 0; k < d; k++)
        middle.keys[k] = first.keys[k] + second.keys[k];
    residues(t, &first, out);
    residues(t, &middle, out + d);
    residues(t, &second, out + 2 * d);
    for (uint32_t k = 0; k < d; k++)
        out[d + k] = subtract(t->shape.q, subtract(t->shape.q, out[d + k], out[k]), out[2 * d + k]);
}

#endif

/* a0 + X^e*a1, in place. */
static void fold_element(const struct tables *t, mp_ptr a0, mp_srcptr a1, uint32_t e)
{
    uint32_t d = t->shape.d, shift = e % d;
    if (e < d) {
        _nmod_vec_add(a0 + shift, a0 + shift, a1, d - shift, t->mod);
        _nmod_vec_sub(a0, a0, a1 + d - shift, shift, t->mod);
    } else {
        _nmod_vec_sub(a0 + shift, a0 + shift, a1, d - shift, t->mod);
        _nmod_vec_add(a0, a0, a1 + d - shift, shift, t->mod);
    }
}

static void fold(struct tables *t, size_t half, uint32_t e)
{
    uint32_t d = t->shape.d;
    for (size_t i = 0; i < half; i++) {
        fold_element(t, t->message + i * d, t->message + (half + i) * d, e);
        fold_element(t, t->key + i * d, t->key + (half + i) * d, e);
        if (t->wholes)
            fold_wholes(d, t->wholes + i * d, t->wholes + (half + i) * d, e);
    }
}

static int admitted(const struct tables *t)
{
    (void)t;
    return 1;
}

static void last_element(const struct tables *t, int32_t *out)
{
    for (uint32_t k = 0; k < t->shape.d; k++) {
        int64_t x = (int64_t)t->message[k], q = (int64_t)t->shape.q;
        out[k] = t->wholes ? t->wholes[k] : (int32_t)(x > q / 2 ? x - q : x);
    }
}

struct tables *baseline_prepare(uint32_t d, uint32_t l, uint64_t q, uint32_t b, const uint64_t *key, const int32_t *message, const uint32_t *challenges)
{
    struct tables *t = malloc(sizeof *t);
    start(&t->shape, d, l, q, b);
    size_t places = t->shape.n * d;
    t->shape.challenges = challenges;
    nmod_init(&t->mod, q);
    t->key = _nmod_vec_init((slong)places);
    t->message = _nmod_vec_init((slong)places);
    for (size_t k = 0; k < places; k++) {
        t->key[k] = key[k];
        t->message[k] = message[k] < 0 ? q - (mp_limb_t)-message[k] : (mp_limb_t)message[k];
    }
    t->wholes = told(&t->shape) ? NULL : malloc(places * sizeof *message);
    if (t->wholes)
        memcpy(t->wholes, message, places * sizeof *message);
    return t;
}

void baseline_release(struct tables *t)
{
    _nmod_vec_clear(t->key);
    _nmod_vec_clear(t->message);
    free(t->wholes);
    free(t);
}
