/* The benchmark's C with the verified library's transform for modulus 12289. Sixteen elements of either table are transformed side by side in numbers of 16 bits, their
 * products are added up place by place in 32, and the sums come back once. Products with a power z use its share, z*65536/12289: what they leave is below 2*12289, and sums
 * are kept below 4*12289. From degree 32 on, where the number of elements is a multiple of sixteen, the sums of products are taken so; else, and in all that is no sum of
 * products, it is plain.c with 2.5n products an opening. */
#define FEWER
#define TRANSFORM
#ifndef NAME
#define NAME "C transform"
#endif
#include "opening.h"

#define SMALL 12289
#define LANES 16

/* The powers of 9 modulo 12289, whose 128th is -1, and their shares. */
static uint16_t powers[256], shares[256];

__attribute__((constructor)) static void fill_powers(void)
{
    uint32_t z = 1;
    for (int e = 0; e < 256; e++) {
        powers[e] = (uint16_t)z;
        shares[e] = (uint16_t)(z * 65536 / SMALL);
        z = z * 9 % SMALL;
    }
}

/* z*x, below 2*12289. */
static inline uint16_t times_power(uint16_t z, uint16_t share, uint16_t x)
{
    uint16_t part = (uint16_t)(((uint32_t)x * share) >> 16);
    return (uint16_t)((uint16_t)((uint32_t)x * z) - (uint16_t)((uint32_t)part * SMALL));
}

static inline uint16_t lowered(uint16_t x) { return x >= 2 * SMALL ? (uint16_t)(x - 2 * SMALL) : x; }

/* One level down: a block of 2h numbers becomes two of h. */
static void split(uint16_t *restrict low, uint16_t *restrict high, size_t h, uint16_t z, uint16_t share)
{
    for (size_t i = 0; i < h; i++) {
        uint16_t x = lowered(low[i]), y = times_power(z, share, high[i]);
        low[i] = (uint16_t)(x + y);
        high[i] = (uint16_t)(x + (2 * SMALL - y));
    }
}

static void join(uint16_t *restrict low, uint16_t *restrict high, size_t h, uint16_t z, uint16_t share)
{
    for (size_t i = 0; i < h; i++) {
        uint16_t x = low[i], y = high[i];
        low[i] = lowered((uint16_t)(x + y));
        high[i] = times_power(z, share, (uint16_t)(y + 2 * SMALL - x));
    }
}

/* The block at 9^e, of `length` numbers and `places` places, all the way down. */
static void down(uint16_t *s, size_t length, uint32_t places, uint32_t e)
{
    if (places == 1)
        return;
    uint32_t half = e / 2;
    split(s, s + length / 2, length / 2, powers[half], shares[half]);
    down(s, length / 2, places / 2, half);
    down(s + length / 2, length / 2, places / 2, half + 128);
}

/* And up again, for one element; it comes `places` times. */
static void up(uint16_t *s, uint32_t places, uint32_t e)
{
    if (places == 1)
        return;
    uint32_t half = e / 2;
    up(s, places / 2, half);
    up(s + places / 2, places / 2, half + 128);
    join(s, s + places / 2, places / 2, powers[128 - half], shares[128 - half]);
}

/* A number below 4*12289 for one within 2^16 of 0. */
static inline uint16_t raised(int32_t x)
{
    uint32_t t = (uint32_t)(x + 6 * SMALL), part = t * 5 >> 16;
    return (uint16_t)(t - part * SMALL);
}

static inline uint16_t least(uint16_t x)
{
    uint16_t y = lowered(x);
    return y >= SMALL ? (uint16_t)(y - SMALL) : y;
}

static void add_transformed(uint32_t *restrict sums, const uint16_t *restrict x, const uint16_t *restrict y, size_t count)
{
    for (size_t j = 0; j < count; j++)
        sums[j] += (uint32_t)least(x[j]) * least(y[j]);
}

/* Sixteen elements, or sums of two that stand `beside` numbers apart, side by side. */
static void place(uint32_t d, const int32_t *m, const residue *g, size_t beside, uint16_t *restrict x, uint16_t *restrict y)
{
    for (size_t l = 0; l < LANES; l++)
        for (size_t k = 0; k < d; k++) {
            size_t at = l * d + k;
            x[k * LANES + l] = raised(beside ? m[at] + m[at + beside] : m[at]);
            y[k * LANES + l] = (uint16_t)(beside ? g[at] + g[at + beside] : g[at]);
        }
}

/* The sum of m_i*g_i, or with `beside` that of (m_i + m_j)*(g_i + g_j), g_j being that many numbers behind g_i; 0 says that the transform is not for it. */
static int transformed(const struct shape *s, size_t count, const int32_t *m, const residue *g, size_t beside, residue *out)
{
    uint32_t d = s->d;
    if (s->q != SMALL || d < 32 || count == 0 || count % LANES != 0)
        return 0;
    static _Thread_local uint16_t x[LANES * MOST], y[LANES * MOST];
    uint32_t sums[LANES * MOST] = {0};
    for (size_t i = 0; i < count; i += LANES) {
        place(d, m + i * d, g + i * d, beside, x, y);
        down(x, LANES * d, d, 128);
        down(y, LANES * d, d, 128);
        add_transformed(sums, x, y, LANES * d);
    }
    uint16_t r[MOST];
    for (uint32_t k = 0; k < d; k++) {
        uint64_t sum = 0;
        for (uint32_t l = 0; l < LANES; l++)
            sum += sums[k * LANES + l];
        r[k] = (uint16_t)(sum % SMALL);
    }
    up(r, d, 128);
    uint32_t back = SMALL - (SMALL - 1) / d; /* the inverse of d */
    for (uint32_t k = 0; k < d; k++)
        out[k] = r[k] * back % SMALL;
    return 1;
}

#include "plain.c"
