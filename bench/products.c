/* The library with modulus 12289, where products go through a transform, beside its own plain product: `products TURNS` prints rows of the table of times.
 *
 *   commit, d = 32, 64, 128   beside the inner product of the same tables by the plain way, which crate measured exports
 *   commit, open, d = 64      beside the same call with 12347, a modulus of the same size whose products are plain
 *   open, d = 128             beside the inner products of an opening by the plain way, without its folds and tests, as no call takes 128 with another modulus */
#include "../include/wovenrock.h"
#include <stdbool.h>
#include <stdio.h>
#include <stdlib.h>
#include <string.h>
#include <time.h>

#define MODULUS WOVENROCK_MODULUS_OF_DEGREE_MAX
#define PLAIN_MODULUS 12347
#define BOUND 127
#define DEPTH 8
#define CELLS ((size_t)WOVENROCK_DEGREE_MAX << DEPTH)

/* The sum of m_i*G_i modulo 12289 over the first `count` elements of tables of a degree up to 128, by the plain way. */
void measured_plain_inner(uint32_t degree, uint32_t count, const uint64_t *key, size_t key_length, const int32_t *message, size_t message_length,
                          uint64_t *out, size_t out_length);

static uint32_t degree;
static uint64_t key[CELLS], folded_key[CELLS], commitment[WOVENROCK_DEGREE_MAX], other_commitment[WOVENROCK_DEGREE_MAX], rounds[3 * DEPTH * WOVENROCK_DEGREE_MAX];
static int32_t message[CELLS], folded_message[CELLS], last[WOVENROCK_DEGREE_MAX];
static uint32_t challenges[DEPTH];

static uint64_t drawn = UINT64_C(88172645463325252);
static uint32_t draw(uint32_t below) {
  drawn ^= drawn << 13;
  drawn ^= drawn >> 7;
  drawn ^= drawn << 17;
  return (uint32_t)(drawn % below);
}

static void fill(uint32_t d) {
  degree = d;
  for (size_t i = 0; i < (size_t)d << DEPTH; i++) {
    key[i] = draw(MODULUS);
    message[i] = (int32_t)draw(2 * BOUND + 1) - BOUND;
  }
  for (int i = 0; i < DEPTH; i++)
    challenges[i] = draw(2 * d);
}

static void need(bool good, const char *what) {
  if (!good) {
    fprintf(stderr, "products: %s at degree %u\n", what, degree);
    exit(1);
  }
}

static double now(void) {
  struct timespec t;
  clock_gettime(CLOCK_THREAD_CPUTIME_ID, &t);
  return t.tv_sec * 1e6 + t.tv_nsec / 1e3;
}

static double commit_with(uint64_t modulus) {
  size_t n = (size_t)degree << DEPTH;
  double start = now();
  uint32_t number = wovenrock_commit(degree, DEPTH, modulus, BOUND, 1, key, n, message, n, commitment, degree);
  double time = now() - start;
  need(number == 0, "commit is refused");
  return time;
}

/* A copy of both tables is folded; the copying is not timed. */
static double open_with(uint64_t modulus) {
  size_t n = (size_t)degree << DEPTH;
  uint32_t verdict;
  memcpy(folded_key, key, n * sizeof *key);
  memcpy(folded_message, message, n * sizeof *message);
  double start = now();
  wovenrock_open(degree, DEPTH, modulus, BOUND, 1, folded_key, n, folded_message, n, challenges, DEPTH, rounds, 3 * DEPTH * degree, commitment, degree, last, degree,
                 &verdict);
  double time = now() - start;
  need(verdict == WOVENROCK_ACCEPTED, "the opening is not accepted");
  return time;
}

static void plain_inner(uint32_t depth) {
  size_t n = (size_t)degree << depth;
  measured_plain_inner(degree, 1u << depth, key, n, message, n, other_commitment, degree);
}

static double commit_ours(void) { return commit_with(MODULUS); }
static double commit_other(void) { return commit_with(PLAIN_MODULUS); }
static double open_ours(void) { return open_with(MODULUS); }
static double open_other(void) { return open_with(PLAIN_MODULUS); }

static double commit_plain(void) {
  double start = now();
  plain_inner(DEPTH);
  return now() - start;
}

/* The 2.5n products of an opening: both halves, then in each round the halves' sums and the first half of what is left. */
static double open_plain(void) {
  double start = now();
  plain_inner(DEPTH - 1);
  plain_inner(DEPTH - 1);
  for (uint32_t left = DEPTH; left > 0; left--) {
    plain_inner(left - 1);
    if (left > 1)
      plain_inner(left - 2);
  }
  return now() - start;
}

static int order(const void *a, const void *b) {
  double x = *(const double *)a, y = *(const double *)b;
  return (x > y) - (x < y);
}

static int turns;

static void row(const char *call, const char *beside, double (*ours)(void), double (*other)(void)) {
  double *a = malloc(turns * sizeof *a), *b = malloc(turns * sizeof *b);
  char name[64];
  snprintf(name, sizeof name, "%s, d = %u, L = %u, q = 12289", call, degree, DEPTH);
  for (int i = 0; i < turns; i++) {
    a[i] = ours();
    b[i] = other();
  }
  qsort(a, turns, sizeof *a, order);
  qsort(b, turns, sizeof *b, order);
  printf("%-44s %-24s %11.1f %11.1f %7.3f\n", name, beside, a[turns / 2], b[turns / 2], a[turns / 2] / b[turns / 2]);
  free(a);
  free(b);
}

int main(int count, char **words) {
  turns = count == 2 ? atoi(words[1]) : 0;
  if (turns < 1) {
    fprintf(stderr, "usage: products TURNS\n");
    return 1;
  }
  for (uint32_t d = 32; d <= WOVENROCK_DEGREE_MAX; d *= 2) {
    fill(d);
    row("commit", "verified, plain product", commit_ours, commit_plain);
    need(memcmp(commitment, other_commitment, d * sizeof *commitment) == 0, "the plain product is another one");
    if (d == 64) {
      row("commit", "verified, q = 12347", commit_ours, commit_other);
      row("open", "verified, q = 12347", open_ours, open_other);
    }
    if (d == WOVENROCK_DEGREE_MAX)
      row("open", "verified, plain product", open_ours, open_plain);
  }
}
