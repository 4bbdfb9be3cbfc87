/* Four rows of a key beside one: `rows TURNS` prints rows of the table of times, whose ratio is four rows / one row. The message is the same, and so is the first row of
 * the key, so that its element of the commitment and of each round must be the same too. A commitment and a whole opening, with modulus 2^31 - 1 and with 12289, where
 * products go through the transform. Then a key of as many numbers as a text, of four rows and of one, equally long. */
#include "../include/wovenrock.h"
#include <stdbool.h>
#include <stdio.h>
#include <stdlib.h>
#include <string.h>
#include <time.h>

#define DEGREE 64
#define DEPTH WOVENROCK_DEPTH_MAX
#define BOUND 127
#define ROWS WOVENROCK_ROWS_MAX
#define CELLS ((size_t)DEGREE << DEPTH)

static uint64_t modulus;
static uint64_t key[ROWS * CELLS], folded_key[ROWS * CELLS];
static int32_t message[CELLS], folded_message[CELLS];
static uint32_t challenges[DEPTH];

/* What a call answers with one row, and with four. */
struct answer {
  uint64_t commitment[ROWS * DEGREE], rounds[3 * DEPTH * ROWS * DEGREE];
  int32_t last[DEGREE];
};
static struct answer of_one, of_four;

static uint64_t drawn = UINT64_C(88172645463325252);
static uint32_t draw(uint32_t below) {
  drawn ^= drawn << 13;
  drawn ^= drawn >> 7;
  drawn ^= drawn << 17;
  return (uint32_t)(drawn % below);
}

static void fill(uint32_t q) {
  modulus = q;
  for (size_t i = 0; i < ROWS * CELLS; i++)
    key[i] = draw(q);
  for (size_t i = 0; i < CELLS; i++)
    message[i] = (int32_t)draw(2 * BOUND + 1) - BOUND;
  for (int i = 0; i < DEPTH; i++)
    challenges[i] = draw(2 * DEGREE);
}

static void need(bool good, const char *what) {
  if (!good) {
    fprintf(stderr, "rows: %s with modulus %llu\n", what, (unsigned long long)modulus);
    exit(1);
  }
}

static double now(void) {
  struct timespec t;
  clock_gettime(CLOCK_THREAD_CPUTIME_ID, &t);
  return t.tv_sec * 1e6 + t.tv_nsec / 1e3;
}

static double commit_with(uint32_t rows, struct answer *out) {
  double start = now();
  uint32_t number = wovenrock_commit(DEGREE, DEPTH, modulus, BOUND, rows, key, rows * CELLS, message, CELLS, out->commitment, rows * DEGREE);
  double time = now() - start;
  need(number == 0, "commit is refused");
  return time;
}

/* A copy of both tables is folded; the copying is not timed. */
static double open_with(uint32_t rows, struct answer *out) {
  uint32_t verdict;
  memcpy(folded_key, key, rows * CELLS * sizeof *key);
  memcpy(folded_message, message, sizeof message);
  double start = now();
  wovenrock_open(DEGREE, DEPTH, modulus, BOUND, rows, folded_key, rows * CELLS, folded_message, CELLS, challenges, DEPTH, out->rounds, 3 * DEPTH * rows * DEGREE,
                 out->commitment, rows * DEGREE, out->last, DEGREE, &verdict);
  double time = now() - start;
  need(verdict == WOVENROCK_ACCEPTED, "the opening is not accepted");
  return time;
}

static double commit_one(void) { return commit_with(1, &of_one); }
static double commit_four(void) { return commit_with(ROWS, &of_four); }
static double open_one(void) { return open_with(1, &of_one); }
static double open_four(void) { return open_with(ROWS, &of_four); }

/* The first of four rows answers as the one row does. */
static bool same(void) {
  bool good = memcmp(of_one.commitment, of_four.commitment, DEGREE * sizeof *of_one.commitment) == 0 && memcmp(of_one.last, of_four.last, sizeof of_one.last) == 0;
  for (size_t element = 0; element < 3 * DEPTH; element++)
    good &= memcmp(of_one.rounds + element * DEGREE, of_four.rounds + element * ROWS * DEGREE, DEGREE * sizeof *of_one.rounds) == 0;
  return good;
}

/* A key of NUMBERS numbers as a text: one row of 16 elements, or four of 4. The lines behind the settings are the same. */
#define NUMBERS ((size_t)16 * DEGREE)
static uint8_t text_of_one[WOVENROCK_TEXT], text_of_four[WOVENROCK_TEXT];
static size_t length_of_one, length_of_four;

static double write_with(uint32_t rows, uint32_t depth, uint8_t *text, size_t *length) {
  double start = now();
  uint32_t number = wovenrock_write(DEGREE, depth, modulus, BOUND, rows, WOVENROCK_KEY, key, NUMBERS, message, 0, folded_key, 0, folded_key, 0, challenges, 0, message, 0,
                                    folded_key, 0, text, WOVENROCK_TEXT, length);
  double time = now() - start;
  need(number == 0, "a text is not written");
  return time;
}

static double read_of(const uint8_t *text, size_t length) {
  uint64_t settings[WOVENROCK_SETTINGS];
  double start = now();
  uint32_t number = wovenrock_read(WOVENROCK_KEY, text, length, settings, WOVENROCK_SETTINGS, folded_key, NUMBERS, folded_message, 0, folded_key, 0, folded_key, 0, challenges, 0,
                                   folded_message, 0, folded_key, 0);
  double time = now() - start;
  need(number == 0 && memcmp(folded_key, key, NUMBERS * sizeof *key) == 0, "a text is not read as it was written");
  return time;
}

static double write_one(void) { return write_with(1, 4, text_of_one, &length_of_one); }
static double write_four(void) { return write_with(ROWS, 2, text_of_four, &length_of_four); }
static double read_one(void) { return read_of(text_of_one, length_of_one); }
static double read_four(void) { return read_of(text_of_four, length_of_four); }

static int order(const void *a, const void *b) {
  double x = *(const double *)a, y = *(const double *)b;
  return (x > y) - (x < y);
}

static int turns;

static void row(const char *name, double (*four)(void), double (*one)(void)) {
  double *a = malloc(turns * sizeof *a), *b = malloc(turns * sizeof *b);
  for (int i = 0; i < turns; i++) {
    a[i] = four();
    b[i] = one();
  }
  qsort(a, turns, sizeof *a, order);
  qsort(b, turns, sizeof *b, order);
  printf("%-44s %-24s %11.1f %11.1f %7.3f\n", name, "verified, one row", a[turns / 2], b[turns / 2], a[turns / 2] / b[turns / 2]);
  free(a);
  free(b);
}

static void row_at(const char *call, const char *q, double (*four)(void), double (*one)(void)) {
  char name[64];
  snprintf(name, sizeof name, "%s, d = %d, L = %d%s, four rows", call, DEGREE, DEPTH, q);
  row(name, four, one);
}

int main(int count, char **words) {
  turns = count == 2 ? atoi(words[1]) : 0;
  if (turns < 1) {
    fprintf(stderr, "usage: rows TURNS\n");
    return 1;
  }
  static const struct {
    uint32_t q;
    const char *name;
  } moduli[] = {{2147483647u, ""}, {12289, ", q = 12289"}};
  for (size_t i = 0; i < sizeof moduli / sizeof *moduli; i++) {
    fill(moduli[i].q);
    row_at("commit", moduli[i].name, commit_four, commit_one);
    row_at("open", moduli[i].name, open_four, open_one);
    need(same(), "the first of four rows is not as one row alone");
  }
  row("write a key, 1024 numbers, four rows", write_four, write_one);
  row("read a key, 1024 numbers, four rows", read_four, read_one);
  need(length_of_one == length_of_four, "the two texts are not equally long");
}
