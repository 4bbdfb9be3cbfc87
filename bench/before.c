/* This library beside an earlier one: `before NEW.so OLD.so TURNS` times each call of both in turns, on the same input, by the processor time of the thread, and prints
 * medians and their ratio. What they answer is compared; where it differs the program says so and leaves with 1. Up to version 0.2 residues and modulus had 32 bits,
 * since then they have 64; up to 0.3 a record had 78 numbers, up to 0.4 it had 142; since 0.5 settings have a fifth number, that of rows, which is 1 here, and a record
 * has 527; since 0.6 a listing has the claims as its last part, and a record for `verify` has to have them. Either library may be of any kind. `bench/before` builds both
 * and runs it. */
#include "../include/wovenrock.h"
#include <dlfcn.h>
#include <stdbool.h>
#include <stdio.h>
#include <stdlib.h>
#include <string.h>
#include <time.h>

#define WIDTH WOVENROCK_DEGREE_MAX
#define SIZE 256
#define CELLS (SIZE * WIDTH)
#define DEPTH WOVENROCK_DEPTH_MAX
/* The larger of the two trees, d = 4, L = 8, has 3280 branching nodes and 6561 leaves. */
#define NODES 3280
#define LEAVES 6561
#define TEXT WOVENROCK_TEXT
/* Numbers of a record before there were rows, and what a text has since then, from the line before on. */
#define OLD_SESSION 142
#define ROWS_LINE "\n0 0 4 1\n"
/* How the claims begin, and a record that has some; it is refused where there were none yet. */
#define CLAIMS_LINE "\n7 0 0 "
#define WITH_CLAIMS                                                                                                                                      \
  "part item place value\n0 0 0 2\n0 0 1 1\n0 0 2 17\n0 0 3 1\n0 0 4 1\n1 0 0 3\n1 0 1 5\n1 1 0 7\n1 1 1 2\n3 0 0 15\n3 0 1 4\n4 0 0 4\n4 0 1 1\n4 1 0 6\n4 1 1 0\n" \
  "4 2 0 12\n4 2 1 1\n5 0 0 1\n6 0 0 1\n6 0 1 0\n7 0 0 9\n7 0 1 6\n"
#define MODULUS 2147483647u
/* The one with a transform, since version 0.4. */
#define SMALL 12289u

/* What `prove` reads, and what `verify` reads. */
#define WITNESS (WOVENROCK_KEY | WOVENROCK_MESSAGE | WOVENROCK_CHALLENGES)
#define OLD_RECORD (WOVENROCK_KEY | WOVENROCK_COMMITMENT | WOVENROCK_ROUNDS | WOVENROCK_CHALLENGES | WOVENROCK_LAST)
#define RECORD (OLD_RECORD | WOVENROCK_CLAIMS)

/* The functions of a library. */
#define CALLS(X)                                                                                                                                          \
  X(settings) X(commit) X(round) X(fold) X(end) X(open) X(session_start) X(session_round) X(session_end) X(check) X(judge) X(extract) X(read) X(write) \
  X(prove) X(verify)

/* What is timed. */
enum call { COMMIT, OPEN, CHECK, SESSION, JUDGE, EXTRACT, READ_TEXT, WRITE_TEXT, PROVE, VERIFY };

static uint64_t mix(uint64_t sum, uint64_t number) {
  return (sum ^ number) * UINT64_C(0x9e3779b97f4a7c15) + (sum >> 29);
}

#define FIRST UINT64_C(88172645463325252)
static uint64_t drawn;
static uint32_t draw(uint32_t below) {
  drawn ^= drawn << 13;
  drawn ^= drawn >> 7;
  drawn ^= drawn << 17;
  return (uint32_t)(drawn % below);
}

#define RESIDUE uint64_t
#define HAS_ROWS 1
#define HAS_CLAIMS 1
#define NAMED(name) name##_claims
#include "side.h"
#undef HAS_CLAIMS
#undef NAMED

#define HAS_CLAIMS 0
#define NAMED(name) name##_rows
#include "side.h"
#undef HAS_ROWS
#undef NAMED

#define HAS_ROWS 0
#define NAMED(name) name##_64
#include "side.h"
#undef RESIDUE
#undef NAMED

#define RESIDUE uint32_t
#define NAMED(name) name##_32
#include "side.h"
#undef RESIDUE
#undef HAS_ROWS
#undef HAS_CLAIMS
#undef NAMED

/* The side with claims is declared as the header is. */
#define DECLARED(name) _Static_assert(__builtin_types_compatible_p(__typeof__(((struct library_claims *)0)->name), __typeof__(&wovenrock_##name)), #name);
CALLS(DECLARED)

/* A side with the functions for it. */
struct side {
  void *state;
  void (*fill)(void *, uint32_t, uint32_t, uint32_t, uint32_t, bool, bool);
  void (*call)(void *, enum call);
  uint64_t (*answer)(const void *);
  void (*clear)(void *);
};

static struct side load(const char *path) {
  void *file = dlopen(path, RTLD_NOW | RTLD_LOCAL);
  if (!file) {
    fprintf(stderr, "before: %s\n", dlerror());
    exit(1);
  }
  /* A library that knows of rows refuses to have none; another one does not see the fifth number. */
  __typeof__(&wovenrock_settings) settings = (__typeof__(settings))dlsym(file, "wovenrock_settings");
  if (settings(2, 0, 17, 1, 0) != 0) {
    __typeof__(&wovenrock_verify) verify = (__typeof__(verify))dlsym(file, "wovenrock_verify");
    uint32_t verdict;
    if (verify((const uint8_t *)WITH_CLAIMS, strlen(WITH_CLAIMS), &verdict) == 0)
      return (struct side){load_claims(file), fill_claims, call_claims, answer_claims, clear_claims};
    return (struct side){load_rows(file), fill_rows, call_rows, answer_rows, clear_rows};
  }
  /* This modulus is refused, but its low half alone is not. */
  struct side_64 *wide = load_64(file);
  if (wide->lib.settings(2, 0, (UINT64_C(1) << 63) + 17, 1) != 0)
    return (struct side){wide, fill_64, call_64, answer_64, clear_64};
  free(wide);
  return (struct side){load_32(file), fill_32, call_32, answer_32, clear_32};
}

static double now(void) {
  struct timespec t;
  clock_gettime(CLOCK_THREAD_CPUTIME_ID, &t);
  return t.tv_sec * 1e6 + t.tv_nsec / 1e3;
}

static int order(const void *a, const void *b) {
  double x = *(const double *)a, y = *(const double *)b;
  return (x > y) - (x < y);
}

static double turn(const struct side *side, enum call which, int calls) {
  double begun = now();
  for (int i = 0; i < calls; i++)
    side->call(side->state, which);
  return (now() - begun) / calls;
}

static struct side new, old;
static int turns;
static bool same = true;

/* The input of the next rows. */
static uint32_t degree, depth, modulus = MODULUS;
static void fill(const uint32_t settings[3], bool tree, bool texts) {
  degree = settings[0], depth = settings[1];
  new.fill(new.state, degree, depth, modulus, settings[2], tree, texts);
  old.fill(old.state, degree, depth, modulus, settings[2], tree, texts);
}

/* A turn has so many calls that it takes some hundred microseconds. */
static void row(const char *what, enum call which) {
  double *a = malloc(turns * sizeof *a), *b = malloc(turns * sizeof *b);
  char name[64];
  snprintf(name, sizeof name, "%s, d = %u, L = %u%s", what, degree, depth, modulus == SMALL ? ", q = 12289" : "");
  new.clear(new.state);
  old.clear(old.state);
  double once = turn(&new, which, 1);
  turn(&old, which, 1);
  if (new.answer(new.state) != old.answer(old.state)) {
    printf("%s: the answers differ\n", name);
    same = false;
  }
  int calls = once > 500 ? 1 : (int)(500 / once) + 1;
  for (int i = 0; i < turns; i++) {
    a[i] = turn(&new, which, calls);
    b[i] = turn(&old, which, calls);
  }
  qsort(a, turns, sizeof *a, order);
  qsort(b, turns, sizeof *b, order);
  printf("%-36s %11.2f %11.2f %7.3f\n", name, a[turns / 2], b[turns / 2], a[turns / 2] / b[turns / 2]);
  free(a);
  free(b);
}

int main(int count, char **words) {
  turns = count == 4 ? atoi(words[3]) : 0;
  if (turns < 1) {
    fprintf(stderr, "usage: before NEW.so OLD.so TURNS\n");
    return 1;
  }
  new = load(words[1]);
  old = load(words[2]);
  printf("%-36s %11s %11s %7s\n", "call", "now us", "before us", "ratio");
  const uint32_t large[2][3] = {{64, 8, 127}, {4, 8, 127}}, trees[2][3] = {{64, 3, 127}, {4, 8, 2}}, text[3] = {64, 4, 127};
  for (int i = 0; i < 2; i++) {
    fill(large[i], false, false);
    row("commit", COMMIT);
    row("open", OPEN);
    row("check", CHECK);
    row("session", SESSION);
  }
  for (int i = 0; i < 2; i++) {
    fill(trees[i], true, false);
    row("judge", JUDGE);
    row("extract", EXTRACT);
  }
  fill(text, false, true);
  row("read", READ_TEXT);
  row("write", WRITE_TEXT);
  row("prove", PROVE);
  row("verify", VERIFY);
  modulus = SMALL;
  for (uint32_t d = 16; d <= 64; d *= 2) {
    const uint32_t small[3] = {d, 8, 127};
    fill(small, false, false);
    row("commit", COMMIT);
    row("open", OPEN);
    row("check", CHECK);
    row("session", SESSION);
  }
  return same ? 0 : 1;
}
