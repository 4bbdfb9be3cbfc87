/* The comparison of the names line alone, beside a loop over its bytes and beside the whole reader on a short text: `names TURNS` prints two rows of the
 * table of times. A turn is 1000 calls, so that microseconds of a turn are nanoseconds of a call. */
#include "../include/wovenrock.h"
#include <stdbool.h>
#include <stdio.h>
#include <stdlib.h>
#include <string.h>
#include <time.h>

#define CALLS 1000
#define LINE "part item place value\n"

bool measured_names(const uint8_t *text, size_t length);

static const uint8_t text[] = LINE "0 0 0 2\n0 0 1 1\n0 0 2 17\n0 0 3 1\n0 0 4 1\n1 0 0 3\n1 0 1 5\n1 1 0 7\n1 1 1 2\n2 0 0 1\n2 0 1 -1\n2 1 0 1\n2 1 1 0\n5 0 0 1\n";

/* Key, message and challenges: bits 0, 1 and 4. */
#define PARTS 19

static bool by_words(const uint8_t *line) {
  return measured_names(line, sizeof LINE - 1);
}

__attribute__((noinline)) static bool byte_loop(const uint8_t *line, size_t length) {
  static const uint8_t names[] = LINE;
  for (size_t i = 0; i < sizeof names - 1; i++) {
    if (i >= length || line[i] != names[i])
      return false;
  }
  return true;
}

static bool by_bytes(const uint8_t *line) {
  return byte_loop(line, sizeof LINE - 1);
}

static bool by_reader(const uint8_t *whole) {
  uint64_t settings[WOVENROCK_SETTINGS], key[4], none[1];
  uint32_t challenges[1];
  int32_t message[4], no_last[1];
  return wovenrock_read(PARTS, whole, sizeof text - 1, settings, WOVENROCK_SETTINGS, key, 4, message, 4, none, 0, none, 0, challenges, 1, no_last, 0, none, 0) == 0;
}

static double now(void) {
  struct timespec t;
  clock_gettime(CLOCK_THREAD_CPUTIME_ID, &t);
  return t.tv_sec * 1e6 + t.tv_nsec / 1e3;
}

/* One turn; the compiler must take the text for a new one in each call. */
static double turn(bool (*call)(const uint8_t *)) {
  size_t yes = 0;
  double start = now();
  for (int i = 0; i < CALLS; i++) {
    const uint8_t *again = text;
    __asm__ volatile("" : "+r"(again) : : "memory");
    yes += call(again);
  }
  double time = now() - start;
  if (yes != CALLS)
    exit(1);
  return time;
}

static int order(const void *a, const void *b) {
  double x = *(const double *)a, y = *(const double *)b;
  return (x > y) - (x < y);
}

static void row(const char *beside, bool (*other)(const uint8_t *), int turns) {
  double *ours = malloc(turns * sizeof *ours), *theirs = malloc(turns * sizeof *theirs);
  for (int i = 0; i < turns; i++) {
    ours[i] = turn(by_words);
    theirs[i] = turn(other);
  }
  qsort(ours, turns, sizeof *ours, order);
  qsort(theirs, turns, sizeof *theirs, order);
  double a = ours[turns / 2], b = theirs[turns / 2];
  printf("%-44s %-24s %11.1f %11.1f %7.3f\n", "names line, 1000 times", beside, a, b, a / b);
  free(ours);
  free(theirs);
}

int main(int count, char **words) {
  int turns = count == 2 ? atoi(words[1]) : 0;
  if (turns < 1) {
    fprintf(stderr, "usage: names TURNS\n");
    return 1;
  }
  char reader[32];
  snprintf(reader, sizeof reader, "read, %zu bytes", sizeof text - 1);
  row("C, a loop of bytes", by_bytes, turns);
  row(reader, by_reader, turns);
}
