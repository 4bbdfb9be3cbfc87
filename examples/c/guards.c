/* A test of what the exported calls do to the memory that they are lent. Every slice and every single number stands between two guards of 16 numbers. Each call is
 * made once as it should be, then with each fault for which it has a refusal, then with each slice one number too short and one too long, and then with a
 * wrong length and a fault at once. A refused call answers the number of its first refusal and leaves every byte as it was (a refused start alone writes a
 * closed record of zeros), and a number behind a pointer is then 0. The program prints what was answered, and fails where something is not so. */
#include <stdbool.h>
#include <stdio.h>
#include <stdlib.h>
#include <string.h>

#include "wovenrock.h"

enum { GUARD = 16, SLICES = 9, GUARD_BYTE = 0xA5 };

/* How a call may use a slice. */
enum use {
    READ,    /* exactly its length, never written */
    WRITTEN, /* exactly its length, written where nothing is refused */
    RECORD,  /* the record of a start: a closed record of zeros where the start is refused */
    TEXT,    /* any length, never written */
    OUT,     /* at least the text's length, written where nothing is refused */
    SINGLE   /* one number behind a pointer: 0 where the call is refused */
};

struct slice {
    const char *name;
    enum use use;
    size_t width; /* bytes of a number */
    bool negative; /* numbers have a sign */
    size_t count;
    unsigned char *room; /* guard, numbers, guard */
};

struct input {
    uint64_t settings[WOVENROCK_SETTINGS];
    uint32_t done, exponent, slack, parts;
    struct slice slices[SLICES];
    int used;
};

static int failures = 0;

static void fail(const char *scenario, const char *what, const char *slice, uint32_t wanted, uint32_t found) {
    fprintf(stderr, "%s, %s%s%s: wanted %u, found %u\n", scenario, what, *slice ? " of " : "", slice, wanted, found);
    failures++;
}

/* Slices between guards. */

static unsigned char *numbers(const struct slice *s) {
    return s->room + GUARD * s->width;
}

static size_t room_bytes(const struct slice *s) {
    return (s->count + 2 * GUARD) * s->width;
}

/* A slice of `count` numbers: the first of `values`, and zeros where there are fewer. */
static struct slice make(const char *name, enum use use, size_t width, bool negative, size_t count, const void *values, size_t given) {
    struct slice s = {name, use, width, negative, count, NULL};
    s.room = malloc(room_bytes(&s));
    if (s.room == NULL)
        exit(2);
    memset(s.room, GUARD_BYTE, room_bytes(&s));
    memset(numbers(&s), 0, count * width);
    memcpy(numbers(&s), values, (given < count ? given : count) * width);
    return s;
}

static struct slice resized(const struct slice *s, size_t count) {
    return make(s->name, s->use, s->width, s->negative, count, numbers(s), s->count);
}

static void lend(struct input *in, struct slice s) {
    in->slices[in->used++] = s;
}

static struct input copy(const struct input *in) {
    struct input out = *in;
    for (int i = 0; i < in->used; i++)
        out.slices[i] = resized(&in->slices[i], in->slices[i].count);
    return out;
}

static void drop(struct input *in) {
    for (int i = 0; i < in->used; i++)
        free(in->slices[i].room);
}

static int64_t number_at(const struct slice *s, size_t place) {
    const unsigned char *at = numbers(s) + place * s->width;
    uint32_t u;
    int64_t w;
    if (s->width == 1)
        return *at;
    if (s->width == 4) {
        memcpy(&u, at, 4);
        return s->negative ? (int32_t)u : (int64_t)u;
    }
    memcpy(&w, at, 8);
    return w;
}

static void put(struct slice *s, size_t place, int64_t value) {
    uint32_t u = (uint32_t)value;
    unsigned char *at = numbers(s) + place * s->width;
    if (s->width == 4)
        memcpy(at, &u, 4);
    else
        memcpy(at, &value, 8);
}

#define COUNT(a) (sizeof(a) / sizeof((a)[0]))
#define U32(name, use, ...) make(name, use, 4, false, COUNT(((uint32_t[]){__VA_ARGS__})), (uint32_t[]){__VA_ARGS__}, COUNT(((uint32_t[]){__VA_ARGS__})))
#define U64(name, use, ...) make(name, use, 8, false, COUNT(((uint64_t[]){__VA_ARGS__})), (uint64_t[]){__VA_ARGS__}, COUNT(((uint64_t[]){__VA_ARGS__})))
#define I32(name, use, ...) make(name, use, 4, true, COUNT(((int32_t[]){__VA_ARGS__})), (int32_t[]){__VA_ARGS__}, COUNT(((int32_t[]){__VA_ARGS__})))
#define I64(name, use, ...) make(name, use, 8, true, COUNT(((int64_t[]){__VA_ARGS__})), (int64_t[]){__VA_ARGS__}, COUNT(((int64_t[]){__VA_ARGS__})))
#define ZEROS(name, use, width, negative, count) make(name, use, width, negative, count, "", 0)
#define BYTES(name, use, text) make(name, use, 1, false, strlen(text), text, strlen(text))

/* The calls. */

#define SETTINGS (uint32_t)in->settings[0], (uint32_t)in->settings[1], in->settings[2], (uint32_t)in->settings[3], (uint32_t)in->settings[4]
#define AT(i) (void *)numbers(&in->slices[i])
#define SLICE(i) AT(i), in->slices[i].count

static uint32_t settings(struct input *in) { return wovenrock_settings(SETTINGS); }
static uint32_t commit(struct input *in) { return wovenrock_commit(SETTINGS, SLICE(0), SLICE(1), SLICE(2)); }
static uint32_t prover_round(struct input *in) { return wovenrock_round(SETTINGS, in->done, SLICE(0), SLICE(1), SLICE(2)); }
static uint32_t fold(struct input *in) { return wovenrock_fold(SETTINGS, in->done, in->exponent, SLICE(0), SLICE(1)); }
static uint32_t prover_end(struct input *in) { return wovenrock_end(SETTINGS, in->done, SLICE(0), SLICE(1)); }
static uint32_t whole(struct input *in) { return wovenrock_open(SETTINGS, SLICE(0), SLICE(1), SLICE(2), SLICE(3), SLICE(4), SLICE(5), AT(6)); }
static uint32_t start(struct input *in) { return wovenrock_session_start(SETTINGS, SLICE(0), SLICE(1)); }
static uint32_t session_round(struct input *in) { return wovenrock_session_round(SLICE(0), in->exponent, SLICE(1), AT(2)); }
static uint32_t session_end(struct input *in) { return wovenrock_session_end(SLICE(0), SLICE(1), SLICE(2), AT(3)); }
static uint32_t check(struct input *in) { return wovenrock_check(SETTINGS, SLICE(0), SLICE(1), SLICE(2), SLICE(3), SLICE(4), AT(5)); }
static uint32_t judge(struct input *in) { return wovenrock_judge(SETTINGS, SLICE(0), in->slack, SLICE(1), SLICE(2), AT(3)); }
static uint32_t extract(struct input *in) { return wovenrock_extract(SETTINGS, SLICE(0), SLICE(1), SLICE(2), SLICE(3), SLICE(4), SLICE(5)); }
static uint32_t look(struct input *in) { return wovenrock_look(SLICE(0), SLICE(1)); }
static uint32_t reads(struct input *in) {
    return wovenrock_read(in->parts, SLICE(0), SLICE(1), SLICE(2), SLICE(3), SLICE(4), SLICE(5), SLICE(6), SLICE(7), SLICE(8));
}
static uint32_t writes(struct input *in) {
    return wovenrock_write(SETTINGS, in->parts, SLICE(0), SLICE(1), SLICE(2), SLICE(3), SLICE(4), SLICE(5), SLICE(6), SLICE(7), AT(8));
}
static uint32_t prove(struct input *in) { return wovenrock_prove(SLICE(0), SLICE(1), AT(2)); }
static uint32_t verify(struct input *in) { return wovenrock_verify(SLICE(0), AT(1)); }

/* Faults: one change of an input that is not refused. */

enum change { SETTING, DONE, EXPONENT, SLACK, PARTS, NUMBER, LINE, STRETCH };

struct fault {
    uint32_t refusal;
    enum change change;
    int which;    /* a setting, or a slice */
    size_t place; /* of a number */
    int64_t value;
    const char *from, *to; /* of a text's line */
};

#define NO_MORE {0, SETTING, 0, 0, 0, NULL, NULL}
#define IN_SETTING(refusal, which, value) {refusal, SETTING, which, 0, value, NULL, NULL}
#define IN_DONE(refusal, value) {refusal, DONE, 0, 0, value, NULL, NULL}
#define IN_EXPONENT(refusal, value) {refusal, EXPONENT, 0, 0, value, NULL, NULL}
#define IN_SLACK(refusal, value) {refusal, SLACK, 0, 0, value, NULL, NULL}
#define IN_PARTS(refusal, value) {refusal, PARTS, 0, 0, value, NULL, NULL}
#define IN_SLICE(refusal, slice, place, value) {refusal, NUMBER, slice, place, value, NULL, NULL}
#define IN_LINE(refusal, from, to) {refusal, LINE, 0, 0, 0, from, to}
/* Past 32 bits, with a number behind that would be allowed. */
#define PAST(number) ((INT64_C(1) << 32) + (number))
#define FAULTY_SETTINGS \
    IN_SETTING(3, 0, 3), IN_SETTING(3, 0, 128), IN_SETTING(4, 1, 9), IN_SETTING(5, 2, 16), IN_SETTING(5, 2, WOVENROCK_MODULUS_MAX + 2), IN_SETTING(5, 2, -1), \
        IN_SETTING(6, 3, 0), IN_SETTING(16, 4, 0), IN_SETTING(16, 4, 5), IN_SETTING(16, 4, INT64_C(1) << 31)
/* Where a record has which number; the claim of a row is behind that of the one before. */
enum { ROWS_AT = 4, DONE_AT, CLOSED_AT, CHALLENGES_AT, CLAIMS_AT = 15 };
#define CLAIM_AT(row) (CLAIMS_AT + (row) * WOVENROCK_DEGREE_MAX)
#define FAULTY_RECORD(slice) \
    IN_SLICE(3, slice, 0, 3), IN_SLICE(3, slice, 0, 128), IN_SLICE(4, slice, 1, 9), IN_SLICE(5, slice, 2, 16), IN_SLICE(6, slice, 3, 0), \
        IN_SLICE(16, slice, ROWS_AT, 0), IN_SLICE(16, slice, ROWS_AT, 5), IN_SLICE(7, slice, CLOSED_AT, 2), IN_SLICE(7, slice, CLOSED_AT, UINT32_MAX), \
        IN_SLICE(8, slice, CLAIMS_AT, 17), IN_SLICE(8, slice, CLAIMS_AT, PAST(0)), IN_SLICE(10, slice, CHALLENGES_AT, 4), \
        IN_SLICE(10, slice, CLAIMS_AT - 1, 4), IN_SLICE(11, slice, CLOSED_AT, 1), IN_SLICE(3, slice, 0, PAST(2)), IN_SLICE(4, slice, 1, PAST(1)), \
        IN_SLICE(6, slice, 3, PAST(1)), IN_SLICE(16, slice, ROWS_AT, PAST(1)), IN_SLICE(7, slice, CLOSED_AT, PAST(0)), \
        IN_SLICE(10, slice, CLAIMS_AT - 1, PAST(0)), IN_SLICE(11, slice, DONE_AT, PAST(0))
#define FAULTY_TEXT \
    {1, STRETCH, 0, 0, WOVENROCK_TEXT + 1, NULL, NULL}, IN_LINE(2, "part", "Part"), IN_LINE(2, "0 0 3 1\n", "0 0 3 01\n"), \
        IN_LINE(2, "0 0 2 17\n", "0 0 2 2305843009213693953\n"), IN_LINE(3, "0 0 0 2\n", "0 0 0 3\n"), IN_LINE(3, "0 0 0 2\n", "0 0 0 128\n"), IN_LINE(3, "0 0 0 2\n", "0 0 0 4294967298\n"), \
        IN_LINE(4, "0 0 1 1\n", "0 0 1 9\n"), IN_LINE(5, "0 0 2 17\n", "0 0 2 -17\n"), IN_LINE(6, "0 0 3 1\n", "0 0 3 128\n"), \
        IN_LINE(16, "0 0 4 1\n", "0 0 4 5\n"), IN_LINE(16, "0 0 4 1\n", "0 0 4 -1\n"), IN_LINE(16, "0 0 4 1\n", "0 0 4 4294967297\n"), IN_LINE(2, "0 0 4 1\n", "")

/* Whether the fault can be put in: a place may be missing in a slice that is too short. */
static bool spoil(struct input *in, const struct fault *f) {
    struct slice *s = &in->slices[f->which];
    switch (f->change) {
    case SETTING:
        in->settings[f->which] = (uint64_t)f->value;
        return true;
    case DONE:
        in->done = (uint32_t)f->value;
        return true;
    case EXPONENT:
        in->exponent = (uint32_t)f->value;
        return true;
    case SLACK:
        in->slack = (uint32_t)f->value;
        return true;
    case PARTS:
        in->parts = (uint32_t)f->value;
        return true;
    case NUMBER:
        if (f->place >= s->count)
            return false;
        put(s, f->place, f->value);
        return true;
    case STRETCH:
    case LINE:
        break;
    }
    char *text = calloc(s->count + (size_t)f->value + 64, 1);
    if (text == NULL)
        exit(2);
    memcpy(text, numbers(s), s->count);
    if (f->change == STRETCH) {
        memset(text + s->count, '\n', (size_t)f->value - s->count);
    } else {
        char *at = strstr(text, f->from);
        if (at == NULL)
            exit(2);
        memmove(at + strlen(f->to), at + strlen(f->from), strlen(at + strlen(f->from)) + 1);
        memcpy(at, f->to, strlen(f->to));
    }
    struct slice changed = make(s->name, s->use, 1, false, strlen(text), text, strlen(text));
    free(s->room);
    free(text);
    *s = changed;
    return true;
}

/* What is wanted of a call, and the call. */

/* A single number holds this before a call. */
enum { BEFORE = 99 };

static void made(struct input *in) {
    for (int i = 0; i < in->used; i++)
        if (in->slices[i].use == SINGLE)
            put(&in->slices[i], 0, BEFORE);
}

/* What a refused call leaves of a slice. */
static struct slice left(const struct slice *s) {
    struct slice after = resized(s, s->count);
    if (s->use == SINGLE)
        put(&after, 0, 0);
    if (s->use == RECORD && s->count == WOVENROCK_SESSION) {
        memset(numbers(&after), 0, s->count * s->width);
        put(&after, CLOSED_AT, 1);
    }
    return after;
}

/* How many numbers of a slice a call may have written: of an output as many as it counts. */
static size_t answered(const struct input *in, const struct slice *s) {
    if (s->use != OUT)
        return s->count;
    size_t count = (size_t)number_at(&in->slices[in->used - 1], 0);
    return count < s->count ? count : s->count;
}

/* Calls and compares: the number, every byte where it is refused, and otherwise all guards and every slice that is only read. */
static uint32_t called(const char *scenario, uint32_t (*call)(struct input *), struct input *in, uint32_t wanted, const char *what, const char *slice) {
    made(in);
    struct input before = copy(in);
    uint32_t found = call(in);
    if (found != wanted)
        fail(scenario, what, slice, wanted, found);
    for (int i = 0; i < in->used; i++) {
        const struct slice *s = &in->slices[i];
        struct slice kept = found == 0 ? resized(&before.slices[i], s->count) : left(&before.slices[i]);
        if (found == 0 && s->use != READ && s->use != TEXT)
            memcpy(numbers(&kept), numbers(s), answered(in, s) * s->width);
        if (memcmp(kept.room, s->room, room_bytes(s)) != 0)
            fail(scenario, "a byte has changed", s->name, wanted, found);
        free(kept.room);
    }
    drop(&before);
    return found;
}

struct scenario {
    const char *name;
    uint32_t (*call)(struct input *);
    struct input (*input)(void);
    uint32_t refusal; /* of the input without a fault */
    struct fault faults[32];
};

/* The numbers of a slice; many zeros in a row are only counted. */
static void show_numbers(const struct slice *s) {
    for (size_t k = 0; k < s->count;) {
        size_t zeros = 0;
        while (k + zeros < s->count && number_at(s, k + zeros) == 0)
            zeros++;
        if (zeros >= 16) {
            printf(" (%zu zeros)", zeros);
            k += zeros;
        } else {
            printf(" %lld", (long long)number_at(s, k));
            k++;
        }
    }
}

static void show(const struct input *in) {
    for (int i = 0; i < in->used; i++) {
        const struct slice *s = &in->slices[i];
        if (s->use == READ || s->use == TEXT)
            continue;
        printf("  %s", s->name);
        if (s->use == OUT)
            printf("\n%.*s", (int)s->count, (const char *)numbers(s));
        else
            show_numbers(s);
        printf("\n");
    }
}

static uint32_t first(uint32_t a, uint32_t b) {
    return a < b ? a : b;
}

/* The number of a call with a slice of a wrong length and another fault: 7 stands behind 1 to 6 and 16. An output that is too short for its text is tested last, in the
 * writer just behind a text that is too long, and the length of a record that is there already before everything. */
static uint32_t both(const struct scenario *scenario, const struct slice *s, uint32_t other) {
    if (other == 0)
        return WOVENROCK_REFUSED_SIZE;
    if (s->use == OUT)
        return other;
    if (other == WOVENROCK_REFUSED_LONG && scenario->call == writes)
        return WOVENROCK_REFUSED_SIZE;
    if (strcmp(s->name, "session") == 0 && scenario->call != start)
        return WOVENROCK_REFUSED_SIZE;
    if (other == WOVENROCK_REFUSED_ROWS)
        return other;
    return first(other, WOVENROCK_REFUSED_SIZE);
}

/* Slice `i` with one number more or less, alone and with every fault. */
static int lengths(const struct scenario *scenario, const struct input *whole_input, int i) {
    int tried = 0;
    const struct slice *s = &whole_input->slices[i];
    for (int more = 0; more < 2; more++) {
        if (s->use == SINGLE || s->use == TEXT || (more == 0 && s->count == 0))
            continue;
        const struct fault *f = scenario->faults;
        for (bool last = false; !last; f++) {
            last = f->refusal == 0;
            struct input in = copy(whole_input);
            struct slice wrong = resized(&in.slices[i], more ? s->count + 1 : s->count - 1);
            free(in.slices[i].room);
            in.slices[i] = wrong;
            if (last || spoil(&in, f)) {
                uint32_t other = last ? scenario->refusal : f->refusal;
                uint32_t wanted = more && s->use == OUT ? other : both(scenario, s, other);
                called(scenario->name, scenario->call, &in, wanted, more ? "one more" : "one less", s->name);
                tried++;
            }
            drop(&in);
        }
    }
    return tried;
}

static void run(const struct scenario *scenario) {
    struct input base = scenario->input();
    struct input in = copy(&base);
    uint32_t found = called(scenario->name, scenario->call, &in, scenario->refusal, "without a fault", "");
    printf("%s: %u %s\n", scenario->name, found, wovenrock_word(found));
    if (found == 0)
        show(&in);
    drop(&in);

    uint32_t seen = found == 0 ? 0 : (uint32_t)1 << found;
    for (const struct fault *f = scenario->faults; f->refusal != 0; f++) {
        in = copy(&base);
        if (!spoil(&in, f))
            exit(2);
        seen |= (uint32_t)1 << called(scenario->name, scenario->call, &in, f->refusal, "with a fault", "");
        drop(&in);
    }
    int tried = 0;
    for (int i = 0; i < base.used; i++)
        tried += lengths(scenario, &base, i);
    if (tried > 0)
        seen |= (uint32_t)1 << WOVENROCK_REFUSED_SIZE;
    printf("  refused by");
    for (uint32_t number = 1; number < 32; number++)
        if (seen >> number & 1)
            printf(" %u", number);
    printf("; %d calls with a wrong length\n", tried);
    drop(&base);
}

/* The inputs: the worked example of the README, and others where it cannot reach a refusal. */

#define KEY(use) U64("key", use, 3, 5, 7, 2)
#define MESSAGE(use) I32("message", use, 1, -1, 1, 0)
#define COMMITMENT U64("commitment", READ, 15, 4)
#define ROUNDS U64("rounds", READ, 4, 1, 6, 0, 12, 1)
#define LAST I32("last", READ, 1, 0)
#define CLAIMS U64("claims", READ, 9, 6)
#define VERDICT ZEROS("verdict", SINGLE, 4, false, 1)

static struct input worked(void) {
    struct input in = {{2, 1, 17, 1, 1}, 0, 1, 4, 0, {{0}}, 0};
    return in;
}

/* The same with a second row in the key, of weights 2 and 5. */
#define TWO_KEY(use) U64("key", use, 3, 5, 7, 2, 2, 0, 5, 0)
#define TWO_COMMITMENT U64("commitment", READ, 15, 4, 7, 15)
#define TWO_ROUNDS(name) U64(name, READ, 4, 1, 1, 16, 6, 0, 12, 6, 12, 1, 11, 0)

static struct input two(void) {
    struct input in = worked();
    in.settings[4] = 2;
    return in;
}

static struct input commit_input(void) {
    struct input in = worked();
    lend(&in, KEY(READ));
    lend(&in, MESSAGE(READ));
    lend(&in, U64("commitment", WRITTEN, 21, 22));
    return in;
}

static struct input round_input(void) {
    struct input in = worked();
    lend(&in, KEY(READ));
    lend(&in, MESSAGE(READ));
    lend(&in, U64("polynomial", WRITTEN, 21, 22, 23, 24, 25, 26));
    return in;
}

/* The largest degree, with its modulus, and four rows: X^127 times X is -1. */
static struct input largest_commit_input(void) {
    struct input in = {{128, 1, 12289, 1, 4}, 0, 0, 0, 0, {{0}}, 0};
    lend(&in, ZEROS("key", READ, 8, false, wovenrock_key_length(128, 1, 4)));
    lend(&in, ZEROS("message", READ, 4, true, wovenrock_table_length(128, 1)));
    lend(&in, ZEROS("commitment", WRITTEN, 8, false, wovenrock_commitment_length(128, 4)));
    put(&in.slices[0], 127, 1);
    put(&in.slices[1], 1, 1);
    return in;
}

static struct input fold_input(void) {
    struct input in = worked();
    lend(&in, KEY(WRITTEN));
    lend(&in, MESSAGE(WRITTEN));
    return in;
}

static struct input end_input(void) {
    struct input in = worked();
    in.done = 1;
    lend(&in, I32("message", READ, 1, 0, 1, 0));
    lend(&in, I32("last", WRITTEN, 21, 22));
    return in;
}

static struct input open_input(void) {
    struct input in = worked();
    lend(&in, KEY(WRITTEN));
    lend(&in, MESSAGE(WRITTEN));
    lend(&in, U32("challenges", READ, 1));
    lend(&in, U64("rounds", WRITTEN, 21, 22, 23, 24, 25, 26));
    lend(&in, U64("commitment", WRITTEN, 27, 28));
    lend(&in, I32("last", WRITTEN, 29, 30));
    lend(&in, VERDICT);
    return in;
}

static struct input two_open_input(void) {
    struct input in = two();
    lend(&in, TWO_KEY(WRITTEN));
    lend(&in, MESSAGE(WRITTEN));
    lend(&in, U32("challenges", READ, 1));
    lend(&in, U64("rounds", WRITTEN, 21, 22, 23, 24, 25, 26, 27, 28, 29, 30, 31, 32));
    lend(&in, U64("commitment", WRITTEN, 27, 28, 29, 30));
    lend(&in, I32("last", WRITTEN, 29, 30));
    lend(&in, VERDICT);
    return in;
}

static struct input start_input(void) {
    struct input in = worked();
    lend(&in, COMMITMENT);
    lend(&in, ZEROS("session", RECORD, 8, false, WOVENROCK_SESSION));
    memset(numbers(&in.slices[1]), 1, 8 * WOVENROCK_SESSION);
    return in;
}

static struct slice record(uint64_t done, uint64_t challenge, int64_t claim0, int64_t claim1) {
    struct slice s = ZEROS("session", WRITTEN, 8, false, WOVENROCK_SESSION);
    const uint64_t head[] = {2, 1, 17, 1, 1, done, 0, challenge};
    memcpy(numbers(&s), head, sizeof head);
    put(&s, CLAIM_AT(0), claim0);
    put(&s, CLAIM_AT(0) + 1, claim1);
    return s;
}

/* That of two rows. */
static struct slice two_record(uint64_t done, uint64_t challenge, const int64_t claims[4]) {
    struct slice s = record(done, challenge, claims[0], claims[1]);
    put(&s, ROWS_AT, 2);
    put(&s, CLAIM_AT(1), claims[2]);
    put(&s, CLAIM_AT(1) + 1, claims[3]);
    return s;
}

static struct input session_round_input(void) {
    struct input in = worked();
    lend(&in, U64("polynomial", READ, 4, 1, 6, 0, 12, 1));
    lend(&in, record(0, 0, 15, 4));
    lend(&in, VERDICT);
    return in;
}

static struct input session_end_input(void) {
    struct input in = worked();
    lend(&in, LAST);
    lend(&in, KEY(READ));
    lend(&in, record(1, 1, 9, 6));
    lend(&in, VERDICT);
    return in;
}

static struct input two_session_round_input(void) {
    struct input in = two();
    const int64_t claims[4] = {15, 4, 7, 15};
    lend(&in, TWO_ROUNDS("polynomial"));
    lend(&in, two_record(0, 0, claims));
    lend(&in, VERDICT);
    return in;
}

static struct input two_session_end_input(void) {
    struct input in = two();
    const int64_t claims[4] = {9, 6, 1, 11};
    lend(&in, LAST);
    lend(&in, TWO_KEY(READ));
    lend(&in, two_record(1, 1, claims));
    lend(&in, VERDICT);
    return in;
}

static struct input check_input(void) {
    struct input in = worked();
    lend(&in, COMMITMENT);
    lend(&in, LAST);
    lend(&in, KEY(READ));
    lend(&in, ROUNDS);
    lend(&in, U32("challenges", READ, 1));
    lend(&in, VERDICT);
    return in;
}

static struct input judge_input(void) {
    struct input in = worked();
    lend(&in, COMMITMENT);
    lend(&in, KEY(READ));
    lend(&in, I64("w", READ, 4, -4, 4, 0));
    lend(&in, ZEROS("yes", SINGLE, 4, false, 1));
    return in;
}

static struct input extract_input(void) {
    struct input in = worked();
    lend(&in, COMMITMENT);
    lend(&in, KEY(READ));
    lend(&in, ROUNDS);
    lend(&in, U32("challenges", READ, 0, 1, 2));
    lend(&in, I32("leaves", READ, 2, -1, 1, 0, 0, -1));
    lend(&in, I64("w", WRITTEN, 21, 22, 23, 24));
    return in;
}

static struct input two_extract_input(void) {
    struct input in = two();
    lend(&in, TWO_COMMITMENT);
    lend(&in, TWO_KEY(READ));
    lend(&in, TWO_ROUNDS("rounds"));
    lend(&in, U32("challenges", READ, 0, 1, 2));
    lend(&in, I32("leaves", READ, 2, -1, 1, 0, 0, -1));
    lend(&in, I64("w", WRITTEN, 21, 22, 23, 24));
    return in;
}

static struct input two_judge_input(void) {
    struct input in = two();
    lend(&in, TWO_COMMITMENT);
    lend(&in, TWO_KEY(READ));
    lend(&in, I64("w", READ, 4, -4, 4, 0));
    lend(&in, ZEROS("yes", SINGLE, 4, false, 1));
    return in;
}

/* Degree 64 and depth 4, where a relaxed opening may grow too much; all numbers are 0, so that every path is accepted. */
static struct input large(void) {
    struct input in = {{64, 4, 17, 5, 1}, 0, 0, 256, 0, {{0}}, 0};
    lend(&in, ZEROS("commitment", READ, 8, false, wovenrock_commitment_length(64, 1)));
    lend(&in, ZEROS("key", READ, 8, false, wovenrock_key_length(64, 4, 1)));
    return in;
}

static struct input large_judge_input(void) {
    struct input in = large();
    lend(&in, ZEROS("w", READ, 8, true, wovenrock_table_length(64, 4)));
    lend(&in, ZEROS("yes", SINGLE, 4, false, 1));
    return in;
}

static struct input large_extract_input(void) {
    struct input in = large();
    lend(&in, ZEROS("rounds", READ, 8, false, wovenrock_tree_rounds_length(64, 4, 1)));
    lend(&in, ZEROS("challenges", READ, 4, false, wovenrock_tree_challenges_length(4)));
    for (size_t i = 0; i < in.slices[3].count; i++)
        put(&in.slices[3], i, (int64_t)i % 3);
    lend(&in, ZEROS("leaves", READ, 4, true, wovenrock_leaves_length(64, 4)));
    lend(&in, ZEROS("w", WRITTEN, 8, true, wovenrock_table_length(64, 4)));
    return in;
}

#define TEXT_SETTINGS "part item place value\n0 0 0 2\n0 0 1 1\n0 0 2 17\n0 0 3 1\n0 0 4 1\n"
#define TEXT_KEY "1 0 0 3\n1 0 1 5\n1 1 0 7\n1 1 1 2\n"
#define TEXT_MESSAGE "2 0 0 1\n2 0 1 -1\n2 1 0 1\n2 1 1 0\n"
#define TEXT_OPENING "3 0 0 15\n3 0 1 4\n4 0 0 4\n4 0 1 1\n4 1 0 6\n4 1 1 0\n4 2 0 12\n4 2 1 1\n5 0 0 1\n6 0 0 1\n6 0 1 0\n7 0 0 9\n7 0 1 6\n"
#define ALL_PARTS 127

static struct input look_input(void) {
    struct input in = worked();
    lend(&in, BYTES("text", TEXT, TEXT_SETTINGS TEXT_KEY));
    lend(&in, U64("settings", WRITTEN, 21, 22, 23, 24, 25));
    return in;
}

static struct input read_input(void) {
    struct input in = worked();
    in.parts = ALL_PARTS;
    lend(&in, BYTES("text", TEXT, TEXT_SETTINGS TEXT_KEY TEXT_MESSAGE TEXT_OPENING));
    lend(&in, U64("settings", WRITTEN, 21, 22, 23, 24, 25));
    lend(&in, U64("key", WRITTEN, 21, 22, 23, 24));
    lend(&in, I32("message", WRITTEN, 21, 22, 23, 24));
    lend(&in, U64("commitment", WRITTEN, 21, 22));
    lend(&in, U64("rounds", WRITTEN, 21, 22, 23, 24, 25, 26));
    lend(&in, U32("challenges", WRITTEN, 21));
    lend(&in, I32("last", WRITTEN, 21, 22));
    lend(&in, U64("claims", WRITTEN, 21, 22));
    return in;
}

#define TWO_SETTINGS "part item place value\n0 0 0 2\n0 0 1 1\n0 0 2 17\n0 0 3 1\n0 0 4 2\n"
#define TWO_TEXT_KEY TEXT_KEY "1 2 0 2\n1 2 1 0\n1 3 0 5\n1 3 1 0\n"
#define TWO_OPENING \
    "3 0 0 15\n3 0 1 4\n3 1 0 7\n3 1 1 15\n4 0 0 4\n4 0 1 1\n4 1 0 1\n4 1 1 16\n4 2 0 6\n4 2 1 0\n4 3 0 12\n4 3 1 6\n4 4 0 12\n4 4 1 1\n4 5 0 11\n4 5 1 0\n" \
    "5 0 0 1\n6 0 0 1\n6 0 1 0\n7 0 0 9\n7 0 1 6\n7 1 0 1\n7 1 1 11\n"

static struct input two_read_input(void) {
    struct input in = two();
    in.parts = ALL_PARTS;
    lend(&in, BYTES("text", TEXT, TWO_SETTINGS TWO_TEXT_KEY TEXT_MESSAGE TWO_OPENING));
    lend(&in, U64("settings", WRITTEN, 21, 22, 23, 24, 25));
    lend(&in, U64("key", WRITTEN, 21, 22, 23, 24, 25, 26, 27, 28));
    lend(&in, I32("message", WRITTEN, 21, 22, 23, 24));
    lend(&in, U64("commitment", WRITTEN, 21, 22, 23, 24));
    lend(&in, U64("rounds", WRITTEN, 21, 22, 23, 24, 25, 26, 27, 28, 29, 30, 31, 32));
    lend(&in, U32("challenges", WRITTEN, 21));
    lend(&in, I32("last", WRITTEN, 21, 22));
    lend(&in, U64("claims", WRITTEN, 21, 22, 23, 24));
    return in;
}

static struct input two_prove_input(void) {
    struct input in = two();
    lend(&in, BYTES("text", TEXT, TWO_SETTINGS TWO_TEXT_KEY TEXT_MESSAGE "5 0 0 1\n"));
    lend(&in, ZEROS("out", OUT, 1, false, strlen(TWO_SETTINGS TWO_OPENING)));
    lend(&in, ZEROS("count", SINGLE, 8, false, 1));
    return in;
}

static struct input two_verify_input(void) {
    struct input in = two();
    lend(&in, BYTES("text", TEXT, TWO_SETTINGS TWO_TEXT_KEY TWO_OPENING));
    lend(&in, VERDICT);
    return in;
}

/* Only the key is wanted, and is there. */
static struct input read_key_input(void) {
    struct input in = worked();
    in.parts = WOVENROCK_KEY;
    lend(&in, BYTES("text", TEXT, TEXT_SETTINGS TEXT_KEY));
    lend(&in, U64("settings", WRITTEN, 21, 22, 23, 24, 25));
    lend(&in, U64("key", WRITTEN, 21, 22, 23, 24));
    lend(&in, ZEROS("message", WRITTEN, 4, true, 0));
    lend(&in, ZEROS("commitment", WRITTEN, 8, false, 0));
    lend(&in, ZEROS("rounds", WRITTEN, 8, false, 0));
    lend(&in, ZEROS("challenges", WRITTEN, 4, false, 0));
    lend(&in, ZEROS("last", WRITTEN, 4, true, 0));
    lend(&in, ZEROS("claims", WRITTEN, 8, false, 0));
    return in;
}

static struct input write_input(void) {
    struct input in = worked();
    in.parts = ALL_PARTS;
    lend(&in, KEY(READ));
    lend(&in, MESSAGE(READ));
    lend(&in, COMMITMENT);
    lend(&in, ROUNDS);
    lend(&in, U32("challenges", READ, 1));
    lend(&in, LAST);
    lend(&in, CLAIMS);
    lend(&in, ZEROS("out", OUT, 1, false, strlen(TEXT_SETTINGS TEXT_KEY TEXT_MESSAGE TEXT_OPENING)));
    lend(&in, ZEROS("count", SINGLE, 8, false, 1));
    return in;
}

/* A key of the largest settings, whose text is too long; the output has no room at all. */
static struct input write_long_input(void) {
    struct input in = {{64, 8, 17, 1, 1}, 0, 0, 0, WOVENROCK_KEY, {{0}}, 0};
    lend(&in, ZEROS("key", READ, 8, false, wovenrock_key_length(64, 8, 1)));
    lend(&in, ZEROS("message", READ, 4, true, 0));
    lend(&in, ZEROS("commitment", READ, 8, false, 0));
    lend(&in, ZEROS("rounds", READ, 8, false, 0));
    lend(&in, ZEROS("challenges", READ, 4, false, 0));
    lend(&in, ZEROS("last", READ, 4, true, 0));
    lend(&in, ZEROS("claims", READ, 8, false, 0));
    lend(&in, ZEROS("out", OUT, 1, false, 0));
    lend(&in, ZEROS("count", SINGLE, 8, false, 1));
    return in;
}

static struct input prove_input(void) {
    struct input in = worked();
    lend(&in, BYTES("text", TEXT, TEXT_SETTINGS TEXT_KEY TEXT_MESSAGE "5 0 0 1\n"));
    lend(&in, ZEROS("out", OUT, 1, false, strlen(TEXT_SETTINGS TEXT_OPENING)));
    lend(&in, ZEROS("count", SINGLE, 8, false, 1));
    return in;
}

static struct input verify_input(void) {
    struct input in = worked();
    lend(&in, BYTES("text", TEXT, TEXT_SETTINGS TEXT_KEY TEXT_OPENING));
    lend(&in, VERDICT);
    return in;
}

static const struct scenario scenarios[] = {
    {"settings", settings, worked, 0, {FAULTY_SETTINGS, NO_MORE}},
    {"commit", commit, commit_input, 0, {FAULTY_SETTINGS, IN_SLICE(8, 0, 0, 17), IN_SLICE(9, 1, 0, -2), NO_MORE}},
    {"commit, degree 128", commit, largest_commit_input, 0, {IN_SETTING(3, 2, 12287), IN_SETTING(3, 2, 12288), IN_SETTING(3, 2, 24578), IN_SETTING(3, 2, -1),
        IN_SETTING(4, 1, 9), IN_SETTING(6, 3, 0), IN_SETTING(16, 4, 5), IN_SLICE(8, 0, 1023, 12289), IN_SLICE(9, 1, 255, 2), NO_MORE}},
    {"round", prover_round, round_input, 0, {FAULTY_SETTINGS, IN_SLICE(8, 0, 0, 17), IN_SLICE(9, 1, 0, 2), IN_DONE(11, 1),
        IN_DONE(11, UINT32_MAX), NO_MORE}},
    {"fold", fold, fold_input, 0, {FAULTY_SETTINGS, IN_SLICE(8, 0, 0, 17), IN_SLICE(9, 1, 0, 2), IN_EXPONENT(10, 4),
        IN_DONE(11, 1), NO_MORE}},
    {"end", prover_end, end_input, 0, {FAULTY_SETTINGS, IN_SLICE(9, 0, 0, 3), IN_DONE(11, 0), IN_DONE(11, 2), NO_MORE}},
    {"open", whole, open_input, 0, {FAULTY_SETTINGS, IN_SLICE(8, 0, 0, 17), IN_SLICE(9, 1, 0, 2), IN_SLICE(10, 2, 0, 4), NO_MORE}},
    {"open, two rows", whole, two_open_input, 0, {FAULTY_SETTINGS, IN_SLICE(8, 0, 7, 17), IN_SLICE(9, 1, 3, 2), IN_SLICE(10, 2, 0, 4), NO_MORE}},
    {"session_start", start, start_input, 0, {FAULTY_SETTINGS, IN_SLICE(8, 0, 0, 17), NO_MORE}},
    {"session_round", session_round, session_round_input, 0, {FAULTY_RECORD(1), IN_SLICE(8, 0, 0, 17), IN_EXPONENT(10, 4),
        IN_SLICE(11, 1, DONE_AT, 1), NO_MORE}},
    {"session_round, two rows", session_round, two_session_round_input, 0, {FAULTY_RECORD(1), IN_SLICE(8, 0, 11, 17), IN_SLICE(8, 1, CLAIM_AT(1) + 1, 17),
        IN_EXPONENT(10, 4), IN_SLICE(11, 1, DONE_AT, 1), NO_MORE}},
    {"session_end", session_end, session_end_input, 0, {FAULTY_RECORD(2), IN_SLICE(8, 1, 0, 17), IN_SLICE(11, 2, DONE_AT, 0), NO_MORE}},
    {"session_end, two rows", session_end, two_session_end_input, 0, {FAULTY_RECORD(2), IN_SLICE(8, 1, 7, 17), IN_SLICE(8, 2, CLAIM_AT(1), 17),
        IN_SLICE(11, 2, DONE_AT, 0), NO_MORE}},
    {"check", check, check_input, 0, {FAULTY_SETTINGS, IN_SLICE(8, 0, 0, 17), IN_SLICE(8, 2, 0, 17), IN_SLICE(8, 3, 0, 17), IN_SLICE(10, 4, 0, 4), NO_MORE}},
    {"judge", judge, judge_input, 0, {FAULTY_SETTINGS, IN_SLICE(8, 0, 0, 17), IN_SLICE(8, 1, 0, 17), IN_SLACK(15, 0),
        IN_SLACK(15, 65537), IN_SLACK(15, 17), NO_MORE}},
    {"judge, two rows", judge, two_judge_input, 0, {FAULTY_SETTINGS, IN_SLICE(8, 0, 3, 17), IN_SLICE(8, 1, 7, 17), IN_SLACK(15, 0), NO_MORE}},
    {"judge, growth", judge, large_judge_input, 14, {IN_SLICE(8, 0, 0, 17), IN_SLACK(14, 0), NO_MORE}},
    {"extract", extract, extract_input, 0, {FAULTY_SETTINGS, IN_SLICE(8, 0, 0, 17), IN_SLICE(8, 1, 0, 17), IN_SLICE(8, 2, 0, 17), IN_SLICE(10, 3, 0, 4),
        IN_SLICE(12, 3, 0, 1), IN_SLICE(13, 4, 0, 1), IN_SLICE(13, 4, 0, 3), NO_MORE}},
    {"extract, two rows", extract, two_extract_input, 0, {FAULTY_SETTINGS, IN_SLICE(8, 0, 3, 17), IN_SLICE(8, 1, 7, 17), IN_SLICE(8, 2, 11, 17),
        IN_SLICE(12, 3, 0, 1), IN_SLICE(13, 0, 3, 14), IN_SLICE(13, 2, 3, 15), IN_SLICE(13, 1, 6, 6), NO_MORE}},
    {"extract, growth", extract, large_extract_input, 14, {IN_SLICE(8, 0, 0, 17), IN_SLICE(13, 4, 0, 81), NO_MORE}},
    {"look", look, look_input, 0, {FAULTY_TEXT, NO_MORE}},
    {"read", reads, read_input, 0, {FAULTY_TEXT, IN_LINE(7, "2 1 1 0\n", ""), IN_LINE(8, "1 0 0 3\n", "1 0 0 17\n"), IN_LINE(8, "1 0 0 3\n", "1 0 0 -1\n"),
        IN_LINE(2, "2 0 0 1\n", "2 0 0 4294967296\n"), IN_LINE(8, "1 0 0 3\n", "1 0 0 2305843009213693951\n"),
        IN_LINE(9, "2 0 0 1\n", "2 0 0 2\n"), IN_LINE(10, "5 0 0 1\n", "5 0 0 4\n"), IN_LINE(8, "7 0 0 9\n", "7 0 0 17\n"),
        IN_LINE(7, "7 0 1 6\n", ""), IN_LINE(7, "7 0 0 9\n7 0 1 6\n", ""), IN_PARTS(7, ALL_PARTS - 1), IN_PARTS(7, ALL_PARTS - WOVENROCK_CLAIMS), IN_PARTS(7, 255),
        IN_PARTS(7, ALL_PARTS + (INT64_C(1) << 31)), NO_MORE}},
    {"read, two rows", reads, two_read_input, 0, {IN_LINE(16, "0 0 4 2\n", "0 0 4 0\n"), IN_LINE(7, "0 0 4 2\n", "0 0 4 1\n"), IN_LINE(7, "0 0 4 2\n", "0 0 4 3\n"),
        IN_LINE(7, "1 3 1 0\n", ""), IN_LINE(8, "1 3 0 5\n", "1 3 0 17\n"), IN_LINE(8, "3 1 1 15\n", "3 1 1 17\n"), IN_LINE(8, "4 5 0 11\n", "4 5 0 17\n"),
        IN_LINE(8, "7 1 1 11\n", "7 1 1 17\n"), IN_LINE(7, "7 1 1 11\n", ""), NO_MORE}},
    {"read, a key", reads, read_key_input, 0, {FAULTY_TEXT, IN_PARTS(7, 0), IN_PARTS(7, WOVENROCK_KEY + WOVENROCK_CLAIMS),
        IN_PARTS(7, WOVENROCK_KEY + 128), NO_MORE}},
    {"write", writes, write_input, 0, {FAULTY_SETTINGS, IN_SLICE(8, 0, 0, 17), IN_SLICE(8, 2, 0, 17), IN_SLICE(8, 3, 0, 17), IN_SLICE(9, 1, 0, 2),
        IN_SLICE(9, 5, 0, INT32_MIN), IN_SLICE(10, 4, 0, 4), IN_SLICE(8, 6, 1, 17), IN_PARTS(7, ALL_PARTS - 1), IN_PARTS(7, ALL_PARTS - WOVENROCK_CLAIMS),
        IN_PARTS(7, 255), NO_MORE}},
    {"write, too long", writes, write_long_input, 1, {FAULTY_SETTINGS, IN_SLICE(8, 0, 0, 17), IN_PARTS(7, WOVENROCK_KEY + WOVENROCK_CLAIMS),
        IN_PARTS(7, WOVENROCK_KEY + 128), NO_MORE}},
    {"prove", prove, prove_input, 0, {FAULTY_TEXT, IN_LINE(7, "2 1 1 0\n", ""), IN_LINE(8, "1 0 0 3\n", "1 0 0 17\n"), IN_LINE(9, "2 0 0 1\n", "2 0 0 2\n"),
        IN_LINE(10, "5 0 0 1\n", "5 0 0 4\n"), NO_MORE}},
    {"prove, two rows", prove, two_prove_input, 0, {IN_LINE(16, "0 0 4 2\n", "0 0 4 5\n"), IN_LINE(7, "0 0 4 2\n", "0 0 4 1\n"), IN_LINE(8, "1 3 0 5\n", "1 3 0 17\n"),
        NO_MORE}},
    {"verify", verify, verify_input, 0, {FAULTY_TEXT, IN_LINE(7, "3 0 1 4\n", ""), IN_LINE(8, "4 2 1 1\n", "4 2 1 17\n"), IN_LINE(10, "5 0 0 1\n", "5 0 0 4\n"),
        IN_LINE(7, "7 0 0 9\n7 0 1 6\n", ""), IN_LINE(7, "7 0 1 6\n", "7 0 1 6\n7 1 0 0\n"), IN_LINE(8, "7 0 1 6\n", "7 0 1 17\n"), NO_MORE}},
    {"verify, two rows", verify, two_verify_input, 0, {IN_LINE(16, "0 0 4 2\n", "0 0 4 5\n"), IN_LINE(7, "3 1 1 15\n", ""), IN_LINE(8, "4 5 0 11\n", "4 5 0 17\n"),
        IN_LINE(7, "7 1 1 11\n", ""), IN_LINE(8, "7 1 1 11\n", "7 1 1 -1\n"), NO_MORE}},
};

int main(void) {
    for (size_t i = 0; i < COUNT(scenarios); i++)
        run(&scenarios[i]);
    printf("%d failed\n", failures);
    return failures != 0;
}
