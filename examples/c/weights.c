/* A key with two rows, the second of public weights: the second element of the commitment is the weighted sum of the message modulo q, which everybody can read, and
 * the opening of the one message has to hold in both rows. A transcript with another sum is rejected. */
#include <inttypes.h>
#include <stdio.h>
#include <stdlib.h>
#include <string.h>

#include "wovenrock.h"

enum { DEGREE = 4, DEPTH = 2, MODULUS = 12289, BOUND = 9, ROWS = 2 };
enum { ELEMENTS = 1 << DEPTH, TABLE = DEGREE << DEPTH, KEY = ROWS * TABLE, COMMITMENT = ROWS * DEGREE, ROUNDS = 3 * DEPTH * ROWS * DEGREE };

#define SETTINGS DEGREE, DEPTH, MODULUS, BOUND, ROWS

static void not_refused(const char *call, uint32_t number) {
    if (number != WOVENROCK_NOT_REFUSED) {
        printf("%s: refused %u: %s\n", call, number, wovenrock_word(number));
        exit(1);
    }
}

static void print_element(const char *what, const uint64_t *element) {
    printf("%s:", what);
    for (int k = 0; k < DEGREE; k++)
        printf(" %" PRIu64, element[k]);
    printf("\n");
}

int main(void) {
    static const uint64_t weights[ELEMENTS] = {1, 2, 3, MODULUS - 1}; /* the last is -1 */
    static const uint32_t challenges[DEPTH] = {5, 2};
    uint64_t key[KEY] = {0}, folded_key[KEY];
    int32_t message[TABLE], folded_message[TABLE];
    for (int i = 0; i < TABLE; i++) {
        key[i] = (uint64_t)(i * i * i + 7) % MODULUS; /* a real key is drawn at random */
        message[i] = 5 * i % 19 - 9;
    }
    /* A weight is the constant of an element in the second row; the other places of the element are 0. */
    for (int i = 0; i < ELEMENTS; i++)
        key[TABLE + i * DEGREE] = weights[i];

    uint64_t commitment[COMMITMENT];
    not_refused("commit", wovenrock_commit(SETTINGS, key, KEY, message, TABLE, commitment, COMMITMENT));
    print_element("first row", commitment);
    print_element("second row", commitment + DEGREE);

    /* The same sum by hand. */
    uint64_t sum[DEGREE];
    for (int k = 0; k < DEGREE; k++) {
        int64_t total = 0;
        for (int i = 0; i < ELEMENTS; i++)
            total += (int64_t)weights[i] * message[i * DEGREE + k];
        sum[k] = (uint64_t)((total % MODULUS + MODULUS) % MODULUS);
    }
    print_element("weighted sum", sum);

    memcpy(folded_key, key, sizeof key);
    memcpy(folded_message, message, sizeof message);
    uint64_t rounds[ROUNDS];
    int32_t last[DEGREE];
    uint32_t verdict;
    not_refused("open", wovenrock_open(SETTINGS, folded_key, KEY, folded_message, TABLE, challenges, DEPTH, rounds, ROUNDS, commitment, COMMITMENT, last, DEGREE,
                                       &verdict));
    not_refused("check", wovenrock_check(SETTINGS, commitment, COMMITMENT, last, DEGREE, key, KEY, rounds, ROUNDS, challenges, DEPTH, &verdict));
    printf("opened: %s\n", verdict == WOVENROCK_ACCEPTED ? "accepted" : "rejected");
    int right = verdict == WOVENROCK_ACCEPTED && memcmp(sum, commitment + DEGREE, sizeof sum) == 0;

    commitment[DEGREE] = (commitment[DEGREE] + 1) % MODULUS;
    not_refused("check", wovenrock_check(SETTINGS, commitment, COMMITMENT, last, DEGREE, key, KEY, rounds, ROUNDS, challenges, DEPTH, &verdict));
    printf("with another sum: %s\n", verdict == WOVENROCK_ACCEPTED ? "accepted" : "rejected");
    return !(right && verdict == WOVENROCK_REJECTED);
}
