/* A test of the functions that the header has beside the exported ones: at every degree, depth and number of rows the lengths that they work out are those that the
 * calls want, so that no call is refused by 7; and every refusal has its word. */
#include <stdio.h>
#include <stdlib.h>
#include <string.h>

#include "wovenrock.h"

struct shape {
    uint32_t degree, depth, rows;
};

static int failures = 0;

static void want(const char *call, struct shape at, uint32_t wanted, uint32_t found) {
    if (wanted == found)
        return;
    printf("%s at degree %u, depth %u and %u rows: wanted %u, found %u\n", call, at.degree, at.depth, at.rows, wanted, found);
    failures++;
}

static void *zeros(size_t count, size_t width) {
    void *numbers = calloc(count + 1, width); /* never null, also where count is 0 */
    if (numbers == NULL)
        exit(2);
    return numbers;
}

/* Tables of zeros are a key, a message, an opening and a tree, but for the tree's challenges, which are equal: that is refused by 12, behind all lengths. */
static void try(struct shape at) {
    const uint32_t d = at.degree, depth = at.depth, rows = at.rows, bound = 1;
    const uint64_t q = d == WOVENROCK_DEGREE_MAX ? WOVENROCK_MODULUS_OF_DEGREE_MAX : WOVENROCK_MODULUS_MAX;
    size_t element = wovenrock_element_length(d), table = wovenrock_table_length(d, depth);
    size_t of_key = wovenrock_key_length(d, depth, rows), of_commitment = wovenrock_commitment_length(d, rows);
    size_t rounds = wovenrock_rounds_length(d, depth, rows), challenges = wovenrock_challenges_length(depth);
    size_t tree_rounds = wovenrock_tree_rounds_length(d, depth, rows), tree_challenges = wovenrock_tree_challenges_length(depth);
    size_t leaves = wovenrock_leaves_length(d, depth), polynomial = wovenrock_polynomial_length(d, rows), claims = wovenrock_claims_length(d, depth, rows);
    uint64_t *key = zeros(of_key, 8), *commitment = zeros(of_commitment, 8), *elements = zeros(tree_rounds + rounds + polynomial, 8), session[WOVENROCK_SESSION];
    uint32_t *exponents = zeros(tree_challenges + challenges, 4), verdict, yes;
    int32_t *message = zeros(table, 4), *last = zeros(element, 4), *wholes = zeros(leaves, 4);
    int64_t *w = zeros(table, 8);

    want("open", at, 0, wovenrock_open(d, depth, q, bound, rows, key, of_key, message, table, exponents, challenges, elements, rounds, commitment, of_commitment,
                                       last, element, &verdict));
    want("open's verdict", at, WOVENROCK_ACCEPTED, verdict);
    want("check", at, 0, wovenrock_check(d, depth, q, bound, rows, commitment, of_commitment, last, element, key, of_key, elements, rounds, exponents, challenges,
                                         &verdict));
    want("check's verdict", at, WOVENROCK_ACCEPTED, verdict);
    want("start", at, 0, wovenrock_session_start(d, depth, q, bound, rows, commitment, of_commitment, session, WOVENROCK_SESSION));
    uint32_t turn = depth == 0 ? WOVENROCK_REFUSED_TURN : 0;
    want("session round", at, turn, wovenrock_session_round(elements, polynomial, 0, session, WOVENROCK_SESSION, &verdict));
    uint32_t twin = depth == 0 ? 0 : WOVENROCK_REFUSED_TWIN;
    want("extract", at, twin, wovenrock_extract(d, depth, q, bound, rows, commitment, of_commitment, key, of_key, elements, tree_rounds, exponents, tree_challenges,
                                                wholes, leaves, w, table));
    /* At a slack of 4^L the judge says yes to zeros, where the growth is not too much for it. */
    uint32_t number = wovenrock_judge(d, depth, q, bound, rows, commitment, of_commitment, wovenrock_extracted_slack(depth), key, of_key, w, table, &yes);
    if (number != WOVENROCK_REFUSED_GROWTH)
        want("judge", at, 1, number == 0 ? yes : number + 100);
    /* The text of so many claims is not too long at any settings. */
    static uint8_t out[WOVENROCK_TEXT];
    size_t count;
    want("write of claims", at, 0, wovenrock_write(d, depth, q, bound, rows, WOVENROCK_CLAIMS, key, 0, message, 0, commitment, 0, elements, 0, exponents, 0, last, 0, elements,
                                                   claims, out, sizeof out, &count));
    free(key), free(commitment), free(elements), free(exponents), free(message), free(last), free(wholes), free(w);
}

/* Where the settings are refused, what depends on the setting that is wrong has no length. */
static void try_refused(struct shape at) {
    want("key of no length", at, 0, (uint32_t)wovenrock_key_length(at.degree, at.depth, at.rows));
    want("rounds of no length", at, 0, (uint32_t)wovenrock_rounds_length(at.degree, at.depth, at.rows));
    want("claims of no length", at, 0, (uint32_t)wovenrock_claims_length(at.degree, at.depth, at.rows));
    want("tree's rounds of no length", at, 0, (uint32_t)wovenrock_tree_rounds_length(at.degree, at.depth, at.rows));
    if (at.rows < 1 || at.rows > WOVENROCK_ROWS_MAX) {
        want("commitment of no length", at, 0, (uint32_t)wovenrock_commitment_length(at.degree, at.rows));
        want("polynomial of no length", at, 0, (uint32_t)wovenrock_polynomial_length(at.degree, at.rows));
    } else {
        want("table of no length", at, 0, (uint32_t)wovenrock_table_length(at.degree, at.depth));
        want("leaves of no length", at, 0, (uint32_t)wovenrock_leaves_length(at.degree, at.depth));
    }
}

int main(void) {
    int settings = 0;
    for (uint32_t degree = 0; degree < 130; degree++) {
        for (uint32_t depth = 0; depth < 12; depth++) {
            for (uint32_t rows = 0; rows < 7; rows++) {
                struct shape at = {degree, depth, rows};
                if (wovenrock_settings(degree, depth, WOVENROCK_MODULUS_OF_DEGREE_MAX, 1, rows) == 0) {
                    try(at);
                    settings++;
                } else {
                    try_refused(at);
                }
            }
        }
    }
    printf("%d settings\n", settings);
    const struct shape largest = {WOVENROCK_DEGREE_MAX, 0, 1};
    want("degree with another modulus", largest, WOVENROCK_REFUSED_DEGREE, wovenrock_settings(WOVENROCK_DEGREE_MAX, 0, 17, 1, 1));
    for (uint32_t number = 0; number <= 17; number++)
        printf("%u %s\n", number, wovenrock_word(number));
    if (strcmp(wovenrock_version(), WOVENROCK_VERSION) != 0)
        failures++;
    printf("%d failed\n", failures);
    return failures != 0;
}
