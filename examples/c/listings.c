/* The extractor over listings that the program `prove` printed. Standard input has a text with settings and key, and behind it 3^L listings, one for each path of a
 * full tree in the order of its leaves (listings.sh makes it). They are put together to a tree, from which comes a vector that opens 4^L times the commitment. */
#include <stdio.h>
#include <stdlib.h>
#include <string.h>

#include "wovenrock.h"

/* Where the extractor's growth is not refused, a message has at most 1024 numbers. */
enum { ROOM = 1 << 20, TABLE_MOST = 1024, KEY_MOST = WOVENROCK_ROWS_MAX * TABLE_MOST, COMMITMENT_MOST = WOVENROCK_ROWS_MAX * WOVENROCK_DEGREE_MAX };
enum { CLAIMS_MOST = WOVENROCK_DEPTH_MAX * COMMITMENT_MOST, PATH_MOST = 3 * CLAIMS_MOST };

static uint8_t input[ROOM + 1];

static void stop(const char *what) {
    printf("%s\n", what);
    exit(1);
}

static void not_refused(const char *call, uint32_t number) {
    if (number != WOVENROCK_NOT_REFUSED) {
        printf("%s: refused %u: %s\n", call, number, wovenrock_word(number));
        exit(1);
    }
}

static void *room(size_t count, size_t width) {
    void *numbers = calloc(count + 1, width); /* never null, also where count is 0 */
    if (numbers == NULL)
        stop("no memory");
    return numbers;
}

/* The bytes of the text that begins here, which ends where the next names line begins. */
static size_t text_length(const uint8_t *text) {
    const char *next = strstr((const char *)text + 1, "part");
    return next == NULL ? strlen((const char *)text) : (size_t)(next - (const char *)text);
}

/* Puts numbers into their place in the tree. Two paths that share a node have the same numbers there. */
static void share(void *place, const void *numbers, size_t bytes, int known) {
    if (known && memcmp(place, numbers, bytes) != 0)
        stop("the listings are not the paths of one tree");
    memcpy(place, numbers, bytes);
}

int main(void) {
    size_t count = fread(input, 1, ROOM, stdin);
    if (count == ROOM)
        stop("more input than there is room for");
    const uint8_t *text = input;

    uint64_t settings[WOVENROCK_SETTINGS];
    not_refused("look", wovenrock_look(text, text_length(text), settings, WOVENROCK_SETTINGS));
    uint32_t degree = (uint32_t)settings[0], depth = (uint32_t)settings[1], bound = (uint32_t)settings[3], rows = (uint32_t)settings[4];
    uint64_t modulus = settings[2];
    size_t d = wovenrock_element_length(degree), table = wovenrock_table_length(degree, depth), polynomial = wovenrock_polynomial_length(degree, rows);
    size_t key_length = wovenrock_key_length(degree, depth, rows), commitment_length = wovenrock_commitment_length(degree, rows);
    size_t leaves_count = wovenrock_leaf_count(depth), nodes = wovenrock_node_count(depth);
    if (table > TABLE_MOST)
        stop("a relaxed opening would grow too much");

    uint64_t *none = room(0, sizeof *none), key[KEY_MOST], commitment[COMMITMENT_MOST], first_commitment[COMMITMENT_MOST];
    uint32_t *no_challenges = room(0, sizeof *no_challenges);
    int32_t *no_message = room(0, sizeof *no_message);
    not_refused("read", wovenrock_read(WOVENROCK_KEY, text, text_length(text), settings, WOVENROCK_SETTINGS, key, key_length, no_message, 0, none, 0, none, 0,
                                       no_challenges, 0, no_message, 0, none, 0));
    uint64_t *rounds = room(wovenrock_tree_rounds_length(degree, depth, rows), sizeof *rounds);
    uint32_t *challenges = room(wovenrock_tree_challenges_length(depth), sizeof *challenges);
    int32_t *leaves = room(wovenrock_leaves_length(degree, depth), sizeof *leaves);

    for (size_t leaf = 0; leaf < leaves_count; leaf++) {
        text += text_length(text);
        uint64_t path_rounds[PATH_MOST], path_claims[CLAIMS_MOST], found[WOVENROCK_SETTINGS];
        uint32_t path_challenges[WOVENROCK_DEPTH_MAX];
        const uint32_t parts = WOVENROCK_COMMITMENT | WOVENROCK_ROUNDS | WOVENROCK_CHALLENGES | WOVENROCK_LAST | WOVENROCK_CLAIMS;
        not_refused("read", wovenrock_read(parts, text, text_length(text), found, WOVENROCK_SETTINGS, none, 0, no_message, 0, commitment, commitment_length,
                                           path_rounds, wovenrock_rounds_length(degree, depth, rows), path_challenges, depth, &leaves[leaf * d], d, path_claims,
                                           wovenrock_claims_length(degree, depth, rows)));
        if (memcmp(found, settings, sizeof settings) != 0)
            stop("a listing has other settings");
        share(first_commitment, commitment, commitment_length * sizeof *commitment, leaf > 0);

        /* From the root on, the digits of the leaf's number in base 3 say which child is next. */
        size_t node = 0;
        for (size_t i = 0, below = leaves_count / 3; i < depth; i++, below /= 3) {
            size_t child = leaf / below % 3;
            share(&rounds[node * polynomial], &path_rounds[i * polynomial], polynomial * sizeof *rounds, leaf % (3 * below) > 0);
            share(&challenges[3 * node + child], &path_challenges[i], sizeof *challenges, leaf % below > 0);
            node = 3 * node + 1 + child;
        }
    }
    if (text + text_length(text) != input + count)
        stop("there are more listings than leaves");
    printf("%zu listings, %zu branching nodes\n", leaves_count, nodes);

    int64_t w[TABLE_MOST];
    not_refused("extract", wovenrock_extract(degree, depth, modulus, bound, rows, commitment, commitment_length, key, key_length, rounds, nodes * polynomial, challenges,
                                             3 * nodes, leaves, leaves_count * d, w, table));
    printf("w:");
    for (size_t i = 0; i < table; i++)
        printf(" %lld", (long long)w[i]);
    printf("\n");

    uint32_t slack = wovenrock_extracted_slack(depth), yes;
    not_refused("judge", wovenrock_judge(degree, depth, modulus, bound, rows, commitment, commitment_length, slack, key, key_length, w, table, &yes));
    printf("opens %u times the commitment: %s\n", slack, yes ? "yes" : "no");
    free(none), free(no_challenges), free(no_message), free(rounds), free(challenges), free(leaves);
    return yes != 1;
}
