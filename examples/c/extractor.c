/* The extractor: a prover is rewound through three challenges in each of its two rounds, which gives a full tree with nine leaves. From the tree comes a vector
 * that opens 16 times the commitment, and the judge says so. */
#include <inttypes.h>
#include <stdio.h>
#include <stdlib.h>
#include <string.h>

#include "wovenrock.h"

/* Twice the bound of an extracted vector, 2 * (8*2*2)^2 * 1 = 2048, is below the modulus, so that the opening binds. */
enum { DEGREE = 2, DEPTH = 2, MODULUS = 12289, BOUND = 1, ROWS = 1 };
enum { TABLE = DEGREE << DEPTH, NODES = 4, LEAVES = 9 };

#define SETTINGS DEGREE, DEPTH, MODULUS, BOUND, ROWS

static const uint64_t KEY[TABLE] = {8121, 377, 5024, 11903, 1066, 9999, 42, 7310};
static const int32_t MESSAGE[TABLE] = {1, -1, 0, 1, -1, 0, 1, 1};

/* The prover between two moves: a copy of it is what it is rewound to. */
struct prover {
    uint64_t key[TABLE];
    int32_t message[TABLE];
    uint32_t done;
};

/* What is gathered: for each branching node a round polynomial and three challenges, for each leaf a final element. */
struct tree {
    uint64_t rounds[3 * NODES * DEGREE];
    uint32_t challenges[3 * NODES];
    int32_t leaves[LEAVES * DEGREE];
};

static void not_refused(const char *call, uint32_t number) {
    if (number != WOVENROCK_NOT_REFUSED) {
        printf("%s: refused %u: %s\n", call, number, wovenrock_word(number));
        exit(1);
    }
}

/* Three different exponents for a node. */
static uint32_t challenge(size_t node, size_t child) {
    static const uint32_t steps[3] = {0, 1, 3};
    return (uint32_t)(node + steps[child]) % (2 * DEGREE);
}

/* Fills the part of the tree from a node on. */
static void visit(struct prover prover, size_t node, struct tree *tree) {
    if (prover.done == DEPTH) {
        int32_t *leaf = &tree->leaves[(node - NODES) * DEGREE];
        not_refused("end", wovenrock_end(SETTINGS, prover.done, prover.message, TABLE, leaf, DEGREE));
        return;
    }
    uint64_t *polynomial = &tree->rounds[3 * DEGREE * node];
    not_refused("round", wovenrock_round(SETTINGS, prover.done, prover.key, TABLE, prover.message, TABLE, polynomial, 3 * DEGREE));
    for (size_t child = 0; child < 3; child++) {
        struct prover rewound = prover;
        uint32_t exponent = challenge(node, child);
        tree->challenges[3 * node + child] = exponent;
        not_refused("fold", wovenrock_fold(SETTINGS, rewound.done, exponent, rewound.key, TABLE, rewound.message, TABLE));
        rewound.done++;
        visit(rewound, 3 * node + 1 + child, tree);
    }
}

int main(void) {
    struct prover prover = {.done = 0};
    memcpy(prover.key, KEY, sizeof KEY);
    memcpy(prover.message, MESSAGE, sizeof MESSAGE);
    uint64_t commitment[DEGREE];
    not_refused("commit", wovenrock_commit(SETTINGS, KEY, TABLE, MESSAGE, TABLE, commitment, DEGREE));
    printf("commitment: %" PRIu64 " %" PRIu64 "\n", commitment[0], commitment[1]);

    struct tree tree;
    visit(prover, 0, &tree);
    for (size_t leaf = 0; leaf < LEAVES; leaf++)
        printf("leaf %zu: %d %d\n", leaf, tree.leaves[2 * leaf], tree.leaves[2 * leaf + 1]);

    int64_t w[TABLE];
    not_refused("extract", wovenrock_extract(SETTINGS, commitment, DEGREE, KEY, TABLE, tree.rounds, 3 * NODES * DEGREE, tree.challenges, 3 * NODES, tree.leaves,
                                             LEAVES * DEGREE, w, TABLE));
    printf("w:");
    for (int i = 0; i < TABLE; i++)
        printf(" %lld", (long long)w[i]);
    printf("\n");

    uint32_t slack = wovenrock_extracted_slack(DEPTH);
    uint32_t yes;
    not_refused("judge", wovenrock_judge(SETTINGS, commitment, DEGREE, slack, KEY, TABLE, w, TABLE, &yes));
    printf("opens %u times the commitment: %s\n", slack, yes ? "yes" : "no");

    /* All leaves are folds of one message, so w is 16 times that message. */
    for (int i = 0; i < TABLE; i++)
        if (w[i] != (int64_t)slack * MESSAGE[i])
            return 1;
    printf("w is %u times the message\n", slack);
    return yes != 1;
}
