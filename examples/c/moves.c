/* A prover and a verifier, move by move. The prover has the key and the message; the verifier has the key and a session, which starts at the commitment, and draws
 * a challenge after each round polynomial. */
#include <stdio.h>
#include <stdlib.h>
#include <string.h>

#include "wovenrock.h"

enum { DEGREE = 8, DEPTH = 3, BOUND = 3, ROWS = 1 };
enum { TABLE = DEGREE << DEPTH };

/* The largest modulus, 2^61 - 1. */
#define MODULUS WOVENROCK_MODULUS_MAX
#define SETTINGS DEGREE, DEPTH, MODULUS, BOUND, ROWS

/* 0 says that the call was not refused, and nothing more. */
static void not_refused(const char *call, uint32_t number) {
    if (number != WOVENROCK_NOT_REFUSED) {
        printf("%s: refused %u: %s\n", call, number, wovenrock_word(number));
        exit(1);
    }
}

int main(void) {
    /* Any numbers in range. A real key is drawn at random. */
    uint64_t key[TABLE], folded_key[TABLE];
    int32_t message[TABLE];
    for (int i = 0; i < TABLE; i++) {
        key[i] = MODULUS - 1 - (uint64_t)(i * i * i);
        message[i] = i % 7 - 3;
    }
    memcpy(folded_key, key, sizeof key);

    uint64_t commitment[DEGREE];
    not_refused("commit", wovenrock_commit(SETTINGS, key, TABLE, message, TABLE, commitment, DEGREE));
    uint64_t session[WOVENROCK_SESSION];
    not_refused("start", wovenrock_session_start(SETTINGS, commitment, DEGREE, session, WOVENROCK_SESSION));

    uint32_t verdict;
    for (uint32_t done = 0; done < DEPTH; done++) {
        uint64_t polynomial[3 * DEGREE];
        not_refused("round", wovenrock_round(SETTINGS, done, folded_key, TABLE, message, TABLE, polynomial, 3 * DEGREE));
        /* The verifier draws this once it has the polynomial; here it is fixed. */
        uint32_t challenge = (5 * done + 3) % (2 * DEGREE);
        not_refused("session round", wovenrock_session_round(polynomial, 3 * DEGREE, challenge, session, WOVENROCK_SESSION, &verdict));
        printf("round %u: %s\n", done + 1, verdict == WOVENROCK_HOLDS ? "holds" : "rejected");
        if (verdict != WOVENROCK_HOLDS)
            return 1;
        not_refused("fold", wovenrock_fold(SETTINGS, done, challenge, folded_key, TABLE, message, TABLE));
    }

    int32_t last[DEGREE];
    not_refused("end", wovenrock_end(SETTINGS, DEPTH, message, TABLE, last, DEGREE));
    printf("final element:");
    for (int k = 0; k < DEGREE; k++)
        printf(" %d", last[k]);
    printf("\n");
    /* The verifier uses its own key, which nobody folded. */
    not_refused("session end", wovenrock_session_end(last, DEGREE, key, TABLE, session, WOVENROCK_SESSION, &verdict));
    printf("end: %s\n", verdict == WOVENROCK_ACCEPTED ? "accepted" : "rejected");
    return verdict != WOVENROCK_ACCEPTED;
}
