/* Tables as text: reads a transcript with its key from standard input, takes it apart into tables, and writes the tables as text again. The text that comes
 * out is the text that went in, byte for byte: a table has one text. */
#include <inttypes.h>
#include <stdio.h>
#include <stdlib.h>
#include <string.h>

#include "wovenrock.h"

static void *room(size_t count, size_t width) {
    void *numbers = calloc(count + 1, width); /* never null, also where count is 0 */
    if (numbers == NULL)
        exit(2);
    return numbers;
}

/* A line with the numbers of a table. */
static void print_table(const char *what, const uint64_t *table, size_t count) {
    printf("%s:", what);
    for (size_t k = 0; k < count; k++)
        printf(" %" PRIu64, table[k]);
    printf("\n");
}

/* What `verify` says of a text. */
static void print_verdict(const char *what, const uint8_t *text, size_t count) {
    uint32_t verdict;
    uint32_t number = wovenrock_verify(text, count, &verdict);
    if (number != WOVENROCK_NOT_REFUSED)
        printf("%s: refused %u: %s\n", what, number, wovenrock_word(number));
    else
        printf("%s: %s\n", what, verdict == WOVENROCK_ACCEPTED ? "accepted" : "rejected");
}

int main(void) {
    /* One byte more than the longest text: without it a longer one would be cut off, and not refused. */
    static uint8_t text[WOVENROCK_TEXT + 1], out[WOVENROCK_TEXT];
    size_t read = fread(text, 1, sizeof text, stdin);

    uint64_t settings[WOVENROCK_SETTINGS];
    uint32_t number = wovenrock_look(text, read, settings, WOVENROCK_SETTINGS);
    if (number != WOVENROCK_NOT_REFUSED) {
        printf("look: refused %u: %s\n", number, wovenrock_word(number));
        return 1;
    }
    uint32_t degree = (uint32_t)settings[0], depth = (uint32_t)settings[1], bound = (uint32_t)settings[3], rows = (uint32_t)settings[4];
    uint64_t modulus = settings[2];
    printf("degree %u, depth %u, modulus %" PRIu64 ", bound %u, rows %u\n", degree, depth, modulus, bound, rows);

    /* The settings give every length; the message is absent, and its slice has length 0. */
    size_t key_length = wovenrock_key_length(degree, depth, rows), commitment_length = wovenrock_commitment_length(degree, rows);
    size_t rounds_length = wovenrock_rounds_length(degree, depth, rows), challenges_length = wovenrock_challenges_length(depth);
    size_t element = wovenrock_element_length(degree), claims_length = wovenrock_claims_length(degree, depth, rows);
    uint64_t *key = room(key_length, sizeof *key), *commitment = room(commitment_length, sizeof *commitment), *rounds = room(rounds_length, sizeof *rounds);
    uint64_t *claims = room(claims_length, sizeof *claims);
    uint32_t *challenges = room(challenges_length, sizeof *challenges);
    int32_t *last = room(element, sizeof *last), *message = room(0, sizeof *message);
    uint32_t parts = WOVENROCK_KEY | WOVENROCK_COMMITMENT | WOVENROCK_ROUNDS | WOVENROCK_CHALLENGES | WOVENROCK_LAST | WOVENROCK_CLAIMS;
    number = wovenrock_read(parts, text, read, settings, WOVENROCK_SETTINGS, key, key_length, message, 0, commitment, commitment_length, rounds, rounds_length, challenges,
                            challenges_length, last, element, claims, claims_length);
    if (number != WOVENROCK_NOT_REFUSED) {
        printf("read: refused %u: %s\n", number, wovenrock_word(number));
        return 1;
    }
    print_table("commitment", commitment, commitment_length);
    print_table("claims", claims, claims_length);

    size_t written;
    number = wovenrock_write(degree, depth, modulus, bound, rows, parts, key, key_length, message, 0, commitment, commitment_length, rounds, rounds_length, challenges,
                             challenges_length, last, element, claims, claims_length, out, sizeof out, &written);
    if (number != WOVENROCK_NOT_REFUSED) {
        printf("write: refused %u: %s\n", number, wovenrock_word(number));
        return 1;
    }
    int same = written == read && memcmp(out, text, read) == 0;
    printf("%zu bytes read, %zu written, %s\n", read, written, same ? "the same" : "not the same");
    print_verdict("as it was read", text, read);

    /* Another final element is well formed, and is rejected. */
    int32_t final = last[0];
    last[0] = final == 0 ? 1 : 0;
    number = wovenrock_write(degree, depth, modulus, bound, rows, parts, key, key_length, message, 0, commitment, commitment_length, rounds, rounds_length, challenges,
                             challenges_length, last, element, claims, claims_length, out, sizeof out, &written);
    if (number == WOVENROCK_NOT_REFUSED)
        print_verdict("with another final element", out, written);

    /* Nor is a claim taken that is not the one of its round. */
    last[0] = final;
    if (claims_length > 0)
        claims[0] = (claims[0] + 1) % modulus;
    number = wovenrock_write(degree, depth, modulus, bound, rows, parts, key, key_length, message, 0, commitment, commitment_length, rounds, rounds_length, challenges,
                             challenges_length, last, element, claims, claims_length, out, sizeof out, &written);
    if (number == WOVENROCK_NOT_REFUSED)
        print_verdict("with another claim", out, written);

    /* A second way to write the same numbers is no text. */
    memcpy(out, text, read);
    out[read - 1] = ' ';
    print_verdict("with a space for the last line feed", out, read);

    free(key), free(commitment), free(rounds), free(challenges), free(last), free(claims), free(message);
    return !same;
}
