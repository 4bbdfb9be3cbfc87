/* Wovenrock: a verified sumcheck argument over the ring of polynomials modulo X^d + 1. The functions of libwovenrock.a.
 *
 *   ****************************************************************************************************
 *   *  WHAT A FUNCTION RETURNS IS THE NUMBER OF A REFUSAL. 0 MEANS "NOT REFUSED", NOT "ACCEPTED".      *
 *   *  A forged transcript that is well formed returns 0 too. What the verifier says of it stands in   *
 *   *  *verdict, and it is accepted only where that is WOVENROCK_ACCEPTED; what the judge says stands  *
 *   *  in *yes.                                                                                        *
 *   ****************************************************************************************************
 *
 * Every exported function is proved to meet its contract (crates/exports) for all numbers and for slices of all lengths: it stays inside the slices that it
 * is lent, ends, and needs nothing of its arguments but this:
 *
 *   - a slice is a pointer and, behind it, its length in numbers (not in bytes);
 *   - a pointer is not null, also where the length is 0, and is aligned for its type;
 *   - what a function writes (no const), a slice or a single number, overlaps nothing else that is lent to the same call.
 *
 * Settings are the first five numbers of most calls:
 *
 *   degree    d, 2, 4, 8, 16, 32 or 64, and 128 with modulus 12289 alone: an element has d coefficients, that of X^0 first, and X^d = -1
 *   depth     L, 0 to 8: a table has n = 2^L elements
 *   modulus   q, odd, 3 to 2305843009213693951 (2^61 - 1): coefficients of key, commitment and round polynomials are 0 to q - 1
 *   bound     B, 1 to 127: coefficients of a message are from -B to B
 *   rows      1 to 4: a key has that many rows of n elements, and a commitment one element for each row
 *
 * One message is committed to in every row, and folds with every row by the same challenges; an opening is accepted where it holds in every row. A row of the key
 * may be a list of public weights: with a number g_i in place 0 of its element i, and 0 elsewhere, the row's element of the commitment is the sum of g_i*m_i
 * modulo q, which everybody can read.
 *
 * A challenge is an exponent e from 0 to 2d - 1 and stands for X^e.
 *
 * The modulus and all residues (key, commitment, round polynomials, claim) are numbers of 64 bits, for every modulus. A message and a final element have
 * signed numbers of 32 bits, challenges unsigned ones of 32, and an extracted vector signed ones of 64.
 *
 * Every slice has exactly the length that is said here, which the settings give. A slice of any other length is refusal 7.
 *
 *   final element        d numbers
 *   message, w           flat: element i begins at number i*d; n*d numbers
 *   key                  rows*n*d numbers: its rows one after the other, element i of row r is element r*n + i
 *   commitment           rows*d numbers: element r is that of row r
 *   round polynomial     3*rows*d numbers: c0 of every row, then c1 of every row, then c2; c_j of row r is element rows*j + r
 *   session record       527 numbers
 *   settings             5 numbers
 *
 * A round polynomial is laid out as a round is in the table `rounds`: its numbers 3*rows*d*(i-1) to 3*rows*d*i - 1 are the polynomial of round i.
 *
 * Every function returns the number of the first refusal that applies, in the order of this table but for 16, which is tested straight after 6, and 0 where nothing
 * is refused:
 *
 *     1  long        a text, read or to be written, is over 65536 bytes
 *     2  text        a line is not of the stated shape, or the first five value lines are not the settings
 *     3  degree      d is not listed, or is 128 with a modulus other than 12289, also one that is refused itself
 *     4  depth       L is over 8
 *     5  modulus     q is even or out of range
 *     6  bound       B is out of range
 *     7  size        a slice has not exactly its length, value lines are not the required ones in order, a slice for text is shorter than the text,
 *                    a number of parts is not below 128, or a session record is neither open nor closed
 *     8  residue     a coefficient of a key, commitment, round polynomial or claim, in a record or a text, is not 0 to q - 1
 *     9  tall        a message coefficient is beyond its bound; in the writer, a final coefficient is -2147483648
 *    10  challenge   an exponent is not 0 to 2d - 1
 *    11  turn        a round with L or more rounds done, an end with other than L done, a closed record
 *    12  twin        two equal exponents at one node
 *    13  branch      a path of the tree that the verifier rejects
 *    14  growth      (8*d*d)^L * B is over 2^62
 *    15  slack       the slack is not 1 to 65536, or its greatest common divisor with q is not 1
 *    16  rows        the number of rows is not 1 to 4
 *
 * A refused call writes nothing to any slice, but for one: a refused start of a session writes the closed record of zeros. What a function answers behind
 * a pointer to a single number (`verdict`, `yes`, `count`) is 0 where the call is refused.
 *
 * A session record has 527 numbers of 64 bits. One past 4294967295 in a place other than those of the modulus and the claims counts as 4294967295, which is
 * refused there:
 *
 *    0 to 4    degree, depth, modulus, bound, rows
 *         5    rounds done
 *         6    closed: 0 says open, 1 closed; any other number is refusal 7
 *    7 to 14   the eight challenges, the unused ones 0
 *   15 to 526  four claims of 128 numbers each, that of row r from number 15 + 128*r on; of each the numbers from d on are not read, nor any number of a claim
 *              past the rows, and a start or a round that holds writes 0 there
 *
 * A text is a slice of bytes: the line "part item place value", and then a line of four numbers for each value, with single spaces between and a line
 * feed after every line. A number has no leading zero, no plus and no "-0"; only a value may be negative. Part, item and place are at most 2147483647, and
 * so is the magnitude of a value of part 2, 5 or 6; that of any other value is at most 2305843009213693951. A larger number is refusal 2 in whatever line
 * it stands. Lines rise by part, item and place, and none is missing:
 *
 *   part 0   settings     item 0, places 0 to 4: degree, depth, modulus, bound, rows
 *   part 1   key          item r*n + i: element i of row r, place: coefficient
 *   part 2   message      item: element, place: coefficient
 *   part 3   commitment   item: row
 *   part 4   rounds       item rows*(3*(i-1)+j) + r: c_j of round i in row r
 *   part 5   challenges   item i-1: that of round i; place 0
 *   part 6   last         item 0: the final element
 *   part 7   claims       item rows*(i-1) + r: the claim of row r after round i, which is c0 + X^e*c1 + X^(2e)*c2 modulo q of that round and row, e being the
 *                         round's challenge
 *
 * Part 0 is always there. Which others are there is a number below 128: WOVENROCK_KEY for part 1 to WOVENROCK_CLAIMS for part 7, added up. The slice
 * that belongs to an absent part has length 0; each other one has exactly its length: key rows*n*d, message n*d, commitment rows*d, rounds rows*3*L*d,
 * challenges L, last d, claims rows*L*d. With L = 0 the rounds, challenges and claims have no lines, there or not. Settings go to a slice of 5 numbers of 64 bits,
 * in the order of part 0.
 */
#ifndef WOVENROCK_H
#define WOVENROCK_H

#include <stddef.h>
#include <stdint.h>

#ifdef __cplusplus
extern "C" {
#endif

/* The version of this header, which is that of the archive it was installed with. */
#define WOVENROCK_VERSION "0.6.0"

/* The largest degree and depth, and the most rows: for room that fits all settings, of which a call is lent the part that has its length. */
#define WOVENROCK_DEGREE_MAX 128
#define WOVENROCK_DEPTH_MAX 8
#define WOVENROCK_ROWS_MAX 4

/* The largest modulus, and the one with which the largest degree is allowed. */
#define WOVENROCK_MODULUS_MAX UINT64_C(2305843009213693951)
#define WOVENROCK_MODULUS_OF_DEGREE_MAX UINT64_C(12289)

/* Numbers of a session record. */
#define WOVENROCK_SESSION 527

/* Numbers of settings. */
#define WOVENROCK_SETTINGS 5

/* Bytes of the longest text. */
#define WOVENROCK_TEXT 65536

/* Parts of a text. */
#define WOVENROCK_KEY 1
#define WOVENROCK_MESSAGE 2
#define WOVENROCK_COMMITMENT 4
#define WOVENROCK_ROUNDS 8
#define WOVENROCK_CHALLENGES 16
#define WOVENROCK_LAST 32
#define WOVENROCK_CLAIMS 64

/* What a function returns: the number of the refusal. */
#define WOVENROCK_NOT_REFUSED 0   /* not refused; this is no verdict */
#define WOVENROCK_REFUSED_LONG 1
#define WOVENROCK_REFUSED_TEXT 2
#define WOVENROCK_REFUSED_DEGREE 3
#define WOVENROCK_REFUSED_DEPTH 4
#define WOVENROCK_REFUSED_MODULUS 5
#define WOVENROCK_REFUSED_BOUND 6
#define WOVENROCK_REFUSED_SIZE 7
#define WOVENROCK_REFUSED_RESIDUE 8
#define WOVENROCK_REFUSED_TALL 9
#define WOVENROCK_REFUSED_CHALLENGE 10
#define WOVENROCK_REFUSED_TURN 11
#define WOVENROCK_REFUSED_TWIN 12
#define WOVENROCK_REFUSED_BRANCH 13
#define WOVENROCK_REFUSED_GROWTH 14
#define WOVENROCK_REFUSED_SLACK 15
#define WOVENROCK_REFUSED_ROWS 16   /* tested straight after 6 */

/* What a verifier says. */
#define WOVENROCK_SILENT 0   /* nothing: the call was refused */
#define WOVENROCK_HOLDS 1    /* a session's round holds; whether the opening is accepted is said at its end */
#define WOVENROCK_ACCEPTED 2
#define WOVENROCK_REJECTED 3

/* Are these settings allowed: refusals 3 to 6, 16. */
uint32_t wovenrock_settings(uint32_t degree, uint32_t depth, uint64_t modulus, uint32_t bound, uint32_t rows);

/* Commit: for each row, the sum of m_i*G_i modulo q over the n elements m_i of the message and G_i of that row of the key, written to `commitment`.
 * Lengths: key rows*n*d, message n*d, commitment rows*d. Refusals 3 to 9, 16. */
uint32_t wovenrock_commit(uint32_t degree, uint32_t depth, uint64_t modulus, uint32_t bound, uint32_t rows,
                          const uint64_t *key, size_t key_length,
                          const int32_t *message, size_t message_length,
                          uint64_t *commitment, size_t commitment_length);

/* The prover's round: the round polynomial of round done + 1 is written to `polynomial`. Both tables are folded `done` times.
 * Lengths: key rows*n*d, message n*d, polynomial 3*rows*d. Refusals 3 to 9, 11, 16; what is left of the message must lie within 2^done * B. */
uint32_t wovenrock_round(uint32_t degree, uint32_t depth, uint64_t modulus, uint32_t bound, uint32_t rows,
                         uint32_t done,
                         const uint64_t *key, size_t key_length,
                         const int32_t *message, size_t message_length,
                         uint64_t *polynomial, size_t polynomial_length);

/* The fold of both tables by X^exponent, with `done` rounds done: of the n/2^done elements that are left, the first half becomes first half plus
 * X^exponent times second half, over whole numbers in the message and modulo q in each row of the key. Every number behind it stays, in each row too.
 * Lengths: key rows*n*d, message n*d. Refusals 3 to 11, 16; what is left of the message must lie within 2^done * B. */
uint32_t wovenrock_fold(uint32_t degree, uint32_t depth, uint64_t modulus, uint32_t bound, uint32_t rows,
                        uint32_t done, uint32_t exponent,
                        uint64_t *key, size_t key_length,
                        int32_t *message, size_t message_length);

/* The prover's end: the first element of a message that was folded L times, written to `last`.
 * Lengths: message n*d, last d. Refusals 3 to 7, 9, 11, 16. */
uint32_t wovenrock_end(uint32_t degree, uint32_t depth, uint64_t modulus, uint32_t bound, uint32_t rows,
                       uint32_t done,
                       const int32_t *message, size_t message_length,
                       int32_t *last, size_t last_length);

/* The whole opening: the prover and the verifier take turns in L rounds by the given challenges, the claims starting at the commitment. The commitment is
 * written to `commitment`, the round elements to `rounds`, the final element to `last`, and both tables stay as L folds leave them. `*verdict` becomes
 * 2 or 3. Lengths: key rows*n*d, message n*d, challenges L, rounds rows*3*L*d (c_j of round i in row r is element rows*(3*(i-1)+j) + r), commitment rows*d,
 * last d. Refusals 3 to 10, 16. */
uint32_t wovenrock_open(uint32_t degree, uint32_t depth, uint64_t modulus, uint32_t bound, uint32_t rows,
                        uint64_t *key, size_t key_length,
                        int32_t *message, size_t message_length,
                        const uint32_t *challenges, size_t challenges_length,
                        uint64_t *rounds, size_t rounds_length,
                        uint64_t *commitment, size_t commitment_length,
                        int32_t *last, size_t last_length,
                        uint32_t *verdict);

/* A verifier's session starts at a commitment: its record is written to `session`, whatever was there. Where the start is refused, that is a closed
 * record of zeros (number 6 is 1, all others are 0); where `session` has not 527 numbers, nothing is written.
 * Lengths: commitment rows*d, session 527. Refusals 3 to 8, 16. */
uint32_t wovenrock_session_start(uint32_t degree, uint32_t depth, uint64_t modulus, uint32_t bound, uint32_t rows,
                                 const uint64_t *commitment, size_t commitment_length,
                                 uint64_t *session, size_t session_length);

/* A session's round, with the round polynomial and the challenge X^exponent. It holds where in every row 2*(c0 + c2) is the claim: `*verdict` becomes 1, and
 * the record counts the round and stores the challenge and the next claims. Else `*verdict` becomes 3, and the record is closed. A refused round leaves the
 * record as it was. Lengths: polynomial 3*rows*d, session 527, rows and d being the record's. Refusals 7 at once where `session` has not 527 numbers; then
 * 3 to 6 and 16 for the record's settings, 7, 8, 10 (the record's eight challenges too), 11. */
uint32_t wovenrock_session_round(const uint64_t *polynomial, size_t polynomial_length,
                                 uint32_t exponent,
                                 uint64_t *session, size_t session_length,
                                 uint32_t *verdict);

/* A session's end, with the final element and the unfolded key: `*verdict` becomes 2 or 3, and the record is closed. A refused end leaves the record as
 * it was. Lengths: last d, key rows*n*d, session 527, rows, d and n being those of the record's settings. Refusals 7 at once where `session` has not 527
 * numbers; then 3 to 6 and 16 for the record's settings, 7, 8, 10 (the record's eight challenges), 11. */
uint32_t wovenrock_session_end(const int32_t *last, size_t last_length,
                               const uint64_t *key, size_t key_length,
                               uint64_t *session, size_t session_length,
                               uint32_t *verdict);

/* The check of a transcript: is it accepted, with the claims started at the commitment? `*verdict` becomes 2 or 3.
 * Lengths: commitment rows*d, last d, key rows*n*d (unfolded), rounds rows*3*L*d (c_j of round i in row r is element rows*(3*(i-1)+j) + r), challenges L.
 * Refusals 3 to 8, 10, 16. */
uint32_t wovenrock_check(uint32_t degree, uint32_t depth, uint64_t modulus, uint32_t bound, uint32_t rows,
                         const uint64_t *commitment, size_t commitment_length,
                         const int32_t *last, size_t last_length,
                         const uint64_t *key, size_t key_length,
                         const uint64_t *rounds, size_t rounds_length,
                         const uint32_t *challenges, size_t challenges_length,
                         uint32_t *verdict);

/* The judge of relaxed openings: is in every row `slack` times the commitment the sum of w_i*G_i modulo q, and no coefficient of w beyond (8*d*d)^L * B?
 * A slack that shares a factor with q is refused (15): it would open commitments that have nothing behind them.
 * `*yes` becomes 1 or 0. Lengths: commitment rows*d, key rows*n*d, w n*d. Refusals 3 to 8, 14, 15, 16. */
uint32_t wovenrock_judge(uint32_t degree, uint32_t depth, uint64_t modulus, uint32_t bound, uint32_t rows,
                         const uint64_t *commitment, size_t commitment_length,
                         uint32_t slack,
                         const uint64_t *key, size_t key_length,
                         const int64_t *w, size_t w_length,
                         uint32_t *yes);

/* The extractor: from a full tree of accepted transcripts one vector w that opens 4^L times the commitment in every row, in the judge's sense with slack 4^L.
 * The root is node 0, and the children of node k are 3k+1, 3k+2, 3k+3. There are N = (3^L - 1)/2 branching nodes, and number N + j is leaf j.
 * The vector is written to `w`. Lengths: commitment rows*d, key rows*n*d, rounds rows*3*N*d (c_j of node k in row r is element rows*(3k+j) + r), challenges
 * 3*N (that to child 3k+1+j is number 3k+j), leaves 3^L*d (final elements), w n*d. Refusals 3 to 8, 10, 12, 13, 14, 16. */
uint32_t wovenrock_extract(uint32_t degree, uint32_t depth, uint64_t modulus, uint32_t bound, uint32_t rows,
                           const uint64_t *commitment, size_t commitment_length,
                           const uint64_t *key, size_t key_length,
                           const uint64_t *rounds, size_t rounds_length,
                           const uint32_t *challenges, size_t challenges_length,
                           const int32_t *leaves, size_t leaves_length,
                           int64_t *w, size_t w_length);

/* A first look at a text: its settings are written to `settings`, from which a caller knows the lengths of the tables. Every line of the text is
 * tested. Lengths: settings 5. Refusals 1 to 6, 16, then 7 (`settings`). */
uint32_t wovenrock_look(const uint8_t *text, size_t text_length,
                        uint64_t *settings, size_t settings_length);

/* The table reader: the settings of a text are written to `settings`, and the values of the parts that are there to their tables. Nothing is written
 * before the whole text has passed all tests. Claims are read as numbers; whether they are those of the rounds, `wovenrock_verify` says. Lengths: settings 5,
 * tables as above. Refusals 1 to 10, 16. */
uint32_t wovenrock_read(uint32_t parts,
                        const uint8_t *text, size_t text_length,
                        uint64_t *settings, size_t settings_length,
                        uint64_t *key, size_t key_length,
                        int32_t *message, size_t message_length,
                        uint64_t *commitment, size_t commitment_length,
                        uint64_t *rounds, size_t rounds_length,
                        uint32_t *challenges, size_t challenges_length,
                        int32_t *last, size_t last_length,
                        uint64_t *claims, size_t claims_length);

/* The table writer: the text of the parts that are there is written to `out`, and its length to `*count`. Bytes behind the text stay. Lengths: tables as
 * above; `out` may be longer than the text. Refusals 3 to 10, 16, then 1 (the text is over 65536 bytes), then 7 (`out` is shorter than the text). */
uint32_t wovenrock_write(uint32_t degree, uint32_t depth, uint64_t modulus, uint32_t bound, uint32_t rows,
                         uint32_t parts,
                         const uint64_t *key, size_t key_length,
                         const int32_t *message, size_t message_length,
                         const uint64_t *commitment, size_t commitment_length,
                         const uint64_t *rounds, size_t rounds_length,
                         const uint32_t *challenges, size_t challenges_length,
                         const int32_t *last, size_t last_length,
                         const uint64_t *claims, size_t claims_length,
                         uint8_t *out, size_t out_length,
                         size_t *count);

/* The program `prove`: the whole opening of the key, message and challenges in a text of these three parts. The text of settings, commitment, rounds, challenges,
 * final element and claims is written to `out`, and its length to `*count`. Bytes behind it stay. Refusals 1 to 10, 16, then 1 and 7 as in the table writer;
 * with WOVENROCK_TEXT bytes it is never 7. */
uint32_t wovenrock_prove(const uint8_t *text, size_t text_length,
                         uint8_t *out, size_t out_length,
                         size_t *count);

/* The program `verify`: is the transcript in a text of settings, key, commitment, rounds, challenges, final element and claims accepted? `*verdict` becomes 2 or 3:
 * 3 also where a claim in the text is not the one of its round and row. Refusals 1 to 8, 10, 16. */
uint32_t wovenrock_verify(const uint8_t *text, size_t text_length, uint32_t *verdict);

/* What follows is compiled with the caller's program and is no part of the archive: the version, the word of a refusal, and the lengths that the calls above want. A
 * length is 0 where the degree is not listed, 128 being listed here whatever the modulus is, the depth is over 8, or the rows are not 1 to 4. */

static inline const char *wovenrock_version(void) {
    return WOVENROCK_VERSION;
}

/* The word of a refusal, for messages. */
static inline const char *wovenrock_word(uint32_t number) {
    static const char *const words[] = {
        "not refused", "long", "text",      "degree", "depth", "modulus", "bound",  "size",
        "residue",     "tall", "challenge", "turn",   "twin",  "branch",  "growth", "slack",
        "rows",
    };
    return number < sizeof words / sizeof words[0] ? words[number] : "unknown";
}

/* d: an element, such as the final one. */
static inline size_t wovenrock_element_length(uint32_t degree) {
    switch (degree) {
    case 2:
    case 4:
    case 8:
    case 16:
    case 32:
    case 64:
    case 128:
        return degree;
    default:
        return 0;
    }
}

/* rows*d: a commitment. */
static inline size_t wovenrock_commitment_length(uint32_t degree, uint32_t rows) {
    return rows <= WOVENROCK_ROWS_MAX ? rows * wovenrock_element_length(degree) : 0;
}

/* 3*rows*d: a round polynomial. */
static inline size_t wovenrock_polynomial_length(uint32_t degree, uint32_t rows) {
    return 3 * wovenrock_commitment_length(degree, rows);
}

/* n*d: a message, an extracted vector w. */
static inline size_t wovenrock_table_length(uint32_t degree, uint32_t depth) {
    return depth <= WOVENROCK_DEPTH_MAX ? wovenrock_element_length(degree) << depth : 0;
}

/* rows*n*d: a key. */
static inline size_t wovenrock_key_length(uint32_t degree, uint32_t depth, uint32_t rows) {
    return rows <= WOVENROCK_ROWS_MAX ? rows * wovenrock_table_length(degree, depth) : 0;
}

/* L: the challenges of a transcript. */
static inline size_t wovenrock_challenges_length(uint32_t depth) {
    return depth <= WOVENROCK_DEPTH_MAX ? depth : 0;
}

/* rows*3*L*d: the round elements of a transcript. */
static inline size_t wovenrock_rounds_length(uint32_t degree, uint32_t depth, uint32_t rows) {
    return wovenrock_challenges_length(depth) * wovenrock_polynomial_length(degree, rows);
}

/* rows*L*d: the claims after each round of a transcript. */
static inline size_t wovenrock_claims_length(uint32_t degree, uint32_t depth, uint32_t rows) {
    return wovenrock_challenges_length(depth) * wovenrock_commitment_length(degree, rows);
}

/* 3^L: how many leaves a full tree has. */
static inline size_t wovenrock_leaf_count(uint32_t depth) {
    size_t leaves = depth <= WOVENROCK_DEPTH_MAX;
    for (uint32_t i = 0; leaves != 0 && i < depth; i++)
        leaves *= 3;
    return leaves;
}

/* N = (3^L - 1)/2: how many branching nodes a full tree has. */
static inline size_t wovenrock_node_count(uint32_t depth) {
    return wovenrock_leaf_count(depth) / 2;
}

/* rows*3*N*d: the round elements of a full tree. */
static inline size_t wovenrock_tree_rounds_length(uint32_t degree, uint32_t depth, uint32_t rows) {
    return wovenrock_node_count(depth) * wovenrock_polynomial_length(degree, rows);
}

/* 3*N: the challenges of a full tree. */
static inline size_t wovenrock_tree_challenges_length(uint32_t depth) {
    return 3 * wovenrock_node_count(depth);
}

/* 3^L*d: the leaves of a full tree. */
static inline size_t wovenrock_leaves_length(uint32_t degree, uint32_t depth) {
    return wovenrock_leaf_count(depth) * wovenrock_element_length(degree);
}

/* 4^L: the slack of an extracted opening. */
static inline uint32_t wovenrock_extracted_slack(uint32_t depth) {
    return depth <= WOVENROCK_DEPTH_MAX ? (uint32_t)1 << 2 * depth : 0;
}

#ifdef __cplusplus
}
#endif

#endif
