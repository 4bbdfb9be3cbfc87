#include <inttypes.h>
#include <stdio.h>
#include "wovenrock.h"

int main(void) {
    const uint64_t key[4] = {3, 5, 7, 2};
    const int32_t message[4] = {1, -1, 1, 0};
    uint64_t commitment[2];
    uint32_t number = wovenrock_commit(2, 1, 17, 1, 1, key, 4, message, 4, commitment, 2);
    if (number != WOVENROCK_NOT_REFUSED) {
        printf("refused %u: %s\n", number, wovenrock_word(number));
        return 1;
    }
    printf("%" PRIu64 " %" PRIu64 "\n", commitment[0], commitment[1]);
    return 0;
}
