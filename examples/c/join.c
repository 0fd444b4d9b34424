/* Joins the records of two controllers: two words in hex, 24 digits a record. Prints the map as a script's `map` does. */
#include "behkuna.h"

#include <stdio.h>
#include <stdlib.h>
#include <string.h>

enum { RECORD = 12 };

/* The bytes that a word spells in hex; false where it spells none. */
static int bytes_of(const char *word, uint8_t *bytes) {
    for (size_t at = 0; word[2 * at] != '\0'; at++) {
        unsigned byte;
        if (sscanf(word + 2 * at, "%2x", &byte) != 1) {
            return 0;
        }
        bytes[at] = (uint8_t)byte;
    }
    return 1;
}

int main(int words, char **word) {
    if (words != 3 || strlen(word[1]) % 2 != 0 || strlen(word[2]) % 2 != 0) {
        return 2;
    }
    size_t first = strlen(word[1]) / 2, both = first + strlen(word[2]) / 2, count = 0;
    uint8_t *list = malloc(both + 1), *joined = malloc(both + 1);
    int status = 4;
    if (list != NULL && joined != NULL && bytes_of(word[1], list) && bytes_of(word[2], list + first)) {
        status = (int)behkuna_join(list, both, joined, both, &count);
    }
    if (status == BEHKUNA_DONE) {
        printf("map %zu", count / RECORD);
        for (size_t at = 0; at < count; at++) {
            printf("%s%02x", at % RECORD == 0 ? " " : "", joined[at]);
        }
        printf("\n");
    }
    free(list);
    free(joined);
    return status;
}
