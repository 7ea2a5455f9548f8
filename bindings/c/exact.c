/*
 * exact FILE [salvage]: takes a file frame by frame, each payload into memory of just its length, by the reader's rules or by
 * salvage's. What there is to copy is in exact.h. Prints of each frame its first byte, its payload's length and FNV-1a sum, then where
 * it ended and the number that ended it.
 */
#include "exact.h"

#include <stdio.h>

/* As long as a file may be. */
#define MOST ((size_t)16 << 20)

static uint64_t sum_of(const uint8_t *bytes, size_t len)
{
    uint64_t sum = 0xCBF29CE484222325;

    for (size_t i = 0; i < len; i++)
        sum = (sum ^ bytes[i]) * 0x100000001B3;
    return sum;
}

static void print_frames(uint8_t rules, const uint8_t *run, size_t len)
{
    uint64_t words[LATTRUGONE_ANSWER_WORDS];
    uint8_t *payload;
    size_t at = 0;

    while ((payload = take_exactly(rules, run, len, at, words)) != NULL) {
        size_t bytes = words[LATTRUGONE_FRAME_PAYLOAD_LEN];
        printf("at %zu bytes %zu sum %016llx\n", at, bytes, (unsigned long long)sum_of(payload, bytes));
        free(payload);
        at = words[LATTRUGONE_FRAME_BEHIND];
    }
    printf("end %zu left %zu number %u\n", at, len - at, (unsigned)words[LATTRUGONE_NUMBER]);
}

int main(int argc, char **argv)
{
    FILE *file = argc > 1 ? fopen(argv[1], "rb") : NULL;
    uint8_t *run = malloc(MOST);

    if (file == NULL || run == NULL) {
        fprintf(stderr, "exact FILE [salvage]\n");
        return 1;
    }
    size_t len = fread(run, 1, MOST, file);
    int whole = feof(file) != 0;
    fclose(file);
    if (whole)
        print_frames(argc > 2 ? LATTRUGONE_RULES_SALVAGE : LATTRUGONE_RULES_READER, run, len);
    free(run);
    return !whole || fflush(stdout) != 0;
}
