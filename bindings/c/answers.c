/* answers: prints the version, and the text of each number that an answer has. Both are for a log: an example to copy. */
#include "lattrugone.h"

#include <stdio.h>
#include <string.h>

int main(void)
{
    const char *none = lattrugone_answer_text(UINT64_MAX);
    uint32_t version = lattrugone_version();

    printf("%u.%u.%u\n", version / 10000, version / 100 % 100, version % 100);
    for (uint64_t number = 0; number <= UINT8_MAX; number++) {
        const char *text = lattrugone_answer_text(number);
        if (strcmp(text, none) != 0)
            printf("%u %s\n", (unsigned)number, text);
        /* a word is wider than an answer's number: what stands above isn't lost */
        if (strcmp(lattrugone_answer_text(number + ((uint64_t)1 << 8)), none) != 0 ||
            strcmp(lattrugone_answer_text(number + ((uint64_t)1 << 32)), none) != 0)
            return 1;
    }
    return version != LATTRUGONE_VERSION;
}
