/* One request, built once and altered for each extension block: an example to copy. What it prints is held to alter.out. */
#include "lattrugone.h"

#include <stdio.h>
#include <stdlib.h>
#include <string.h>

#define SQLDTA 0x2412 /* the values of a request: */
#define FDODSC 0x0010 /* what a row of them holds, */
#define FDODTA 0x147A /* and the row */
#define RDBNAM 0x2110

/* As it was typed, up to eight digits. It is never a number: 0412 stays 0412. */
typedef char extension[9];

/* A row of one text that isn't null: its length in two bytes, and the extension. */
static size_t row_of(const char *typed, uint8_t *row)
{
    size_t len = strlen(typed);

    memset(row, 0, 4);
    row[3] = (uint8_t)len;
    memcpy(row + 4, typed, len);
    return 4 + len;
}

/* Builds the request, its row still empty: how many bytes, 0 where it doesn't fit. A call that is done answers 0. */
static size_t build(uint8_t *room, size_t room_len)
{
    static const uint8_t one_text[] = {0x06, 0x76, 0xD0, 0x3F, 0x7F, 0xFF, 0x06, 0x71, 0xE4, 0xD0, 0x00, 0x01};
    uint64_t words[LATTRUGONE_ANSWER_WORDS], *result = words + LATTRUGONE_RESULT;
    uint8_t data[32], object[40];

    if (lattrugone_builder_add_code_point(0, FDODSC, one_text, sizeof one_text, data, sizeof data, words, LATTRUGONE_ANSWER_WORDS) ||
        lattrugone_builder_add_code_point(*result, FDODTA, NULL, 0, data, sizeof data, words, LATTRUGONE_ANSWER_WORDS) ||
        lattrugone_builder_build(SQLDTA, *result, data, sizeof data, object, sizeof object, words, LATTRUGONE_ANSWER_WORDS) ||
        lattrugone_build_dss_object(1, 0, object, *result, room, room_len, words, LATTRUGONE_ANSWER_WORDS))
        return 0;
    return *result;
}

/* The request with one parameter changed, words[RESULT] bytes, for the caller to free; or NULL, and the words say why. With no room
 * lent, the call says how much it needs. The request itself stays as it was built. */
static uint8_t *alter(const uint8_t *request, size_t request_len, uint16_t code_point, const uint8_t *bytes, size_t len,
                      uint64_t *words)
{
    if (lattrugone_change_request(request, request_len, code_point, bytes, len, NULL, 0, words, LATTRUGONE_ANSWER_WORDS) !=
        LATTRUGONE_NO_ROOM)
        return NULL;

    size_t need = words[LATTRUGONE_NEEDED_BYTES];
    uint8_t *room = malloc(need);
    if (room != NULL)
        lattrugone_change_request(request, request_len, code_point, bytes, len, room, need, words, LATTRUGONE_ANSWER_WORDS);
    return room;
}

static void print_hex(const uint8_t *bytes, size_t len)
{
    for (size_t i = 0; i < len; i++)
        printf("%02X", bytes[i]);
    printf("\n");
}

/* What altering came to: in a gateway the request is sent. A refusal has written nothing. */
static void print_altered(const char *typed, uint8_t *altered, const uint64_t *words)
{
    printf("%s ", typed);
    if (altered != NULL)
        print_hex(altered, words[LATTRUGONE_RESULT]);
    else if (words[LATTRUGONE_NUMBER] == LATTRUGONE_NONE)
        printf("no such parameter\n");
    else
        printf("refused %u at %zu\n", (unsigned)words[LATTRUGONE_NUMBER], (size_t)words[LATTRUGONE_PLACE]);
    free(altered);
}

int main(void)
{
    static const extension blocks[] = {"0412", "0430", "07001"};
    uint64_t words[LATTRUGONE_ANSWER_WORDS];
    uint8_t request[64], row[4 + sizeof(extension)];
    size_t request_len = build(request, sizeof request), row_len = 0;

    print_hex(request, request_len);
    for (size_t i = 0; i < sizeof blocks / sizeof blocks[0]; i++) {
        row_len = row_of(blocks[i], row);
        print_altered(blocks[i], alter(request, request_len, FDODTA, row, row_len, words), words);
    }
    print_altered("07001", alter(request, request_len, RDBNAM, row, row_len, words), words);
    return 0;
}
