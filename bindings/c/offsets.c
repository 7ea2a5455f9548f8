/*
 * A salvage list beside a hex dump: an example to copy. Of each frame and each refusal in a file it prints where it stood, the first
 * byte and the byte after the last, as a hex dump counts them and in decimal, and then what it is; at last what was not read.
 */
#include "lattrugone.h"

#include <stdio.h>
#include <stdlib.h>

/* All bytes of a file; NULL where it can't be read. */
static uint8_t *read_file(const char *name, size_t *len)
{
    FILE *file = fopen(name, "rb");
    uint8_t *bytes = NULL;
    long size;

    if (file == NULL)
        return NULL;
    if (fseek(file, 0, SEEK_END) == 0 && (size = ftell(file)) >= 0 && (bytes = malloc((size_t)size + 1)) != NULL) {
        rewind(file);
        *len = fread(bytes, 1, (size_t)size, file);
        if (ferror(file)) {
            free(bytes);
            bytes = NULL;
        }
    }
    fclose(file);
    return bytes;
}

static void print_stretch(uint64_t first, uint64_t end)
{
    printf("%08lx-%08lx %lu-%lu ", (unsigned long)first, (unsigned long)end, (unsigned long)first, (unsigned long)end);
}

static void print_entry(const uint64_t *entry)
{
    static const char *const types[] = {"?", "request", "reply", "object", "communication", "noreply"};
    unsigned format = (unsigned)entry[LATTRUGONE_FRAME_FORMAT];

    print_stretch(entry[LATTRUGONE_RECORD_FIRST], entry[LATTRUGONE_RECORD_END]);
    if (entry[LATTRUGONE_NUMBER] != LATTRUGONE_DONE)
        printf("refused %u value %lu\n", (unsigned)entry[LATTRUGONE_NUMBER], (unsigned long)entry[2]);
    else
        printf("%s %c%c%c corr %u seg %lu bytes %lu\n", types[format & LATTRUGONE_TYPE_BITS],
               format & LATTRUGONE_CHAINED ? 'c' : '-', format & LATTRUGONE_CONTINUE_ON_ERROR ? 'e' : '-',
               format & LATTRUGONE_SAME_CORRELATION ? 's' : '-', (unsigned)entry[LATTRUGONE_FRAME_CORRELATION],
               (unsigned long)entry[LATTRUGONE_FRAME_SEGMENTS], (unsigned long)entry[LATTRUGONE_FRAME_PAYLOAD_LEN]);
}

/* Lent nothing, the call says what it needs; lent that, it is done. Where it needs nothing, nothing stands there. */
static int print_list(const uint8_t *run, size_t len)
{
    uint64_t words[LATTRUGONE_ANSWER_WORDS], *row = NULL;
    uint8_t *room = NULL, answer = lattrugone_salvage(run, len, NULL, 0, NULL, 0, words, LATTRUGONE_ANSWER_WORDS);

    if (answer == LATTRUGONE_NO_ROOM) {
        size_t room_len = words[LATTRUGONE_NEEDED_BYTES], row_len = words[LATTRUGONE_NEEDED_RECORDS] * LATTRUGONE_RECORD_WORDS;
        room = malloc(room_len + 1);
        row = malloc(row_len * sizeof *row);
        if (room != NULL && row != NULL)
            answer = lattrugone_salvage(run, len, room, room_len, row, row_len, words, LATTRUGONE_ANSWER_WORDS);
    }
    if (answer == LATTRUGONE_DONE) {
        for (size_t i = 0; i < words[LATTRUGONE_LIST_COUNT]; i++)
            print_entry(row + i * LATTRUGONE_RECORD_WORDS);
        print_stretch(words[LATTRUGONE_LIST_TAIL], len);
        printf("not read\n");
    }
    free(room);
    free(row);
    return answer == LATTRUGONE_DONE ? 0 : 1;
}

int main(int argc, char **argv)
{
    size_t len;
    uint8_t *run = argc == 2 ? read_file(argv[1], &len) : NULL;
    int status = run == NULL ? 1 : print_list(run, len);

    if (status != 0)
        fprintf(stderr, "usage: offsets FILE, which can be read and fits the memory\n");
    free(run);
    return status;
}
