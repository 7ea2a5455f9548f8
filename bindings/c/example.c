/*
 * From a connection to the bytes of an object: an example to copy. The connection is read by loop.h, and what it hands over is
 * printed, with the objects in each frame. What it prints is held to example.out.
 */
#include "loop.h"

#include <stdio.h>

#define SVRCOD 0x1149 /* a reply's severity code */

/* ---- what came off the wire: in a gateway, a socket */

static const uint8_t first[] = {
    0x00, 0x16, 0xD0, 0x42, 0x00, 0x01, 0x00, 0x10, 0x22, 0x05, 0x00, 0x06, 0x11, 0x49, 0x00, 0x00, 0x00, 0x06, 0x21, 0x02, 0x24, 0x17,
    0x00, 0x0C, 0xD0, 0x43, 0x00, 0x01, 0x80, 0x04, 0x24, 0x1B, 0xF0, 0xF4};
static const uint8_t second[] = {0x00, 0x0A, 0xD0, 0x53, 0x00, 0x01, 0x7F, 0xFE, 0xF1, 0xF2, 0x00, 0x10, 0xD0, 0x02};
static const uint8_t third[] = {0x00, 0x01, 0x00, 0x0A, 0x22, 0x0B, 0x00, 0x06, 0x11, 0x49, 0x00, 0x04};
static const uint8_t damaged[] = {
    0x00, 0x0C, 0xD0, 0x03, 0x00, 0x02, 0x00, 0x06, 0x24, 0x1B, 0xF0, 0xF1, 0x00, 0x0C, 0xD1, 0x03, 0x00, 0x03, 0x00, 0x06, 0x24, 0x1B,
    0xF0, 0xF2, 0x00, 0x0C, 0xD0, 0x03, 0x00, 0x04, 0x00, 0x06, 0x24, 0x1B, 0xF0, 0xF3, 0x00, 0x0C, 0xD0};

static ssize_t receive(int socket, uint8_t *to, size_t most)
{
    static const struct {
        const uint8_t *bytes;
        size_t len;
    } pieces[] = {{first, sizeof first}, {second, sizeof second}, {third, sizeof third}, {damaged, sizeof damaged}};
    static size_t next;

    (void)socket;
    if (next == sizeof pieces / sizeof pieces[0] || most < pieces[next].len)
        return 0;
    memcpy(to, pieces[next].bytes, pieces[next].len);
    printf("received %zu\n", pieces[next].len);
    return (ssize_t)pieces[next++].len;
}

/* ---- what was found */

static void print_hex(const uint8_t *bytes, size_t len)
{
    for (size_t i = 0; i < len; i++)
        printf("%02X", bytes[i]);
    printf("\n");
}

static void take_refusal(uint64_t place, const uint64_t *refusal)
{
    printf("refused %u at %zu value %zu\n", (unsigned)refusal[LATTRUGONE_NUMBER], (size_t)place, (size_t)refusal[2]);
}

/* A number in an object's data, by its code point. It is a parameter of a few bytes, so no work area is lent; a longer one of
 * that code point would be refused, and isn't what is looked for. */
static void print_severity(const uint8_t *data, size_t data_len)
{
    uint64_t found[LATTRUGONE_ANSWER_WORDS], number[LATTRUGONE_ANSWER_WORDS];

    if (lattrugone_find_param(data, data_len, SVRCOD, NULL, 0, found, LATTRUGONE_ANSWER_WORDS) != LATTRUGONE_DONE)
        return;
    if (lattrugone_as_u16(data + found[LATTRUGONE_OBJECT_DATA_AT], found[LATTRUGONE_OBJECT_DATA_LEN], number,
                          LATTRUGONE_ANSWER_WORDS) != LATTRUGONE_DONE)
        return;
    printf("  severity %u\n", (unsigned)number[LATTRUGONE_RESULT]);
}

/* The objects in a frame's payload, one behind the other; fewer than four last bytes are none. An object's data are never longer
 * than the payload, so a work area of that length is always enough. */
static void print_objects(const uint8_t *payload, size_t len)
{
    uint64_t words[LATTRUGONE_ANSWER_WORDS];
    uint8_t *work = malloc(len + 1);
    size_t at = 0;

    while (work != NULL && len - at >= 4) {
        if (lattrugone_object(payload, len, at, work, len, words, LATTRUGONE_ANSWER_WORDS) != LATTRUGONE_DONE) {
            printf("  ");
            take_refusal(words[LATTRUGONE_PLACE], words);
            break;
        }
        const uint8_t *data = (words[LATTRUGONE_OBJECT_IN_WORK] ? work : payload) + words[LATTRUGONE_OBJECT_DATA_AT];
        size_t data_len = words[LATTRUGONE_OBJECT_DATA_LEN];
        printf("  object %04X data %zu: ", (unsigned)words[LATTRUGONE_OBJECT_CODE_POINT], data_len);
        print_hex(data, data_len);
        print_severity(data, data_len);
        at += words[LATTRUGONE_OBJECT_CONSUMED];
    }
    free(work);
}

static void take_frame(uint64_t first, const uint64_t *frame, const uint8_t *payload)
{
    static const char *const types[] = {"?", "request", "reply", "object", "communication", "noreply"};
    unsigned format = (unsigned)frame[LATTRUGONE_FRAME_FORMAT];

    printf("at %zu %s %c%c%c corr %u seg %zu bytes %zu\n", (size_t)first, types[format & LATTRUGONE_TYPE_BITS],
           format & LATTRUGONE_CHAINED ? 'c' : '-', format & LATTRUGONE_CONTINUE_ON_ERROR ? 'e' : '-',
           format & LATTRUGONE_SAME_CORRELATION ? 's' : '-', (unsigned)frame[LATTRUGONE_FRAME_CORRELATION],
           (size_t)frame[LATTRUGONE_FRAME_SEGMENTS], (size_t)frame[LATTRUGONE_FRAME_PAYLOAD_LEN]);
    print_objects(payload, frame[LATTRUGONE_FRAME_PAYLOAD_LEN]);
}

int main(void)
{
    struct connection c = {.open = 1};

    printf("%s\n", read_connection(&c));
    free(c.area);
    free(c.room);
    return 0;
}
