/* Reads a connection frame by frame, as its bytes come in. Yours are the three functions and the length that are declared first. */
#include "lattrugone.h"

#include <stdlib.h>
#include <string.h>
#include <sys/types.h>

/* As recv: how many bytes came, 0 where the sender has closed, below 0 where it failed. */
static ssize_t receive(int socket, uint8_t *to, size_t most);
/* A frame and its payload, with the place of its first byte; a refusal, with its place. Both are counted over the connection. */
static void take_frame(uint64_t first, const uint64_t *frame, const uint8_t *payload);
static void take_refusal(uint64_t place, const uint64_t *refusal);
/* As long as an area or a room may become. */
#define MOST ((size_t)16 << 20)

/* At first a socket, `open` 1, and 0 all else. The area's first `filled` bytes are received, and those before `at` are read. */
struct connection {
    int socket, open;
    uint8_t *area, *room;
    size_t area_len, room_len, filled, at;
    uint64_t gone; /* how many bytes of the connection stood before the area's first */
};

/* Makes a buffer as long as is needed, where that isn't too long. */
static const char *lend(uint8_t **bytes, size_t *len, uint64_t need)
{
    uint8_t *longer = need <= MOST ? realloc(*bytes, need) : NULL;

    if (longer == NULL)
        return "too long";
    *bytes = longer;
    *len = need;
    return NULL;
}

/* Receives behind what is left, which goes to the area's start. Where that fills the area, the area grows. */
static const char *receive_more(struct connection *c)
{
    if (c->at > 0) {
        c->gone += c->at;
        c->filled -= c->at;
        memmove(c->area, c->area + c->at, c->filled);
        c->at = 0;
    }
    if (c->filled == c->area_len && lend(&c->area, &c->area_len, 2 * c->area_len + 65536) != NULL)
        return "too long";

    ssize_t got = receive(c->socket, c->area + c->filled, c->area_len - c->filled);
    if (got < 0)
        return "failed";
    c->open = got > 0;
    c->filled += (size_t)got;
    return NULL;
}

static unsigned length_at(const struct connection *c, size_t at)
{
    return c->area[at] * 256u + c->area[at + 1];
}

/* Where salvage steps to from the frame at `place`, with all of its head; `place` where the frame isn't whole. A continuation of
 * length 7FFF is salvage's last, where frame_end goes on. */
static size_t salvage_end(const struct connection *c, size_t place)
{
    uint64_t words[LATTRUGONE_ANSWER_WORDS];
    size_t at = place;

    while (c->filled - at >= 32769 && length_at(c, at) == 0xFFFF)
        at += 32767; /* to the next length, which is there */
    if (at > place && c->filled - at >= 32767 && length_at(c, at) == 0x7FFF)
        return at + 32767;
    if (lattrugone_frame_end(c->area, c->filled, place, words, LATTRUGONE_ANSWER_WORDS) != LATTRUGONE_DONE)
        return place;
    return words[LATTRUGONE_RESULT] < place + 6 ? place + 6 : words[LATTRUGONE_RESULT];
}

/* The head at `place` is refused. Salvage starts where the refused call did, for a frame that stands before that head is lost to
 * the call. It ends where the refused frame does, or at its head where it isn't whole, so that what stands behind is read like all
 * else: two entries are the most. Behind a length below 6 nothing can be found, whatever comes in. */
static const char *salvage(struct connection *c, size_t place)
{
    uint64_t words[LATTRUGONE_ANSWER_WORDS], row[2 * LATTRUGONE_RECORD_WORDS];
    size_t end = salvage_end(c, place);

    if (lattrugone_salvage(c->area + c->at, end - c->at, c->room, c->room_len, row, 2 * LATTRUGONE_RECORD_WORDS, words,
                           LATTRUGONE_ANSWER_WORDS) == LATTRUGONE_NO_ROOM)
        return lend(&c->room, &c->room_len, words[LATTRUGONE_NEEDED_BYTES]); /* then all is asked again */

    for (size_t i = 0; i < words[LATTRUGONE_LIST_COUNT]; i++) {
        const uint64_t *entry = row + i * LATTRUGONE_RECORD_WORDS;
        uint64_t first = c->gone + c->at + entry[LATTRUGONE_RECORD_FIRST];
        if (entry[LATTRUGONE_NUMBER] == LATTRUGONE_DONE)
            take_frame(first, entry, c->room + entry[LATTRUGONE_FRAME_PAYLOAD_AT]);
        else
            take_refusal(first, entry);
    }
    c->at += words[LATTRUGONE_LIST_TAIL];
    return c->at < end ? "a length below 6" : NULL;
}

/* Reads a connection to its end, and says how it ended: "closed" where all is read. */
static const char *read_connection(struct connection *c)
{
    uint64_t words[LATTRUGONE_ANSWER_WORDS];
    const char *ended = NULL;

    while (ended == NULL) {
        uint8_t answer = lattrugone_next_frame(c->area, c->filled, c->at, c->room, c->room_len, words, LATTRUGONE_ANSWER_WORDS);

        /* A chained frame may go on in segments that are still to come: it waits while the frame behind it isn't whole yet. One
         * that is never whole isn't waited for. */
        if (answer == LATTRUGONE_DONE && c->open && (words[LATTRUGONE_FRAME_FORMAT] & LATTRUGONE_CHAINED) &&
            lattrugone_frame_end(c->area, c->filled, words[LATTRUGONE_FRAME_BEHIND], NULL, 0) == LATTRUGONE_NOT_WHOLE)
            answer = LATTRUGONE_NOT_WHOLE;

        switch (answer) {
        case LATTRUGONE_DONE:
            take_frame(c->gone + c->at, words, c->room);
            c->at = words[LATTRUGONE_FRAME_BEHIND];
            break;
        case LATTRUGONE_NOT_WHOLE:
            if (c->open)
                ended = receive_more(c);
            else
                ended = c->at == c->filled ? "closed" : "closed within a frame";
            break;
        case LATTRUGONE_NEVER_WHOLE: /* whatever comes in: the position stays, and so does the answer */
            take_refusal(c->gone + words[LATTRUGONE_PLACE], words);
            ended = "a continuation length of 0 or 1";
            break;
        case LATTRUGONE_NO_ROOM:
            ended = lend(&c->room, &c->room_len, words[LATTRUGONE_NEEDED_BYTES]);
            break;
        default: /* BAD_MAGIC, BAD_TYPE, LENGTH_TOO_SHORT */
            ended = salvage(c, words[LATTRUGONE_PLACE]);
        }
    }
    return ended;
}
