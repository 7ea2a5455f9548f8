/*
 * receive FILE PIECE [open]: sends a file's bytes over a socket pair, PIECE at a time, and receives them by loop.h. Where PIECE is
 * 0 they are read at once, to compare. The sender closes behind the last byte, or with `open` stays silent there: then receiving
 * more, which would never end, fails. Prints a line for each frame and each refusal, as framelist and salvagelist do but with the
 * FNV-1a sum of the payload, then where reading ended and how many bytes are left, and how the connection ended.
 */
#define _POSIX_C_SOURCE 200809L
#include "loop.h"

#include <stdio.h>
#include <sys/socket.h>
#include <unistd.h>

/* What is sent, how far, the end of the pair that it goes into, and whether that stays open. */
static struct {
    uint8_t *bytes;
    size_t len, sent, piece;
    int end, open;
} sender;

/* The sender's next piece goes out first, so that each call finds one. */
static ssize_t receive(int socket, uint8_t *to, size_t most)
{
    size_t left = sender.len - sender.sent, piece = left < sender.piece ? left : sender.piece;

    if (left == 0 && sender.open)
        return -1;
    if (piece > 0 && write(sender.end, sender.bytes + sender.sent, piece) != (ssize_t)piece)
        return -1;
    sender.sent += piece;
    if (sender.sent == sender.len && !sender.open)
        shutdown(sender.end, SHUT_WR);
    return recv(socket, to, most, 0);
}

static void take_frame(uint64_t first, const uint64_t *frame, const uint8_t *payload)
{
    static const char *const types[] = {"?", "request", "reply", "object", "communication", "noreply"};
    unsigned format = (unsigned)frame[LATTRUGONE_FRAME_FORMAT];
    uint64_t sum = 0xCBF29CE484222325;

    for (size_t i = 0; i < frame[LATTRUGONE_FRAME_PAYLOAD_LEN]; i++)
        sum = (sum ^ payload[i]) * 0x100000001B3;
    printf("at %zu %s %c%c%c corr %u seg %zu bytes %zu sum %016llx\n", (size_t)first, types[format & LATTRUGONE_TYPE_BITS],
           format & LATTRUGONE_CHAINED ? 'c' : '-', format & LATTRUGONE_CONTINUE_ON_ERROR ? 'e' : '-',
           format & LATTRUGONE_SAME_CORRELATION ? 's' : '-', (unsigned)frame[LATTRUGONE_FRAME_CORRELATION],
           (size_t)frame[LATTRUGONE_FRAME_SEGMENTS], (size_t)frame[LATTRUGONE_FRAME_PAYLOAD_LEN], (unsigned long long)sum);
}

static void take_refusal(uint64_t place, const uint64_t *refusal)
{
    printf("refused %u at %zu value %u\n", (unsigned)refusal[LATTRUGONE_NUMBER], (size_t)place, (unsigned)refusal[2]);
}

/* All bytes at once: next_frame over the whole run, until it gives no frame. */
static const char *read_at_once(struct connection *c)
{
    uint64_t words[LATTRUGONE_ANSWER_WORDS];

    while (lattrugone_next_frame(c->area, c->filled, c->at, c->room, c->room_len, words, LATTRUGONE_ANSWER_WORDS) == LATTRUGONE_DONE) {
        take_frame(c->at, words, c->room);
        c->at = words[LATTRUGONE_FRAME_BEHIND];
    }
    return c->at == c->filled ? "closed" : "closed within a frame, or refused";
}

static int load(const char *name, uint8_t **bytes, size_t *len)
{
    FILE *file = fopen(name, "rb");

    if (file == NULL || lend(bytes, len, MOST) != NULL)
        return 0;
    *len = fread(*bytes, 1, MOST, file);
    int whole = feof(file) != 0;
    fclose(file);
    return whole;
}

int main(int argc, char **argv)
{
    struct connection c = {.open = 1};
    const char *ended;
    int pair[2];

    if (argc < 3 || !load(argv[1], &sender.bytes, &sender.len) || socketpair(AF_UNIX, SOCK_STREAM, 0, pair) != 0) {
        fprintf(stderr, "receive FILE PIECE [open]\n");
        return 1;
    }
    c.socket = pair[0];
    sender.end = pair[1];
    sender.piece = strtoul(argv[2], NULL, 10);
    sender.open = argc > 3;
    if (sender.piece > 0) {
        ended = read_connection(&c);
    } else {
        c.area = sender.bytes;
        c.filled = sender.len;
        lend(&c.room, &c.room_len, MOST); /* as long as any payload of the file */
        ended = read_at_once(&c);
    }
    printf("end %zu left %zu\n%s\n", (size_t)c.gone + c.at, sender.len - (size_t)c.gone - c.at, ended);
    if (c.area != sender.bytes)
        free(c.area);
    free(c.room);
    free(sender.bytes);
    return fflush(stdout) != 0;
}
