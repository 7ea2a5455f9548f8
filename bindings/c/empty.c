/*
 * Every function of lattrugone.h, called with slices of length 0 whose pointers are NULL: it answers as it does with pointers to
 * something, and touches nothing. Prints what differs; the exit is 0 where nothing does.
 */
#include "lattrugone.h"

#include <stdio.h>
#include <string.h>

static int bad;

/* Makes a call of no bytes `b` and no row `r`, pointers NULL or not, with words and without; its answer must be `number`, and its
 * words the same each time. */
#define ANSWERS(number, call)                                                                                                         \
    do {                                                                                                                              \
        uint64_t known[LATTRUGONE_ANSWER_WORDS], words[LATTRUGONE_ANSWER_WORDS];                                                      \
        for (int way = 0; way < 4; way++) {                                                                                           \
            uint8_t byte = 0x55, *b = way & 1 ? NULL : &byte;                                                                         \
            uint64_t word = 0x55, *r = way & 1 ? NULL : &word;                                                                        \
            uint64_t *w = way & 2 ? NULL : words;                                                                                     \
            size_t n = way & 2 ? 0 : LATTRUGONE_ANSWER_WORDS;                                                                         \
            memset(words, 0, sizeof words);                                                                                           \
            (void)b;                                                                                                                  \
            (void)r;                                                                                                                  \
            uint8_t answer = (call);                                                                                                  \
            if (way == 0)                                                                                                             \
                memcpy(known, words, sizeof known);                                                                                   \
            if (answer != (number) || byte != 0x55 || word != 0x55 || (w && memcmp(known, words, sizeof known) != 0)) {               \
                printf("%s: %u, way %d\n", #call, answer, way);                                                                       \
                bad = 1;                                                                                                              \
            }                                                                                                                         \
        }                                                                                                                             \
    } while (0)

#define IS(number, call)                                                                                                              \
    do {                                                                                                                              \
        if ((call) != (number)) {                                                                                                     \
            printf("%s\n", #call);                                                                                                    \
            bad = 1;                                                                                                                  \
        }                                                                                                                             \
    } while (0)

enum { DONE = LATTRUGONE_DONE, NO_ROOM = LATTRUGONE_NO_ROOM, NONE = LATTRUGONE_NONE, FEW = LATTRUGONE_TOO_FEW_BYTES };

static void heads_and_writer(void)
{
    IS(32767, lattrugone_decode_dss_length(0xFFFF));
    IS(1, lattrugone_is_full_continuation_len(0x7FFF));
    IS(32767, lattrugone_decode_continuation_len(0x7FFF));
    IS(LATTRUGONE_DEAD, lattrugone_decide_continuation(1));
    IS(0x70, lattrugone_flags_from_byte(0xFF));
    ANSWERS(LATTRUGONE_BAD_TYPE, lattrugone_type_from_byte(6, w, n));
    ANSWERS(FEW, lattrugone_head_parse(b, 0, w, n));
    ANSWERS(NO_ROOM, lattrugone_head_serialize(6, 1, 0, 1, b, 0, w, n));
    IS(32770, lattrugone_frame_size(32762));
    IS(SIZE_MAX, lattrugone_frame_size(SIZE_MAX));
    IS(0, lattrugone_next_correlation_id(65535));
    ANSWERS(NO_ROOM, lattrugone_write_dss_full(1, 0, 1, 0, b, 0, b, 0, w, n));
    ANSWERS(NO_ROOM, lattrugone_write_dss(1, 0, 1, 0, b, 0, b, 0, w, n));
    ANSWERS(LATTRUGONE_BAD_TYPE, lattrugone_write_dss(1, 0, 6, 0, b, 0, b, 0, w, n));
    ANSWERS(LATTRUGONE_OUT_OF_BOUNDS, lattrugone_write_dss(1, 1, 6, 0, b, 0, b, 0, w, n));
    ANSWERS(LATTRUGONE_OUT_OF_BOUNDS, lattrugone_write_dss_full(1, 1, 6, 0, b, 0, b, 0, w, n));
    ANSWERS(NO_ROOM, lattrugone_write_request(1, 0, 0, b, 0, b, 0, w, n));
    ANSWERS(NO_ROOM, lattrugone_write_request_no_reply(1, 0, 0, b, 0, b, 0, w, n));
    ANSWERS(NO_ROOM, lattrugone_write_object(1, 0, 0, b, 0, b, 0, w, n));
    ANSWERS(NO_ROOM, lattrugone_write_object_same_corr(1, 0, 0, b, 0, b, 0, w, n));
    ANSWERS(NO_ROOM, lattrugone_write_request_next_same_corr(1, 0, 0, b, 0, b, 0, w, n));
    ANSWERS(NO_ROOM, lattrugone_build_dss_request(1, 0, b, 0, b, 0, w, n));
    ANSWERS(NO_ROOM, lattrugone_build_dss_object(1, 0, b, 0, b, 0, w, n));
}

static void reader(void)
{
    IS(0, lattrugone_remaining(NULL, 0, 1));
    IS(0, lattrugone_has_frame(NULL, 0, 0));
    ANSWERS(LATTRUGONE_NOT_WHOLE, lattrugone_frame_end(b, 0, 0, w, n));
    ANSWERS(LATTRUGONE_NOT_WHOLE, lattrugone_first_frame_end(b, 0, w, n));
    ANSWERS(LATTRUGONE_NOT_WHOLE, lattrugone_next_frame(b, 0, 0, b, 0, w, n));
    ANSWERS(LATTRUGONE_OUT_OF_BOUNDS, lattrugone_next_frame(b, 0, 1, b, 0, w, n));
    for (uint8_t rules = LATTRUGONE_RULES_READER; rules <= LATTRUGONE_RULES_SALVAGE; rules++) {
        ANSWERS(LATTRUGONE_NOT_WHOLE, lattrugone_measure_frame(rules, b, 0, 0, w, n));
        ANSWERS(LATTRUGONE_OUT_OF_BOUNDS, lattrugone_measure_frame(rules, b, 0, 1, w, n));
        ANSWERS(LATTRUGONE_NOT_WHOLE, lattrugone_take_frame(rules, b, 0, 0, b, 0, w, n));
        ANSWERS(LATTRUGONE_OUT_OF_BOUNDS, lattrugone_take_frame(rules, b, 0, 1, b, 0, w, n));
    }
    ANSWERS(DONE, lattrugone_read_all_frames(b, 0, 0, b, 0, r, 0, w, n));
    ANSWERS(DONE, lattrugone_salvage(b, 0, b, 0, r, 0, w, n));
}

static void objects_and_builder(void)
{
    ANSWERS(FEW, lattrugone_parse_marshaled_length(b, 0, w, n));
    ANSWERS(DONE, lattrugone_strip_markers(b, 0, b, 0, w, n));
    ANSWERS(FEW, lattrugone_object(b, 0, 0, b, 0, w, n));
    ANSWERS(DONE, lattrugone_objects(b, 0, b, 0, r, 0, w, n));
    ANSWERS(DONE, lattrugone_parameters(b, 0, b, 0, r, 0, w, n));
    ANSWERS(NONE, lattrugone_find_param(b, 0, 0x2412, b, 0, w, n));
    ANSWERS(NONE, lattrugone_param_step(b, 0, 0, w, n));
    ANSWERS(LATTRUGONE_OUT_OF_BOUNDS, lattrugone_param_step(b, 0, 1, w, n));
    IS(4, lattrugone_object_total_length(0));
    ANSWERS(NONE, lattrugone_as_u16(b, 0, w, n));
    ANSWERS(NONE, lattrugone_as_u32(b, 0, w, n));
    ANSWERS(NONE, lattrugone_as_i32(b, 0, w, n));
    ANSWERS(NO_ROOM, lattrugone_builder_add_code_point(0, 0x2412, b, 0, b, 0, w, n));
    ANSWERS(NO_ROOM, lattrugone_builder_add_u16(0, 0x2412, 1, b, 0, w, n));
    ANSWERS(NO_ROOM, lattrugone_builder_add_u32(0, 0x2412, 1, b, 0, w, n));
    ANSWERS(DONE, lattrugone_builder_add_raw(0, b, 0, b, 0, w, n));
    ANSWERS(NO_ROOM, lattrugone_builder_build(0x200D, 0, b, 0, b, 0, w, n));
    IS(4, lattrugone_builder_total_length(0));
    ANSWERS(NO_ROOM, lattrugone_build_param(0x2412, b, 0, b, 0, w, n));
    ANSWERS(NO_ROOM, lattrugone_build_param_u16(0x2412, 1, b, 0, w, n));
    ANSWERS(NO_ROOM, lattrugone_build_ddm_object(0x200D, b, 0, b, 0, w, n));
    ANSWERS(NONE, lattrugone_change_param(b, 0, 0x2412, b, 0, b, 0, w, n));
    ANSWERS(NONE, lattrugone_change_param_len(b, 0, 0x2412, 0, w, n));
    ANSWERS(LATTRUGONE_NOT_WHOLE, lattrugone_change_request(b, 0, 0x2412, b, 0, b, 0, w, n));
}

/* With room and nothing else: what is empty is written and built, and a parameter is emptied. */
static void empty_payloads(void)
{
    static const uint8_t frame[6] = {0x00, 0x06, 0xD0, 0x01, 0x00, 0x01}, object[4] = {0x00, 0x04, 0x20, 0x0D};
    static const uint8_t request[15] = {0x00, 0x0F, 0xD0, 0x01, 0x00, 0x01, 0x00, 0x09, 0x20, 0x0D, 0x00, 0x05, 0x24, 0x12, 0xC1};
    static const uint8_t emptied[14] = {0x00, 0x0E, 0xD0, 0x01, 0x00, 0x01, 0x00, 0x08, 0x20, 0x0D, 0x00, 0x04, 0x24, 0x12};
    uint8_t room[16] = {0};

    IS(DONE, lattrugone_build_dss_request(1, 0, NULL, 0, room, sizeof room, NULL, 0));
    IS(0, memcmp(room, frame, sizeof frame));
    IS(DONE, lattrugone_next_frame(frame, sizeof frame, 0, NULL, 0, NULL, 0));
    IS(DONE, lattrugone_measure_frame(LATTRUGONE_RULES_READER, frame, sizeof frame, 0, NULL, 0));
    IS(DONE, lattrugone_take_frame(LATTRUGONE_RULES_SALVAGE, frame, sizeof frame, 0, NULL, 0, NULL, 0));
    IS(DONE, lattrugone_build_ddm_object(0x200D, NULL, 0, room, sizeof room, NULL, 0));
    IS(0, memcmp(room, object, sizeof object));
    IS(DONE, lattrugone_object(object, sizeof object, 0, NULL, 0, NULL, 0));
    IS(NO_ROOM, lattrugone_change_param(request + 10, 5, 0x2412, NULL, 0, NULL, 0, NULL, 0));
    IS(DONE, lattrugone_change_param(request + 10, 5, 0x2412, NULL, 0, room, sizeof room, NULL, 0));
    IS(0, memcmp(room, emptied + 10, 4));
    IS(NO_ROOM, lattrugone_change_request(request, sizeof request, 0x2412, NULL, 0, NULL, 0, NULL, 0));
    IS(DONE, lattrugone_change_request(request, sizeof request, 0x2412, NULL, 0, room, sizeof room, NULL, 0));
    IS(0, memcmp(room, emptied, sizeof emptied));
}

int main(void)
{
    heads_and_writer();
    reader();
    objects_and_builder();
    empty_payloads();
    return bad;
}
