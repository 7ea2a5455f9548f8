/*
 * Lattrugone: DRDA's framing, proved. Frames (DSS) are written and read, objects (DDM) are built and read, one parameter of a
 * request already built is changed, and a damaged run is salvaged. Plain C99, also for C++. Nothing is allocated, kept between
 * calls or shared between threads: a call touches what it is lent and nothing else, and it ends on every input.
 *
 * To link: liblattrugone.a, as `pkg-config --cflags --libs lattrugone` says. It needs no other library.
 *
 * SLICES. A slice goes as a pointer and then a length, in elements. Of the slices that are lent to one call, none that is
 * written may overlap another. A pointer to words is aligned as uint64_t is. A slice's length times its element's size is at
 * most PTRDIFF_MAX, as is so of whatever malloc gives. Where the length is 0 the pointer may be anything, NULL too: nothing is
 * read or written through it. (The proofs speak of Rust's slices, whose pointers are never null; that NULL does no harm is tried
 * out, for every function here, by bindings/c/empty.c.)
 *
 * WORDS. A function that can refuse returns the answer's number, and lays LATTRUGONE_ANSWER_WORDS words down at the start of
 * `words`:
 *
 *     words[0]      the number again
 *     words[1]      a refusal's place; or a position where the function says so, else 0
 *     words[2] ..   a refusal's values (see below), or the result (see each function); 0 where there is no more
 *
 * Where `words` has fewer, it stays as it was and only the number is known; where it has more, the others stay.
 *
 * REFUSALS. A refusal's place is the first byte of the head, object or parameter that is refused, or for UNSOUND of what is
 * left over, or for NEVER_WHOLE of the continuation's length; for NOT_WHOLE, NO_ROOM, OUT_OF_BOUNDS, NONE and UNREADABLE it is
 * the position or fill mark as given, 0 where the call has neither. A refusal leaves a reader's position at its place for
 * BAD_MAGIC, BAD_TYPE and LENGTH_TOO_SHORT, and as given for NOT_WHOLE, NEVER_WHOLE, NO_ROOM and OUT_OF_BOUNDS. It leaves every
 * lent room, work area and row as it was. With DONE, bytes and words outside the result stay as they were. NO_ROOM is given only
 * where nothing else refuses, with what would have been enough: lend that much, call again, and it is done. The need is counted
 * from the fill mark where a function has one (write_.., builder_add_..): lend fill mark and need. So a call with nothing lent,
 * and fill mark 0, asks for the need.
 *
 * ROWS. A list goes into a row of uint64_t, one record behind the other: of frames and of salvage entries LATTRUGONE_RECORD_WORDS
 * words each, of objects and of parameters LATTRUGONE_OBJECT_WORDS. row_len over that is how many records have room, words beyond
 * stay.
 *
 * docs/DIFFERENCES.md says where the answers differ from db2-proto's and from DRDA volume 3. bindings/c/example.c,
 * bindings/c/exact.c, bindings/c/offsets.c and bindings/c/alter.c are examples to copy.
 */
#ifndef LATTRUGONE_H
#define LATTRUGONE_H

#include <stddef.h>
#include <stdint.h>

#if !defined(__x86_64__) || !defined(__LP64__)
#error "lattrugone's archive is for x86-64 with sizes of 64 bits"
#endif

#ifdef __cplusplus
extern "C" {
#endif

/* The version as one number, its first part times 10,000, its second times 100 and its third: 0.1.0 is 100. */
#define LATTRUGONE_VERSION 100

/* How many words an answer has, a record of frames or of salvage entries, and a record of objects or parameters. */
#define LATTRUGONE_ANSWER_WORDS 8
#define LATTRUGONE_RECORD_WORDS 10
#define LATTRUGONE_OBJECT_WORDS 8

/* The answer's number, and in brackets the values: words[2], words[3], words[4]. */
enum lattrugone_answer {
    LATTRUGONE_DONE = 0,
    LATTRUGONE_NOT_WHOLE = 1,            /* frame not whole yet: lend the same run with more bytes */
    LATTRUGONE_BAD_MAGIC = 2,            /* magic not D0 [the byte] */
    LATTRUGONE_BAD_TYPE = 3,             /* type not 1 to 5 [the low four bits] */
    LATTRUGONE_TOO_FEW_BYTES = 4,        /* too few bytes [expected, actual: counted from the place] */
    LATTRUGONE_INLINE_TOO_SHORT = 5,     /* inline DDM length below 4 [length, 4, code point] */
    LATTRUGONE_HEADER_TOO_SHORT = 6,     /* extended DDM header below 4 [header length] */
    LATTRUGONE_LENGTH_TOO_SHORT = 7,     /* DSS length below 6 [the length] */
    LATTRUGONE_LENGTH_TOO_LARGE = 8,     /* extended DDM length and header above 2^64 - 1 [header length] */
    LATTRUGONE_NO_ROOM = 9,              /* no room [bytes needed from the fill mark on, records needed; 2^64 - 1 where more] */
    LATTRUGONE_OUT_OF_BOUNDS = 10,       /* position or fill mark beyond its buffer [it, the buffer's length] */
    LATTRUGONE_NONE = 11,                /* no such parameter, or too few bytes for the number asked */
    LATTRUGONE_NEVER_WHOLE = 16,         /* a continuation length of 0 or 1 stands at words[PLACE]: no further bytes can mend it,
                                          * give the connection up */
    LATTRUGONE_UNSOUND = 17,             /* parameters that don't fill their data, raw length 0x8004, or bytes left over */
    LATTRUGONE_UNREADABLE = 18           /* the frame's last chunk would be full: next_frame wouldn't find it whole */
};

/* Where what stands in an answer's words. */
enum lattrugone_word {
    LATTRUGONE_NUMBER = 0,
    LATTRUGONE_PLACE = 1,

    /* NO_ROOM */
    LATTRUGONE_NEEDED_BYTES = 2,
    LATTRUGONE_NEEDED_RECORDS = 3,

    /* a number, a count of bytes, an end, a fill mark: functions whose result is one number */
    LATTRUGONE_RESULT = 2,

    /* head_parse */
    LATTRUGONE_HEAD_LENGTH = 2,
    LATTRUGONE_HEAD_TYPE = 3,
    LATTRUGONE_HEAD_FLAGS = 4,
    LATTRUGONE_HEAD_CORRELATION = 5,

    /* the functions write_..: the writer after the frame */
    LATTRUGONE_WRITER_CORRELATION = 2,
    LATTRUGONE_WRITER_FILL = 3,

    /* next_frame, measure_frame, take_frame: the position behind the frame; and a frame's record in a row: where its payload
     * starts in the room */
    LATTRUGONE_FRAME_BEHIND = 1,
    LATTRUGONE_FRAME_PAYLOAD_AT = 1,
    /* both */
    LATTRUGONE_FRAME_LENGTH = 2,         /* the first head's; 32,767 where it says FFFF */
    LATTRUGONE_FRAME_FORMAT = 3,         /* type and flags, as below */
    LATTRUGONE_FRAME_CORRELATION = 4,
    LATTRUGONE_FRAME_PAYLOAD_LEN = 5,
    LATTRUGONE_FRAME_SEGMENTS = 6,       /* one, and one for each continuation or absorbed segment */
    /* next_frame, measure_frame, take_frame */
    LATTRUGONE_FRAME_FIRST = 7,          /* the frame's first byte, counted from the run's start as FRAME_BEHIND is */

    /* a record of frames or of salvage entries, a refusal's too: where it stood in the run, continuations and absorbed segments
     * included */
    LATTRUGONE_RECORD_FIRST = 8,         /* its first byte */
    LATTRUGONE_RECORD_END = 9,           /* the byte after its last; RECORD_FIRST where salvage ends at a length below 6 */

    /* read_all_frames, salvage, objects, parameters */
    LATTRUGONE_LIST_BEHIND = 1,          /* read_all_frames: the position behind the last frame */
    LATTRUGONE_LIST_COUNT = 2,
    LATTRUGONE_LIST_BYTES = 3,           /* of the room or the work area */
    LATTRUGONE_LIST_TAIL = 4,            /* salvage: where the walk ended */

    /* parse_marshaled_length */
    LATTRUGONE_LENGTH_TOTAL = 2,
    LATTRUGONE_LENGTH_HEADER = 3,

    /* object, find_param, param_step, and a record of objects and parameters */
    LATTRUGONE_OBJECT_BEHIND = 1,        /* param_step: the next parameter's place */
    LATTRUGONE_OBJECT_CODE_POINT = 2,
    LATTRUGONE_OBJECT_IN_WORK = 3,       /* 1: the data lie in the work area, markers removed; 0: in the run */
    LATTRUGONE_OBJECT_DATA_AT = 4,       /* where they start there */
    LATTRUGONE_OBJECT_DATA_LEN = 5,
    LATTRUGONE_OBJECT_CONSUMED = 6       /* how many bytes of the run the object takes, its header included */
};

/* A format byte: its low four bits are the type, the others flags; 0x80 is dropped. */
enum lattrugone_format {
    LATTRUGONE_REQUEST = 1,
    LATTRUGONE_REPLY = 2,
    LATTRUGONE_OBJECT = 3,
    LATTRUGONE_COMMUNICATION = 4,
    LATTRUGONE_NO_REPLY = 5,             /* a request that wants no reply */
    LATTRUGONE_TYPE_BITS = 0x0F,
    LATTRUGONE_SAME_CORRELATION = 0x10,
    LATTRUGONE_CONTINUE_ON_ERROR = 0x20,
    LATTRUGONE_CHAINED = 0x40
};

/* What decide_continuation says of a continuation's length: the reader's rule. For salvage 7FFF is the last one, too. */
enum lattrugone_continuation {
    LATTRUGONE_DEAD = 0,                 /* 0 and 1: the frame is NEVER_WHOLE */
    LATTRUGONE_LAST = 1,                 /* 2 to 7FFE, 8000 to FFFE: the last one */
    LATTRUGONE_FULL = 2                  /* 7FFF, FFFF: 32,767 bytes, and another must follow */
};

/* Which rules measure_frame and take_frame go by: the reader's, as next_frame, or salvage's. Any number but 0 is salvage's. */
enum lattrugone_rules {
    LATTRUGONE_RULES_READER = 0,
    LATTRUGONE_RULES_SALVAGE = 1
};

/* ---- The library ------------------------------------------------------------------------------------------------------ */

/* LATTRUGONE_VERSION of the header that the archive was made with. */
uint32_t lattrugone_version(void);

/* What an answer's number means, in plain English and the same each time. Never NULL: a number that no answer has gets a text, too. */
const char *lattrugone_answer_text(uint64_t number);

/* ---- Heads ------------------------------------------------------------------------------------------------------------ */

/* The length that a head's two bytes say: 32,767 for 0xFFFF, every other number as itself. */
uint16_t lattrugone_decode_dss_length(uint16_t raw);

/* 1 where a continuation of this length must be followed by another (0x7FFF, 0xFFFF), else 0. */
uint8_t lattrugone_is_full_continuation_len(uint16_t raw);

/* How many bytes a continuation takes, its two length bytes included: 32,767 for 0x7FFF and 0xFFFF, else the number itself. */
size_t lattrugone_decode_continuation_len(uint16_t raw);

/* What a continuation's length means: enum lattrugone_continuation. */
uint8_t lattrugone_decide_continuation(uint16_t raw);

/* The type in the low four bits of a byte.
 * DONE: words[RESULT] the type, 1 to 5. BAD_TYPE at 0. */
uint8_t lattrugone_type_from_byte(uint8_t b, uint64_t *words, size_t words_len);

/* The three flags of a format byte, all other bits cleared. */
uint8_t lattrugone_flags_from_byte(uint8_t b);

/* Reads the six bytes of a head at the start of data.
 * DONE: words[HEAD_LENGTH], words[HEAD_TYPE], words[HEAD_FLAGS], words[HEAD_CORRELATION].
 * In this order, each at 0: TOO_FEW_BYTES (six are expected), BAD_MAGIC, BAD_TYPE. */
uint8_t lattrugone_head_parse(const uint8_t *data, size_t data_len, uint64_t *words, size_t words_len);

/* Lays a head's six bytes down at the room's start. The length goes as given; of dss_type the low four bits count, of flags the
 * three flags.
 * DONE: words[RESULT] 6. In this order, each at 0: BAD_TYPE, NO_ROOM. */
uint8_t lattrugone_head_serialize(uint16_t length, uint8_t dss_type, uint8_t flags, uint16_t correlation_id, uint8_t *room,
                                  size_t room_len, uint64_t *words, size_t words_len);

/* ---- The writer ------------------------------------------------------------------------------------------------------- */

/* A writer is its correlation and its fill mark: how many bytes of the room it has filled. A new one has fill mark 0, and so
 * has one that is finished, its bytes being the room's first `fill` bytes. */

/* How many bytes a frame with such a payload takes: 6 and the payload, and 2 for each 32,765 bytes or part of them above 32,761;
 * 2^64 - 1 where that is more. Its time doesn't grow with the length. */
size_t lattrugone_frame_size(size_t payload_len);

/* The next correlation: 0 after 65,535. */
uint16_t lattrugone_next_correlation_id(uint16_t id);

/* Each of these lays a frame around the payload into the room, from the fill mark on, in one segment or in as many as it needs.
 * Continue on error is never set. `chained` is yes for any byte but 0.
 * DONE: words[WRITER_CORRELATION] as given, words[WRITER_FILL] the fill mark behind the frame.
 * In this order: OUT_OF_BOUNDS at fill, where it is beyond room_len; BAD_TYPE at 0 (where a type is given); NO_ROOM at fill,
 * where the frame's size is more than room_len - fill. */

/* Of flags, CHAINED and SAME_CORRELATION count; of dss_type its low four bits. */
uint8_t lattrugone_write_dss_full(uint16_t correlation_id, size_t fill, uint8_t dss_type, uint8_t flags, const uint8_t *payload,
                                  size_t payload_len, uint8_t *room, size_t room_len, uint64_t *words, size_t words_len);

/* Same correlation clear. */
uint8_t lattrugone_write_dss(uint16_t correlation_id, size_t fill, uint8_t dss_type, uint8_t chained, const uint8_t *payload,
                             size_t payload_len, uint8_t *room, size_t room_len, uint64_t *words, size_t words_len);

/* A request, same correlation clear. */
uint8_t lattrugone_write_request(uint16_t correlation_id, size_t fill, uint8_t chained, const uint8_t *payload,
                                 size_t payload_len, uint8_t *room, size_t room_len, uint64_t *words, size_t words_len);

/* A request that wants no reply, same correlation clear. */
uint8_t lattrugone_write_request_no_reply(uint16_t correlation_id, size_t fill, uint8_t chained, const uint8_t *payload,
                                          size_t payload_len, uint8_t *room, size_t room_len, uint64_t *words,
                                          size_t words_len);

/* An object, same correlation clear. */
uint8_t lattrugone_write_object(uint16_t correlation_id, size_t fill, uint8_t chained, const uint8_t *payload,
                                size_t payload_len, uint8_t *room, size_t room_len, uint64_t *words, size_t words_len);

/* An object, same correlation set. */
uint8_t lattrugone_write_object_same_corr(uint16_t correlation_id, size_t fill, uint8_t chained, const uint8_t *payload,
                                          size_t payload_len, uint8_t *room, size_t room_len, uint64_t *words,
                                          size_t words_len);

/* A request, same correlation set. */
uint8_t lattrugone_write_request_next_same_corr(uint16_t correlation_id, size_t fill, uint8_t chained, const uint8_t *payload,
                                                size_t payload_len, uint8_t *room, size_t room_len, uint64_t *words,
                                                size_t words_len);

/* A request's or an object's frame, same correlation clear, at the room's first byte.
 * DONE: words[RESULT] how many bytes were laid down. NO_ROOM at 0. */
uint8_t lattrugone_build_dss_request(uint16_t correlation_id, uint8_t chained, const uint8_t *payload, size_t payload_len,
                                     uint8_t *room, size_t room_len, uint64_t *words, size_t words_len);
uint8_t lattrugone_build_dss_object(uint16_t correlation_id, uint8_t chained, const uint8_t *payload, size_t payload_len,
                                    uint8_t *room, size_t room_len, uint64_t *words, size_t words_len);

/* ---- The reader ------------------------------------------------------------------------------------------------------- */

/* A reader is its position in a run of bytes. To read on when more bytes arrive, lend the longer run with the same position. */

/* How many bytes of the run aren't read yet: run_len - at, 0 where at is beyond the run. */
size_t lattrugone_remaining(const uint8_t *run, size_t run_len, size_t at);

/* 1 where the frame at the position is whole, else 0: yet or ever, which frame_end tells apart. It says nothing of its magic and
 * its type. */
uint8_t lattrugone_has_frame(const uint8_t *run, size_t run_len, size_t at);

/* The end of the frame at a position, by its lengths alone: neither magic nor type is looked at, nothing is absorbed, and a
 * length of 0 to 5 is taken as it is.
 * DONE: words[RESULT] the byte after its last, counted from the run's start.
 * In this order: OUT_OF_BOUNDS at the position; NEVER_WHOLE at a continuation length of 0 or 1 where one is reached, all bytes
 * before it and both of its own being there, else NOT_WHOLE at the position. A place is counted from the run's start, too.
 * first_frame_end is the same at 0. */
uint8_t lattrugone_frame_end(const uint8_t *run, size_t run_len, size_t at, uint64_t *words, size_t words_len);
uint8_t lattrugone_first_frame_end(const uint8_t *run, size_t run_len, uint64_t *words, size_t words_len);

/* Reads the frame at a position, its payload to the room's first byte: continuations are joined, and segments behind it that
 * carry on are absorbed.
 * DONE: words[FRAME_BEHIND] the position to read on from, words[FRAME_LENGTH], words[FRAME_FORMAT], words[FRAME_CORRELATION],
 * words[FRAME_PAYLOAD_LEN] how many bytes of the room are filled, words[FRAME_SEGMENTS], words[FRAME_FIRST] the position as given:
 * the frame stood from there up to words[FRAME_BEHIND].
 * In this order: OUT_OF_BOUNDS at `at`; NOT_WHOLE or NEVER_WHOLE as in frame_end; BAD_MAGIC, BAD_TYPE, LENGTH_TOO_SHORT at the
 * head that is refused, which may be one behind the frame, that is then lost; NO_ROOM at `at`. With BAD_MAGIC, BAD_TYPE and
 * LENGTH_TOO_SHORT the position then stands at words[PLACE]: salvage from `at`, and not from that place, so the frame comes out.
 * With the others it stays `at`, with NEVER_WHOLE too, whose place is inside the frame: read on from neither.
 * A payload is never longer than run_len - at - 6, so a room as long as the run is always enough. Where fewer than six bytes or
 * only a part of a segment stand behind the frame, segments yet to arrive may still have belonged to it; once a frame stands
 * behind it that is whole or is never whole (frame_end at words[FRAME_BEHIND] isn't NOT_WHOLE), nothing that arrives changes it.
 * A frame whose last chunk is full (0x7FFF: a payload of 32,761 and one or more times 32,765 bytes) is taken for one that goes
 * on: alone it is NOT_WHOLE, and with a frame behind it THAT FRAME IS TAKEN FOR ITS NEXT CHUNK and is lost, with no refusal. What
 * is read has three segments or more then, and salvage of its bytes, from `at` to words[FRAME_BEHIND], hands out the frames that
 * stand there, each by itself; where none was swallowed, it hands out this one. */
uint8_t lattrugone_next_frame(const uint8_t *run, size_t run_len, size_t at, uint8_t *room, size_t room_len, uint64_t *words,
                              size_t words_len);

/* Measure, then take: next_frame in two, for a caller that wants to know how much room a payload takes before it lends any. Both
 * are told the rules (enum lattrugone_rules). By the reader's, take_frame is next_frame. Salvage's read one frame as salvage does: a
 * head that is refused behind the frame closes it, so that the frame isn't lost and BAD_MAGIC, BAD_TYPE and LENGTH_TOO_SHORT
 * are of the frame at `at` alone; and a continuation of length 0x7FFF is the frame's last, so that it swallows none. No refused frame
 * is stepped over: that is for `salvage`.
 * DONE: the words that next_frame has. The room that taking wants is words[FRAME_PAYLOAD_LEN] bytes, no more and no less; 0 of an
 * empty payload, which can be taken into no room at all.
 *
 * measure_frame touches nothing but its words. In this order: all of next_frame's refusals, without NO_ROOM. */
uint8_t lattrugone_measure_frame(uint8_t rules, const uint8_t *run, size_t run_len, size_t at, uint64_t *words,
                                 size_t words_len);

/* take_frame lays the payload down at the room's first byte. It reads the run again from `at` on, and is told nothing of what was
 * measured: with another run, position or rules it answers by those. Lent the same three and a room of the measured length or a
 * longer one, its answer is measure_frame's, word by word, and never NO_ROOM.
 * In this order: all of next_frame's refusals, NO_ROOM at `at` with the measured length as the last. */
uint8_t lattrugone_take_frame(uint8_t rules, const uint8_t *run, size_t run_len, size_t at, uint8_t *room, size_t room_len,
                              uint64_t *words, size_t words_len);

/* Reads frames from a position on until one isn't whole, yet or ever: payloads end to end from the room's first byte, in the row
 * a record of each: 0, words[FRAME_PAYLOAD_AT] and the others as next_frame has them, 0, words[RECORD_FIRST], words[RECORD_END].
 * What stands in the records follows without gap or overlap from `at` to words[LIST_BEHIND].
 * DONE, also where there is none: words[LIST_BEHIND] the position to read on from, words[LIST_COUNT] how many records,
 * words[LIST_BYTES] how many bytes of the room. Whether to wait for more bytes there, frame_end at words[LIST_BEHIND] says.
 * In this order: OUT_OF_BOUNDS at `at`; BAD_MAGIC, BAD_TYPE, LENGTH_TOO_SHORT of any frame at the head that is refused, where
 * the position then stands; NO_ROOM at `at`. A room as long as the run and a row of run_len / 6 records are always enough. */
uint8_t lattrugone_read_all_frames(const uint8_t *run, size_t run_len, size_t at, uint8_t *room, size_t room_len, uint64_t *row,
                                   size_t row_len, uint64_t *words, size_t words_len);

/* The salvage reading: all that can be read of a run, from byte 0. It goes as read_all_frames does, with three changes: a head
 * refused while looking for segments to absorb closes the frame; a whole frame whose own head is refused becomes an entry and is
 * stepped over, or ends the walk where its length is below 6; and a continuation of length 0x7FFF is the frame's last, so that no
 * size is lost and none swallows the frame behind it.
 * An entry is a record in the row. A frame's is as read_all_frames has it: the number 0, words[FRAME_PAYLOAD_AT] and so on. A
 * refusal's is its number (BAD_MAGIC, BAD_TYPE, LENGTH_TOO_SHORT), its place, its value, and where the refused frame stood:
 * words[RECORD_FIRST], which is its place, and words[RECORD_END], to which it was stepped over. What stands in the entries follows
 * without gap or overlap from 0 to words[LIST_TAIL], whatever the run.
 * DONE: words[LIST_COUNT] how many entries, words[LIST_BYTES] how many bytes of the room, words[LIST_TAIL] where the walk ended:
 * from there to run_len nothing was read. A frame that isn't whole, yet or ever, ends the walk and is no entry: frame_end at the
 * tail says which. The one refusal is NO_ROOM, at 0. A room as long as the run and a row of run_len / 6 records are always
 * enough.
 * The lengths lead from frame to frame: where one is damaged, or bytes are missing or too many, what stands behind isn't found.
 * Of a run that read_all_frames reads from 0 on without refusal, room and row are the same, if no continuation in it has length
 * 0x7FFF. */
uint8_t lattrugone_salvage(const uint8_t *run, size_t run_len, uint8_t *room, size_t room_len, uint64_t *row, size_t row_len,
                           uint64_t *words, size_t words_len);

/* ---- Objects and parameters ------------------------------------------------------------------------------------------- */

/* An object's data are a part of the run that it is read from, or of the lent work area where markers came out of them: see
 * words[OBJECT_IN_WORK]. Only an object of raw length 0x8004, which takes all bytes that are left, can need the work area. A
 * work area as long as the run is always enough. */

/* What the length field at the start of data says; not whether that many bytes are there, nor whether it is 4 at least.
 * DONE: words[LENGTH_TOTAL], words[LENGTH_HEADER] how much of it is the header.
 * In this order, each at 0: TOO_FEW_BYTES (four are expected), HEADER_TOO_SHORT, TOO_FEW_BYTES (an extended header's),
 * LENGTH_TOO_LARGE. */
uint8_t lattrugone_parse_marshaled_length(const uint8_t *data, size_t data_len, uint64_t *words, size_t words_len);

/* Lays data down at the room's first byte without the continuation markers 7FFE and 7FFF of a long object.
 * DONE: words[RESULT] how many bytes. NO_ROOM at 0. A room as long as the data is always enough. */
uint8_t lattrugone_strip_markers(const uint8_t *data, size_t data_len, uint8_t *room, size_t room_len, uint64_t *words,
                                 size_t words_len);

/* Reads the object at a position of a run, such as a frame's payload.
 * DONE: words[OBJECT_CODE_POINT], words[OBJECT_IN_WORK], words[OBJECT_DATA_AT], words[OBJECT_DATA_LEN], words[OBJECT_CONSUMED];
 * the next object stands at `at` and that.
 * In this order, each at `at`: OUT_OF_BOUNDS, TOO_FEW_BYTES (four), HEADER_TOO_SHORT, TOO_FEW_BYTES (an extended header's),
 * LENGTH_TOO_LARGE, INLINE_TOO_SHORT, TOO_FEW_BYTES (the whole object's), NO_ROOM (of the work area). */
uint8_t lattrugone_object(const uint8_t *run, size_t run_len, size_t at, uint8_t *work, size_t work_len, uint64_t *words,
                          size_t words_len);

/* Reads all objects of a run, one behind the other; 1 to 3 last bytes are ignored. In the row a record of each: 0, 0 and the
 * others as `object` has them, 0.
 * DONE: words[LIST_COUNT] how many records, words[LIST_BYTES] how many bytes of the work area.
 * The first object that is refused refuses the call, as in `object`, at that object; then NO_ROOM at 0. A row of run_len / 4
 * records is always enough. */
uint8_t lattrugone_objects(const uint8_t *run, size_t run_len, uint8_t *work, size_t work_len, uint64_t *row, size_t row_len,
                           uint64_t *words, size_t words_len);

/* Reads all parameters in an object's data; one that is unfit ends the list. As `objects` otherwise.
 * The one refusal is NO_ROOM, at 0. A row of data_len / 4 records is always enough. */
uint8_t lattrugone_parameters(const uint8_t *data, size_t data_len, uint8_t *work, size_t work_len, uint64_t *row,
                              size_t row_len, uint64_t *words, size_t words_len);

/* Reads the first parameter with a code point in an object's data.
 * DONE: the words that `object` has. In this order, each at 0: NONE, NO_ROOM (of the work area). */
uint8_t lattrugone_find_param(const uint8_t *data, size_t data_len, uint16_t code_point, uint8_t *work, size_t work_len,
                              uint64_t *words, size_t words_len);

/* One step over the parameters in an object's data, by measuring alone: start at 0, go on from words[OBJECT_BEHIND].
 * DONE: words[OBJECT_BEHIND] the next parameter's place, and the others that `object` has. Where words[OBJECT_IN_WORK] is 1,
 * nothing was laid down: strip_markers lays the data down, given the bytes from `at` + 4 on.
 * In this order, each at `at`: OUT_OF_BOUNDS where `at` is beyond data_len, NONE where the parameters end, at an unfit one or at
 * the data's end. */
uint8_t lattrugone_param_step(const uint8_t *data, size_t data_len, size_t at, uint64_t *words, size_t words_len);

/* How many bytes an object with so much data is built of: 4 and the data, and 4, 6 or 8 length bytes above 32,763,
 * 2,147,483,643 or 140,737,488,355,323 bytes; 2^64 - 1 where that is more. */
size_t lattrugone_object_total_length(size_t data_len);

/* The number in the first two or four bytes of data, big-endian.
 * DONE: words[RESULT] the number; as_i32's as two's complement of 64 bits, which (int64_t) gives back. NONE at 0. */
uint8_t lattrugone_as_u16(const uint8_t *data, size_t data_len, uint64_t *words, size_t words_len);
uint8_t lattrugone_as_u32(const uint8_t *data, size_t data_len, uint64_t *words, size_t words_len);
uint8_t lattrugone_as_i32(const uint8_t *data, size_t data_len, uint64_t *words, size_t words_len);

/* ---- Building objects ------------------------------------------------------------------------------------------------- */

/* A builder is its object's code point and its fill mark: how many bytes of a room are the object's data so far. A new one has
 * fill mark 0.
 * Objects built of parameters are equal bytes exactly where code point and parameters are equal, so stored ones may be compared
 * by length and memcmp (docs/USING.md). */

/* Each of these adds to the data, from the fill mark on: a parameter with a code point and data, or a number of two or four
 * bytes; add_raw adds bytes as they are.
 * DONE: words[RESULT] the fill mark behind it. In this order, each at fill: OUT_OF_BOUNDS where fill is beyond room_len,
 * NO_ROOM. */
uint8_t lattrugone_builder_add_code_point(size_t fill, uint16_t cp, const uint8_t *data, size_t data_len, uint8_t *room,
                                          size_t room_len, uint64_t *words, size_t words_len);
uint8_t lattrugone_builder_add_u16(size_t fill, uint16_t cp, uint16_t val, uint8_t *room, size_t room_len, uint64_t *words,
                                   size_t words_len);
uint8_t lattrugone_builder_add_u32(size_t fill, uint16_t cp, uint32_t val, uint8_t *room, size_t room_len, uint64_t *words,
                                   size_t words_len);
uint8_t lattrugone_builder_add_raw(size_t fill, const uint8_t *data, size_t data_len, uint8_t *room, size_t room_len,
                                   uint64_t *words, size_t words_len);

/* Lays the object down at the first byte of `room`, with the first `fill` bytes of `content` as its data.
 * DONE: words[RESULT] how many bytes. In this order, each at fill: OUT_OF_BOUNDS where fill is beyond content_len, NO_ROOM. */
uint8_t lattrugone_builder_build(uint16_t code_point, size_t fill, const uint8_t *content, size_t content_len, uint8_t *room,
                                 size_t room_len, uint64_t *words, size_t words_len);

/* How many bytes builder_build lays down with such a fill mark: as object_total_length. */
size_t lattrugone_builder_total_length(size_t fill);

/* A parameter, or an object, at the room's first byte.
 * DONE: words[RESULT] how many bytes. NO_ROOM at 0. */
uint8_t lattrugone_build_param(uint16_t code_point, const uint8_t *data, size_t data_len, uint8_t *room, size_t room_len,
                               uint64_t *words, size_t words_len);
uint8_t lattrugone_build_param_u16(uint16_t code_point, uint16_t value, uint8_t *room, size_t room_len, uint64_t *words,
                                   size_t words_len);
uint8_t lattrugone_build_ddm_object(uint16_t code_point, const uint8_t *payload, size_t payload_len, uint8_t *room,
                                    size_t room_len, uint64_t *words, size_t words_len);

/* ---- Changing one parameter ------------------------------------------------------------------------------------------- */

/* The first parameter with a code point gets new bytes, and the header that the builder writes for so many; every other
 * parameter is copied as it is. What is given stays as it was, so it can be changed again and again. */

/* Lays an object's data down at the room's first byte, with that parameter changed.
 * DONE: words[RESULT] how many bytes.
 * In this order: UNSOUND at the parameter at fault: one of raw length 0x8004, an unfit one, or 1 to 3 last bytes; NONE at 0;
 * NO_ROOM at 0. */
uint8_t lattrugone_change_param(const uint8_t *data, size_t data_len, uint16_t code_point, const uint8_t *new_bytes,
                                size_t new_len, uint8_t *room, size_t room_len, uint64_t *words, size_t words_len);

/* How many bytes that lays down with so many new ones.
 * DONE: words[RESULT] how many; 2^64 - 1 where that is more. In this order: UNSOUND as in change_param, NONE at 0. */
uint8_t lattrugone_change_param_len(const uint8_t *data, size_t data_len, uint16_t code_point, size_t new_len, uint64_t *words,
                                    size_t words_len);

/* Lays a frame down at the room's first byte, with that parameter of its one object changed: a request as it was built goes in,
 * the altered one comes out. A frame of any type will do. Its format byte, all flags and 0x80 included, and its correlation are
 * copied as they are; the object gets the header that the builder writes and the frame the segments that the writer does.
 * DONE: words[RESULT] how many bytes.
 * In this order: NOT_WHOLE at 0 or NEVER_WHOLE at the continuation's length, as in frame_end; BAD_MAGIC, BAD_TYPE,
 * LENGTH_TOO_SHORT at 0, of the one frame, nothing being absorbed; UNSOUND where bytes are left over behind its one object or
 * behind the frame, at the first of them; the object's TOO_FEW_BYTES, HEADER_TOO_SHORT, LENGTH_TOO_LARGE and INLINE_TOO_SHORT as
 * `object` has them, at 6; UNSOUND at 6 where the object is of raw length 0x8004; UNSOUND as in change_param; NONE at 0;
 * UNREADABLE at 0, where the payload would be 32,761 and one or more times 32,765 bytes (see next_frame); NO_ROOM at 0.
 * A place is a byte of the frame that is given, the heads of its continuations counted in. */
uint8_t lattrugone_change_request(const uint8_t *frame, size_t frame_len, uint16_t code_point, const uint8_t *new_bytes,
                                  size_t new_len, uint8_t *room, size_t room_len, uint64_t *words, size_t words_len);

#ifdef __cplusplus
}
#endif

#endif
