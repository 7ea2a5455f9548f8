/* Measure, then take: a frame's payload in memory of just its length. */
#include "lattrugone.h"

#include <stdlib.h>

/* The payload of the frame at a position, words[FRAME_PAYLOAD_LEN] bytes, for the caller to free; or NULL, and the words say why: a
 * refusal, or DONE where there was no memory. The rules are LATTRUGONE_RULES_READER or LATTRUGONE_RULES_SALVAGE. */
static uint8_t *take_exactly(uint8_t rules, const uint8_t *run, size_t run_len, size_t at, uint64_t *words)
{
    if (lattrugone_measure_frame(rules, run, run_len, at, words, LATTRUGONE_ANSWER_WORDS) != LATTRUGONE_DONE)
        return NULL;

    size_t need = words[LATTRUGONE_FRAME_PAYLOAD_LEN];
    uint8_t *payload = malloc(need > 0 ? need : 1); /* for 0 bytes malloc may give NULL */
    if (payload != NULL)
        lattrugone_take_frame(rules, run, run_len, at, payload, need, words, LATTRUGONE_ANSWER_WORDS);
    return payload; /* filled: with the same run, position and rules, what was measured isn't refused */
}
