#include <lattrugone.h>
#include <stdio.h>

int main(void)
{
    static uint8_t run[1 << 20], room[1 << 20];
    uint64_t words[LATTRUGONE_ANSWER_WORDS] = {0};
    size_t len = fread(run, 1, sizeof run, stdin);

    while (lattrugone_next_frame(run, len, words[1], room, sizeof room, words, LATTRUGONE_ANSWER_WORDS) == LATTRUGONE_DONE)
        printf("%d bytes, correlation %d\n", (int)words[LATTRUGONE_FRAME_PAYLOAD_LEN], (int)words[LATTRUGONE_FRAME_CORRELATION]);
    printf("at %d of %d: %s\n", (int)words[1], (int)len, lattrugone_answer_text(words[0]));
}
