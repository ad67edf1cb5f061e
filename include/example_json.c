/* Reads one JSON text and prints its image in hex, or why there is none.
       (cd crates/matigelo && rt lib)
       cc -Iinclude include/example_json.c crates/matigelo/out/libmatigelo.a -o example_json
       printf '{"level": -1.5}' | ./example_json
   prints what readjson prints. */
#include <inttypes.h>
#include <stdio.h>

#include "matigelo.h"

static uint8_t text[65001]; /* a byte more than a text may have, so that number 2 can be met */
static uint8_t output[65536];

int main(void)
{
    size_t length = fread(text, 1, sizeof text, stdin);
    matigelo_answer answer;

    matigelo_json(text, length, output, sizeof output, &answer);
    if (answer.number == 0) {
        printf("ok %" PRIu64 "\n", answer.length);
        for (uint64_t i = 0; i < answer.length; i++)
            printf("%02x", output[i]);
        putchar('\n');
    } else {
        printf("refused %" PRIu64 " %" PRIu64 " %" PRIu64 " %" PRIu64 "\n", answer.number, answer.start, answer.end, answer.detail);
    }
    return 0;
}
