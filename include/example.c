/* Reads one source and prints its image in hex, or why there is none.
       (cd crates/matigelo && rt lib)
       cc -Iinclude include/example.c crates/matigelo/out/libmatigelo.a -o example
       printf -- '-a*b' | ./example
   prints what readtree prints. An argument is the setting, 0 without one. */
#include <inttypes.h>
#include <stdio.h>
#include <stdlib.h>

#include "matigelo.h"

static uint8_t source[65001]; /* a byte more than a source may have, so that number 2 can be met */
static uint8_t output[65536];

int main(int count, char **words)
{
    uint64_t setting = count > 1 ? strtoull(words[1], NULL, 10) : 0;
    size_t length = fread(source, 1, sizeof source, stdin);
    matigelo_answer answer;

    matigelo_read(setting, source, length, output, sizeof output, &answer);
    if (answer.number == 0) {
        printf("ok %" PRIu64 "\n", answer.length);
        for (uint64_t i = 0; i < answer.length; i++)
            printf("%02x", output[i]);
        putchar('\n');
    } else {
        printf("refused %" PRIu64 " %" PRIu64 " %" PRIu64 " %" PRIu64 "\n", answer.number, answer.start, answer.end, answer.detail);
    }
    return 0;
}
