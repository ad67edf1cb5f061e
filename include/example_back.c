/* Reads an image back and prints a line for each record: its number, its tag, and the numbers of its children, the
   last first.
       (cd crates/matigelo && rt lib)
       cc -Iinclude include/example_back.c crates/matigelo/out/libmatigelo.a -o example_back
       printf '\6\0\5\0\1\0\2a\14\0\1\1' | ./example_back
   prints the tree of `-a`. */
#include <inttypes.h>
#include <stdio.h>

#include "matigelo.h"

static uint8_t image[1048576];
static size_t links[MATIGELO_LINKS(sizeof image)];

int main(void)
{
    size_t length = fread(image, 1, sizeof image, stdin);
    matigelo_back_answer answer;

    matigelo_back(image, length, links, sizeof links / sizeof *links, &answer);
    if (answer.number != 0) {
        printf("refused %" PRIu64 " %" PRIu64 "\n", answer.number, answer.offset);
        return 0;
    }
    for (size_t i = 0; i < answer.count; i++) {
        printf("%zu tag %u:", i, image[links[2 * i]]);
        for (size_t r = i; r > links[2 * i + 1]; r = links[2 * (r - 1) + 1])
            printf(" %zu", r - 1);
        putchar('\n');
    }
    return 0;
}
