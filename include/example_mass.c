/* Lists the objects of an image that raise mass without depth, or depth without mass, a line for each: the object's offset, and the field's place.
       (cd crates/matigelo && rt lib)
       cc -Iinclude include/example_mass.c crates/matigelo/out/libmatigelo.a -o example_mass
       ./readtree -o image FILE && ./example_mass <image */
#include <inttypes.h>
#include <stdio.h>

#include "matigelo.h"

static uint8_t image[1048576];
static size_t links[MATIGELO_LINKS(sizeof image)];
static matigelo_listing listings[16384];

int main(void)
{
    static const char *const what[] = {"undecided", "mass without depth", "depth without mass"};
    size_t length = fread(image, 1, sizeof image, stdin);
    matigelo_back_answer answer;

    matigelo_mass(image, length, links, sizeof links / sizeof *links, &listings[0].offset, 4 * (sizeof listings / sizeof *listings), &answer);
    if (answer.number != 0) {
        printf("refused %" PRIu64 " %" PRIu64 "\n", answer.number, answer.offset);
        return 0;
    }
    for (size_t i = 0; i < answer.count; i++)
        printf("%zu %s %zu %zu\n", listings[i].offset, what[listings[i].what], listings[i].start, listings[i].end);
    return 0;
}
