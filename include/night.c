/* Reads the files that are named in one call and prints a line for each.
       (cd crates/matigelo && rt lib)
       cc -Iinclude include/night.c crates/matigelo/out/libmatigelo.a -o night
       ./night FILE..
   Each file gets a part of the output that holds every image of it, 16 bytes for each of its own. */
#include <inttypes.h>
#include <stdio.h>
#include <stdlib.h>

#include "matigelo.h"

#define FILES 64
#define SOURCE 65001 /* a byte more than a source may have, so that number 2 can be met */

static uint8_t sources[FILES * SOURCE];
static uint8_t output[FILES * SOURCE * 16];
static size_t ends[FILES], parts[FILES];
static matigelo_answer answers[FILES];

int main(int count, char **names)
{
    size_t files = 0, used = 0;
    uint64_t number;

    for (int i = 1; i < count && files < FILES; i++) {
        FILE *file = fopen(names[i], "rb");
        if (!file) {
            perror(names[i]);
            return 2;
        }
        used += fread(sources + used, 1, SOURCE, file);
        fclose(file);
        ends[files] = used;
        parts[files] = used * 16;
        files++;
    }
    number = matigelo_night(0, sources, used, ends, files, output, used * 16, parts, files, &answers[0].number, 5 * files);
    if (number != 0) {
        printf("refused %" PRIu64 "\n", number);
        return 1;
    }
    for (size_t i = 0; i < files; i++) {
        matigelo_answer a = answers[i];
        if (a.number == 0)
            printf("%s: ok %" PRIu64 "\n", names[i + 1], a.length);
        else
            printf("%s: refused %" PRIu64 " %" PRIu64 " %" PRIu64 " %" PRIu64 "\n", names[i + 1], a.number, a.start, a.end, a.detail);
    }
    return 0;
}
