/* For bench/night: forty copies of standard input's source, read in one call (`once`), by forty calls (`singly`), or not at all (`none`). */
#include <stdio.h>
#include <string.h>

#include "matigelo.h"

#define FILES 40
#define SOURCE 65000
#define PART 131072

static uint8_t sources[FILES * SOURCE], output[FILES * PART];
static size_t ends[FILES], parts[FILES];
static matigelo_answer answers[FILES];

int main(int count, char **words)
{
    const char *how = count > 1 ? words[1] : "once";
    size_t length = fread(sources, 1, SOURCE, stdin), read = 0;

    for (size_t i = 0; i < FILES; i++) {
        memcpy(sources + i * length, sources, length);
        ends[i] = (i + 1) * length;
        parts[i] = (i + 1) * PART;
    }
    if (strcmp(how, "once") == 0)
        matigelo_night(0, sources, FILES * length, ends, FILES, output, sizeof output, parts, FILES, &answers[0].number, 5 * FILES);
    if (strcmp(how, "singly") == 0)
        for (size_t i = 0; i < FILES; i++)
            matigelo_read(0, sources + i * length, length, output + i * PART, PART, &answers[i]);
    for (size_t i = 0; i < FILES; i++)
        read += answers[i].number == 0 && answers[i].length > 0;
    printf("%zu\n", read);
    return 0;
}
