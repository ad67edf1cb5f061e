/* thread KIB: reads standard input in a thread with so many KiB of stack, and prints the answer's number. Too little stack ends it by a signal. */
#include <pthread.h>
#include <stdio.h>
#include <stdlib.h>
#include "matigelo.h"

static uint8_t source[65536], output[65536];
static size_t length;

static void *reads(void *answer) {
    matigelo_read(0, source, length, output, sizeof output, answer);
    return NULL;
}

int main(int argc, char **argv) {
    pthread_attr_t attributes;
    pthread_t thread;
    matigelo_answer answer;
    if (argc != 2) return 2;
    length = fread(source, 1, sizeof source, stdin);
    pthread_attr_init(&attributes);
    if (pthread_attr_setstacksize(&attributes, strtoul(argv[1], NULL, 10) * 1024)) return 2;
    if (pthread_create(&thread, &attributes, reads, &answer)) return 2;
    pthread_join(thread, NULL);
    printf("%llu\n", (unsigned long long)answer.number);
    return 0;
}
