/* A library that is not the one of tml: it accepts each document, but for those with a word that says what becomes of the process.
 *
 * The words are `<!--crash-->`, `<!--exit-->`, `<!--hang-->`, and `<!--memory-->` for a call that is out of memory. The number of the
 * process is added to the file that the variable STAND_IN names, at each call, and to the one that STAND_IN_HANGS names by a call that
 * hangs. With the variable STAND_IN_PROCESSES, a call waits until so many processes have called.
 */
#define _GNU_SOURCE
#include <stdint.h>
#include <stdio.h>
#include <stdlib.h>
#include <string.h>
#include <unistd.h>

static const char accepted[] = "accepted\nevents 0\ninstances 0\ntimex 0\nsignals 0\ntlinks 0\nalinks 0\nslinks 0\n";
static const char timeline[] = "tml-evidence 2\nclaims 1\ntimeline 0\nend\n";

static int has(const uint8_t *text, size_t length, const char *word) {
    return memmem(text, length, word, strlen(word)) != NULL;
}

/* Leaves the number of this process in the file that a variable names. */
static void leave(const char *variable) {
    const char *name = getenv(variable);
    FILE *file = name ? fopen(name, "a") : NULL;
    if (file) {
        fprintf(file, "%d\n", (int)getpid());
        fclose(file);
    }
}

/* How many processes have left their number in a file. */
static int processes(const char *name) {
    int known[64], count = 0, number, place;
    FILE *file = fopen(name, "r");
    while (file && count < 64 && fscanf(file, "%d", &number) == 1) {
        for (place = 0; place < count && known[place] != number; place++)
            ;
        if (place == count)
            known[count++] = number;
    }
    if (file)
        fclose(file);
    return count;
}

uint8_t tml_answer(const uint8_t *words, size_t words_length, const uint8_t *first, size_t first_length, const uint8_t *second,
                   size_t second_length, uint8_t *text, size_t room, size_t *needed) {
    const char *answer = has(words, words_length, "solve") ? timeline : accepted;
    const char *name = getenv("STAND_IN"), *wanted = getenv("STAND_IN_PROCESSES");
    (void)second, (void)second_length;
    leave("STAND_IN");
    while (name && wanted && processes(name) < atoi(wanted))
        usleep(10000);
    if (has(first, first_length, "<!--crash-->"))
        *(volatile char *)NULL = 0;
    if (has(first, first_length, "<!--exit-->"))
        _exit(0);
    if (has(first, first_length, "<!--hang-->")) {
        leave("STAND_IN_HANGS");
        for (;;)
            pause();
    }
    *needed = has(first, first_length, "<!--memory-->") ? 0 : strlen(answer);
    memcpy(text, answer, *needed < room ? *needed : room);
    return *needed ? 0 : 6;
}
