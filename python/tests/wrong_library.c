/* A small library that takes memory twice and answers always the same, for trying refusing_caller.c.
 *
 * WRONG is 0 where it is right, and else what it does wrong: 1, it keeps a block where the second is refused; 2, it writes to the
 * room without memory; 3, without memory it answers, and something else; 4, it says there is a text without memory; 5, it writes
 * past its room without memory.
 */
#include <stdlib.h>
#include <string.h>

#include "tml.h"

static const uint8_t answer[] = "accepted\n";

uint8_t tml_answer(const uint8_t *words, size_t words_length, const uint8_t *first, size_t first_length, const uint8_t *second,
                   size_t second_length, uint8_t *text, size_t room, size_t *needed) {
    (void)words, (void)words_length, (void)first, (void)first_length, (void)second, (void)second_length;
    uint8_t *one = malloc(1), *two = one == NULL ? NULL : realloc(one, sizeof answer);
    *needed = 0;
    if (two == NULL) {
        if (WRONG != 1)
            free(one);
        if (WRONG == 2 && room > 0)
            text[room - 1] = 'x';
        if (WRONG == 5)
            text[room + 1] = 'x';
        *needed = WRONG == 4;
        return WRONG == 3 ? TML_DONE : TML_NO_MEMORY;
    }
    memcpy(two, answer, sizeof answer);
    *needed = sizeof answer - 1;
    memcpy(text, two, *needed < room ? *needed : room);
    free(two);
    return TML_DONE;
}
