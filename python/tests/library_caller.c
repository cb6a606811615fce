/* Calls the library once in each of some threads, and writes the text of the first: the status is that of the call.
 *
 * library_caller THREADS ROOM FIRST SECOND WORDS
 *
 * FIRST, SECOND and WORDS are names of files. The text has so many bytes of room, with a byte at each side that is looked at;
 * where it needs more, a line `needs N` is written, and nothing else. Statuses from 100 on are those of this program. With one
 * thread it takes no memory itself, so each allocation is one of the library.
 */
#include <fcntl.h>
#include <pthread.h>
#include <stdio.h>
#include <string.h>
#include <unistd.h>

#include "tml.h"

enum { MOST = 8 << 20, MOST_THREADS = 8, MARK = 0xa5 };

struct bytes {
    uint8_t at[MOST];
    size_t length;
};

struct call {
    uint8_t text[MOST];
    size_t needed;
    uint8_t status;
};

static struct bytes words, first, second;
static struct call calls[MOST_THREADS];
static size_t room;

static int fill(struct bytes *bytes, const char *name) {
    int file = open(name, O_RDONLY);
    ssize_t count = 1;
    while (file >= 0 && count > 0 && bytes->length < MOST) {
        count = read(file, bytes->at + bytes->length, MOST - bytes->length);
        bytes->length += count > 0 ? (size_t)count : 0;
    }
    return file >= 0 && close(file) == 0 && count == 0;
}

static size_t number(const char *text) {
    size_t value = 0;
    for (; *text >= '0' && *text <= '9'; text++)
        value = 10 * value + (size_t)(*text - '0');
    return value;
}

static void *call(void *argument) {
    struct call *one = argument;
    one->text[0] = one->text[room + 1] = MARK;
    one->status = tml_answer(words.at, words.length, first.at, first.length, second.at, second.length, one->text + 1, room, &one->needed);
    return NULL;
}

static int differs(const struct call *one, const struct call *other) {
    size_t length = one->needed < room ? one->needed : room;
    return one->status != other->status || one->needed != other->needed || memcmp(one->text + 1, other->text + 1, length) != 0;
}

static int written(const void *text, size_t length) {
    const char *rest = text;
    while (length > 0) {
        ssize_t count = write(1, rest, length);
        if (count <= 0)
            return 0;
        rest += count;
        length -= (size_t)count;
    }
    return 1;
}

int main(int count, char **line) {
    pthread_t threads[MOST_THREADS];
    if (count != 6 || !fill(&first, line[3]) || !fill(&second, line[4]) || !fill(&words, line[5]))
        return 100;
    size_t many = number(line[1]);
    room = number(line[2]);
    if (many < 1 || many > MOST_THREADS || room > MOST - 2)
        return 100;
    for (size_t i = 1; i < many; i++)
        if (pthread_create(&threads[i], NULL, call, &calls[i]) != 0)
            return 101;
    call(&calls[0]);
    for (size_t i = 1; i < many; i++)
        if (pthread_join(threads[i], NULL) != 0 || differs(&calls[0], &calls[i]))
            return 102;
    if (calls[0].text[0] != MARK || calls[0].text[room + 1] != MARK)
        return 103;
    if (calls[0].needed <= room)
        return written(calls[0].text + 1, calls[0].needed) ? calls[0].status : 104;
    char needs[32];
    int length = snprintf(needs, sizeof needs, "needs %zu\n", calls[0].needed);
    return written(needs, (size_t)length) ? calls[0].status : 104;
}
