/* Refuses memory to the library: each allocation of a call in turn, alone and with all that come after it.
 *
 * refusing_caller <CASES
 *
 * A case is three numbers of 64 bits, which are the lengths of the words, of the first and of the second file, and then these bytes.
 * Each call is to answer exactly as ever, or that there is no memory and nothing else; and it is to give back what it took. What does
 * not is a line each, and the last line counts all. The status is 1 where something deviates, and 2 where the cases cannot be read.
 *
 * It is linked with the static library and --wrap=malloc, realloc and free, so that all calls of these come here first.
 */
#include <errno.h>
#include <inttypes.h>
#include <stdio.h>
#include <stdlib.h>
#include <string.h>

#include "tml.h"

enum { AROUND = 64, SPARE = 16, MARK = 0xa5 };

struct bytes {
    uint8_t *at;
    size_t length;
};

struct reply {
    uint8_t *text; /* with so many bytes around it that are looked at */
    size_t room, needed;
    uint8_t status;
};

static struct {
    uint64_t asked, first, last; /* how many allocations there were, counted from 1, and those that are refused */
    int64_t held;                /* blocks that were taken and not given back */
} heap;

static struct {
    uint64_t cases, allocations, refusals, no_memory, deviations;
} found;

void *__real_malloc(size_t size);
void *__real_realloc(void *old, size_t size);
void __real_free(void *block);

static int is_refused(void) {
    heap.asked++;
    if (heap.asked < heap.first || heap.asked > heap.last)
        return 0;
    errno = ENOMEM;
    return 1;
}

void *__wrap_malloc(size_t size) {
    void *made = is_refused() ? NULL : __real_malloc(size);
    heap.held += made != NULL;
    return made;
}

void *__wrap_realloc(void *old, size_t size) {
    if (is_refused())
        return NULL;
    void *made = __real_realloc(old, size);
    if (made != NULL || size == 0)
        heap.held += (made != NULL) - (old != NULL);
    return made;
}

void __wrap_free(void *block) {
    heap.held -= block != NULL;
    __real_free(block);
}

/* Memory of this program, which is not counted. */
static uint8_t *taken(size_t length) {
    uint8_t *at = __real_malloc(length);
    if (at == NULL)
        exit(2);
    return at;
}

/* Calls once, with the allocations from the first to the last one refused, and answers how many there were. */
static uint64_t call(const struct bytes *given, struct reply *reply, uint64_t first, uint64_t last) {
    memset(reply->text, MARK, AROUND + reply->room + AROUND);
    reply->needed = SIZE_MAX;
    heap.asked = 0, heap.first = first, heap.last = last, heap.held = 0;
    reply->status = tml_answer(given[0].at, given[0].length, given[1].at, given[1].length, given[2].at, given[2].length,
                               reply->text + AROUND, reply->room, &reply->needed);
    return heap.asked;
}

/* Whether all bytes of a reply but so many of its text are as they were before the call. */
static int is_left(const struct reply *reply, size_t length) {
    size_t end = AROUND + length, all = AROUND + reply->room + AROUND;
    for (size_t i = 0; i < all; i++)
        if ((i < AROUND || i >= end) && reply->text[i] != MARK)
            return 0;
    return 1;
}

static int is_as_ever(const struct reply *reply, const struct reply *wanted) {
    return reply->status == wanted->status && reply->needed == wanted->needed &&
           memcmp(reply->text + AROUND, wanted->text + AROUND, wanted->needed) == 0 && is_left(reply, wanted->needed);
}

static int is_no_memory(const struct reply *reply) {
    return reply->status == TML_NO_MEMORY && reply->needed == 0 && is_left(reply, 0);
}

static void deviate(const char *what, uint64_t first, const struct reply *reply) {
    found.deviations++;
    printf("case %" PRIu64 ", allocation %" PRIu64 " refused, %s: status %u, needed %zu, %" PRId64 " blocks kept\n", found.cases, first,
           what, (unsigned)reply->status, reply->needed, heap.held);
}

static void judge(const struct reply *reply, const struct reply *wanted, uint64_t first, uint64_t asked, const char *what) {
    int no_memory = is_no_memory(reply);
    found.refusals++;
    found.no_memory += (uint64_t)no_memory;
    if (asked < first || heap.held != 0 || !(no_memory || is_as_ever(reply, wanted)))
        deviate(what, first, reply);
}

/* Where nothing is asked for after the one that is refused alone, the call is the one in which all after it are refused too. */
static void refuse(const struct bytes *given, struct reply *reply, const struct reply *wanted, uint64_t first) {
    uint64_t asked = call(given, reply, first, first);
    judge(reply, wanted, first, asked, "alone");
    if (asked > first)
        asked = call(given, reply, first, UINT64_MAX);
    judge(reply, wanted, first, asked, "with all after it");
}

static void refuse_all(const struct bytes *given) {
    struct reply wanted = {.text = taken(2 * AROUND), .room = 0};
    uint64_t count = call(given, &wanted, 0, 0);
    if (heap.held != 0 || !is_left(&wanted, 0))
        deviate("none, without room", 0, &wanted);
    struct reply reply = {.room = wanted.needed + SPARE};
    reply.text = taken(2 * AROUND + reply.room);
    __real_free(wanted.text);
    wanted.text = taken(2 * AROUND + reply.room);
    wanted.room = reply.room;
    uint64_t again = call(given, &wanted, 0, 0);
    if (heap.held != 0 || again != count || wanted.needed != reply.room - SPARE || !is_left(&wanted, wanted.needed)) {
        deviate("none", 0, &wanted);
        count = 0;
    }
    for (uint64_t first = 1; first <= count; first++)
        refuse(given, &reply, &wanted, first);
    found.allocations += count;
    __real_free(wanted.text);
    __real_free(reply.text);
}

/* Reads a case; the answer is 0 at the end of all. */
static int read_case(struct bytes *given) {
    uint64_t lengths[3];
    size_t read = fread(lengths, 1, sizeof lengths, stdin);
    if (read == 0 && feof(stdin))
        return 0;
    if (read != sizeof lengths)
        exit(2);
    for (int i = 0; i < 3; i++) {
        given[i] = (struct bytes){taken(lengths[i]), lengths[i]};
        if (fread(given[i].at, 1, lengths[i], stdin) != lengths[i])
            exit(2);
    }
    return 1;
}

int main(void) {
    struct bytes given[3];
    for (; read_case(given); found.cases++) {
        refuse_all(given);
        for (int i = 0; i < 3; i++)
            __real_free(given[i].at);
    }
    printf("%" PRIu64 " allocations of %" PRIu64 " calls refused, each alone and with all after it: %" PRIu64 " deviations (%" PRIu64
           " of %" PRIu64 " times the status was 6, else the answer as ever)\n",
           found.allocations, found.cases, found.deviations, found.no_memory, found.refusals);
    return found.deviations != 0;
}
