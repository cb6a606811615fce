/* heap.c: the heap of tml on a system with a C library. malloc aligns for whatever the proved code holds, which has at most 16
 * bytes each.
 */
#include "../web/heap.h"

enum { MOST_ALIGNED = 16 };

/* The compiler of the kit has no headers. */
void *malloc(__SIZE_TYPE__ bytes);
void *realloc(void *old, __SIZE_TYPE__ bytes);
void free(void *at);

static char nothing;

static struct tried tried(void *at) {
    return at ? (struct tried){1, at} : (struct tried){0, &nothing};
}

struct tried rattle_alloc(u64 bytes, u64 alignment) {
    return tried(alignment > MOST_ALIGNED ? 0 : malloc(bytes ? bytes : 1));
}

struct tried rattle_realloc(void *old, u64 held, u64 bytes, u64 alignment) {
    (void)held;
    return tried(alignment > MOST_ALIGNED ? 0 : realloc(old, bytes ? bytes : 1));
}

void rattle_dealloc(void *at) {
    free(at);
}
