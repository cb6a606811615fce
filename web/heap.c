/* heap.c: the heap of one call of tml in WebAssembly.
 *
 * Blocks are cut off the end of memory, which grows. One that is given back is kept for the next of its kind; but the last
 * one in memory goes back to where memory grows, and it grows in place. When a call is over, forget() gives up all of them.
 *
 * The kind of a block is the number of its size, in units of sixteen bytes. From eight units on there are only eight sizes
 * to each doubling, so that no more than an eighth of a block is left unused. A unit before each block has its kind.
 */
#include "heap.h"

enum { UNIT = 16, PAGE = 1 << 16, KINDS = 224 };

static const u64 MOST = 1ull << 32; /* what addresses of 32 bits reach */

struct head {
    u64 kind, unused;
};

/* A block that was given back, and the next one of its kind. */
struct block {
    struct block *next;
};

extern unsigned char __heap_base;
static u64 end; /* where memory grows, or 0 before the first block */
static struct block *kept[KINDS];
static char nothing;
static const struct tried refused = {0, &nothing};

static u64 memory(void) {
    return __builtin_wasm_memory_size(0) * PAGE;
}

/* Has memory grow up to here. What memory.grow answers is not looked at, since the lowering to addresses of 32 bits makes
 * another number of its -1. */
static void grow(u64 wanted) {
    if (wanted > memory())
        __builtin_wasm_memory_grow(0, (wanted - memory() + PAGE - 1) / PAGE);
}

/* Whether there is memory up to here, perhaps since it grew. That takes long, so it grows by an eighth more, unless the host
 * refuses this. */
static int reaches(u64 wanted) {
    if (wanted > MOST)
        return 0;
    if (wanted > memory()) {
        u64 roomy = wanted + memory() / 8;
        grow(roomy < MOST ? roomy : MOST);
        grow(wanted);
    }
    return wanted <= memory();
}

/* The least kind that has room for so many bytes, at most MOST. */
static u64 kind_for(u64 bytes) {
    u64 units = bytes ? (bytes + UNIT - 1) / UNIT : 1;
    if (units < 8)
        return units;
    int halvings = 60 - __builtin_clzll(units);
    return 8 * halvings + ((units - 1) >> halvings) + 1;
}

static u64 size_of(u64 kind) {
    return kind < 8 ? kind * UNIT : (kind % 8 + 8) * UNIT << (kind / 8 - 1);
}

static struct head *head_of(void *block) {
    return (struct head *)block - 1;
}

static int is_last(void *block) {
    return (u64)block + size_of(head_of(block)->kind) == end;
}

/* Makes the last block one of this kind, if memory reaches so far. */
static int stretch(struct head *head, u64 kind) {
    u64 wanted = (u64)(head + 1) + size_of(kind);
    if (!reaches(wanted))
        return 0;
    head->kind = kind;
    end = wanted;
    return 1;
}

static void *taken(u64 kind) {
    struct block *block = kept[kind];
    if (block)
        kept[kind] = block->next;
    return block;
}

static void *cut(u64 kind) {
    if (!end)
        end = ((u64)&__heap_base + UNIT - 1) / UNIT * UNIT;
    struct head *head = (struct head *)end;
    return stretch(head, kind) ? head + 1 : 0;
}

struct tried rattle_alloc(u64 bytes, u64 alignment) {
    if (bytes > MOST || alignment > UNIT)
        return refused;
    u64 kind = kind_for(bytes);
    void *at = taken(kind);
    if (!at)
        at = cut(kind);
    /* A greater one serves before memory is refused. */
    while (!at && ++kind < KINDS)
        at = taken(kind);
    return at ? (struct tried){1, at} : refused;
}

void rattle_dealloc(void *at) {
    struct head *head = head_of(at);
    if (is_last(at)) {
        end = (u64)head;
        return;
    }
    struct block *block = at;
    block->next = kept[head->kind];
    kept[head->kind] = block;
}

struct tried rattle_realloc(void *old, u64 held, u64 bytes, u64 alignment) {
    if (bytes > MOST || alignment > UNIT)
        return refused;
    u64 kind = kind_for(bytes);
    if (kind <= head_of(old)->kind || (is_last(old) && stretch(head_of(old), kind)))
        return (struct tried){1, old};
    struct tried made = rattle_alloc(bytes, alignment);
    if (made.is_made) {
        __builtin_memcpy(made.at, old, held < bytes ? held : bytes);
        rattle_dealloc(old);
    }
    return made;
}

/* For the loader: room for so many bytes, or NULL if there is none. */
void *room(u64 bytes) {
    struct tried made = rattle_alloc(bytes, UNIT);
    return made.is_made ? made.at : 0;
}

/* Gives up all blocks. */
void forget(void) {
    end = 0;
    for (int kind = 0; kind < KINDS; kind++)
        kept[kind] = 0;
}
