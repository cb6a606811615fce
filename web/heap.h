/* heap.h: the functions by which the proved code takes memory, which it has from outside.
 *
 * Pointers and sizes have 64 bits wherever it runs.
 */
typedef unsigned long long u64;

/* What the proved code is told: whether there was memory, and if so where. Else `at` is not NULL, but leads to nothing. */
struct tried {
    u64 is_made;
    void *at;
};

/* Memory of so many bytes, perhaps none, at a multiple of the alignment. */
struct tried rattle_alloc(u64 bytes, u64 alignment);

/* The same memory with another number of bytes, perhaps at another place: as much of the `held` bytes as fit is kept. If there
 * is not so much memory, it stays as it was. */
struct tried rattle_realloc(void *old, u64 held, u64 bytes, u64 alignment);

/* Takes back what one of the others gave. */
void rattle_dealloc(void *at);
