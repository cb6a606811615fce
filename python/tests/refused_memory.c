/* Refuses allocations of a program, where it is loaded before the C library (LD_PRELOAD).
 *
 * The file that the variable REFUSED_MEMORY names holds three numbers of 64 bits, and is mapped: how many allocations there were,
 * which this counts; the first one that is refused, counted from 1, or 0; and how many are refused from that one on. A refused call
 * answers NULL, and ENOMEM is the error. Calls before the mapping are counted and never refused: none of them is one of `main`.
 */
#define _GNU_SOURCE
#include <errno.h>
#include <fcntl.h>
#include <stddef.h>
#include <stdint.h>
#include <stdlib.h>
#include <sys/mman.h>
#include <unistd.h>

extern void *__libc_malloc(size_t size);
extern void *__libc_calloc(size_t count, size_t size);
extern void *__libc_realloc(void *old, size_t size);
extern void *__libc_memalign(size_t alignment, size_t size);

struct tally {
    uint64_t count, first, number;
};

static struct tally before_mapping;
static struct tally *tally = &before_mapping;

__attribute__((constructor)) static void map_tally(void) {
    const char *name = getenv("REFUSED_MEMORY");
    int file = name ? open(name, O_RDWR) : -1;
    if (file < 0)
        return;
    void *mapped = mmap(NULL, sizeof(struct tally), PROT_READ | PROT_WRITE, MAP_SHARED, file, 0);
    close(file);
    if (mapped == MAP_FAILED)
        return;
    ((struct tally *)mapped)->count = before_mapping.count;
    tally = mapped;
}

static int is_refused(void) {
    uint64_t number = ++tally->count;
    if (tally->first == 0 || number < tally->first || number - tally->first >= tally->number)
        return 0;
    errno = ENOMEM;
    return 1;
}

void *malloc(size_t size) {
    return is_refused() ? NULL : __libc_malloc(size);
}

void *calloc(size_t count, size_t size) {
    return is_refused() ? NULL : __libc_calloc(count, size);
}

void *realloc(void *old, size_t size) {
    return is_refused() ? NULL : __libc_realloc(old, size);
}

void *memalign(size_t alignment, size_t size) {
    return is_refused() ? NULL : __libc_memalign(alignment, size);
}

void *aligned_alloc(size_t alignment, size_t size) {
    return is_refused() ? NULL : __libc_memalign(alignment, size);
}

int posix_memalign(void **result, size_t alignment, size_t size) {
    if (is_refused())
        return ENOMEM;
    void *made = __libc_memalign(alignment, size);
    if (made == NULL)
        return ENOMEM;
    *result = made;
    return 0;
}
