/* memory.c: how memory is copied, filled and compared in WebAssembly.
 *
 * memory.copy and memory.fill are instructions, but take as long as tens of others: so what is short goes by words, of which
 * the second overlaps the first.
 */
typedef unsigned long long u64;
typedef unsigned char u8;
typedef u64 word __attribute__((aligned(1), may_alias));
typedef unsigned int half __attribute__((aligned(1), may_alias));

/* All is read before anything is written, so that both may overlap. */
void *memmove(void *into, const void *from, u64 count) {
    u8 *to = into;
    const u8 *at = from;
    if (count > 16) {
        __builtin_memmove(to, at, count);
    } else if (count >= 8) {
        u64 first = *(const word *)at, last = *(const word *)(at + count - 8);
        *(word *)to = first;
        *(word *)(to + count - 8) = last;
    } else if (count >= 4) {
        unsigned first = *(const half *)at, last = *(const half *)(at + count - 4);
        *(half *)to = first;
        *(half *)(to + count - 4) = last;
    } else if (count) {
        u8 first = at[0], middle = at[count / 2], last = at[count - 1];
        to[0] = first;
        to[count / 2] = middle;
        to[count - 1] = last;
    }
    return into;
}

void *memcpy(void *into, const void *from, u64 count) {
    return memmove(into, from, count);
}

void *memset(void *into, int byte, u64 count) {
    u8 *to = into;
    if (count > 16)
        __builtin_memset(to, byte, count);
    else
        while (count--)
            *to++ = byte;
    return into;
}

int memcmp(const void *one, const void *other, u64 count) {
    const u8 *a = one, *b = other;
    for (; count >= 8 && *(const word *)a == *(const word *)b; count -= 8)
        a += 8, b += 8;
    for (; count; count--, a++, b++)
        if (*a != *b)
            return *a - *b;
    return 0;
}
