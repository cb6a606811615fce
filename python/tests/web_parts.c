/* Tries what web/ has in C, in WebAssembly, as the proved code calls it: the heap, the functions of memory, and the shuffle. Each
 * function answers 0, or a number that says at which of its steps something was wrong.
 */
typedef unsigned long long u64;
typedef unsigned char u8;
typedef u8 lanes16 __attribute__((vector_size(16)));

struct tried {
    u64 is_made;
    void *at;
};

struct tried rattle_alloc(u64 bytes, u64 alignment);
struct tried rattle_realloc(void *old, u64 held, u64 bytes, u64 alignment);
void rattle_dealloc(void *at);
void forget(void);
void *memmove(void *into, const void *from, u64 count);
void *memcpy(void *into, const void *from, u64 count);
void *memset(void *into, int byte, u64 count);
int memcmp(const void *one, const void *other, u64 count);
lanes16 tml_shuffle(lanes16 lanes, lanes16 places);

static u64 state;

static u64 drawn(u64 below) {
    state = state * 6364136223846793005ull + 1442695040888963407ull;
    return (state >> 33) % below;
}

/* Blocks that are held: each is full of its own byte. */
enum { BLOCKS = 100 };
static struct {
    u8 *at;
    u64 bytes;
    u8 mark;
} held[BLOCKS];
static u64 refusals;

/* A number of bytes of any size up to 2 ^ most; rarely one that no memory has room for. */
static u64 drawn_bytes(u64 most) {
    if (drawn(2000) == 0)
        return 1ull << (33 + drawn(31));
    return drawn((1ull << drawn(most + 1)) + 1);
}

static int is_kept(int one, u64 bytes) {
    for (u64 place = 0; place < bytes; place++)
        if (held[one].at[place] != held[one].mark)
            return 0;
    return 1;
}

static void fill(int one, u8 *at, u64 bytes) {
    held[one].at = at;
    held[one].bytes = bytes;
    held[one].mark = (u8)drawn(256);
    for (u64 place = 0; place < bytes; place++)
        at[place] = held[one].mark;
}

/* Takes, changes and gives back a block, and answers whether all was as it has to be. */
static int tried(int one, u64 most) {
    if (held[one].at && !is_kept(one, held[one].bytes))
        return 0;
    u64 bytes = drawn_bytes(most);
    if (!held[one].at || drawn(3)) {
        u64 alignment = held[one].at ? 8 : 1ull << drawn(6);
        struct tried made = held[one].at ? rattle_realloc(held[one].at, held[one].bytes, bytes, 8) : rattle_alloc(bytes, alignment);
        if (!made.is_made) {
            refusals++;
            return made.at && (!held[one].at || is_kept(one, held[one].bytes));
        }
        if ((u64)made.at % alignment)
            return 0;
        u8 *old = held[one].at;
        held[one].at = made.at;
        if (old && !is_kept(one, held[one].bytes < bytes ? held[one].bytes : bytes))
            return 0;
        fill(one, made.at, bytes);
        return 1;
    }
    rattle_dealloc(held[one].at);
    held[one].at = 0;
    return 1;
}

u64 wrong_of_heap(u64 seed, u64 steps, u64 most) {
    state = seed;
    refusals = 0;
    forget();
    for (int one = 0; one < BLOCKS; one++)
        held[one].at = 0;
    for (u64 step = 1; step <= steps; step++)
        if (!tried((int)drawn(BLOCKS), most))
            return step;
    return 0;
}

u64 refusals_of_heap(void) {
    return refusals;
}

enum { ROOM = 256, LONGEST = 70 };
static u8 room[ROOM], wanted[ROOM];

static void draw_room(void) {
    for (int place = 0; place < ROOM; place++)
        wanted[place] = room[place] = (u8)drawn(256);
}

static int is_as_wanted(void) {
    for (int place = 0; place < ROOM; place++)
        if (room[place] != wanted[place])
            return 0;
    return 1;
}

/* Copies by a third room, byte by byte. */
static void want_copy(u64 to, u64 from, u64 count) {
    static volatile u8 between[ROOM];
    for (u64 place = 0; place < count; place++)
        between[place] = wanted[from + place];
    for (u64 place = 0; place < count; place++)
        wanted[to + place] = between[place];
}

static int sign_of_difference(const volatile u8 *one, const volatile u8 *other, u64 count) {
    for (u64 place = 0; place < count; place++)
        if (one[place] != other[place])
            return one[place] < other[place] ? -1 : 1;
    return 0;
}

u64 wrong_of_memory(u64 seed) {
    state = seed;
    u64 step = 0;
    for (u64 count = 0; count <= LONGEST; count++)
        for (int turn = 0; turn < 40; turn++) {
            step++;
            u64 from = drawn(ROOM - count), to = drawn(ROOM - count), apart = from < to ? to - from : from - to;
            draw_room();
            want_copy(to, from, count);
            if (memmove(room + to, room + from, count) != room + to || !is_as_wanted())
                return step;
            want_copy(to, from, apart < count ? 0 : count);
            if (memcpy(room + to, room + from, apart < count ? 0 : count) != room + to || !is_as_wanted())
                return step;
            int byte = (int)drawn(1000);
            for (u64 place = 0; place < count; place++)
                *(volatile u8 *)&wanted[to + place] = (u8)byte;
            if (memset(room + to, byte, count) != room + to || !is_as_wanted())
                return step;
            if (count && drawn(2))
                wanted[to + drawn(count)] = (u8)drawn(256);
            int sign = sign_of_difference(room + to, wanted + to, count), found = memcmp(room + to, wanted + to, count);
            if ((found > 0) - (found < 0) != sign)
                return step;
        }
    return 0;
}

u64 wrong_of_shuffle(u64 seed) {
    state = seed;
    for (u64 step = 1; step <= 4096; step++) {
        lanes16 lanes, places;
        for (int lane = 0; lane < 16; lane++) {
            lanes[lane] = (u8)drawn(256);
            places[lane] = (u8)(step + 17 * lane);
        }
        lanes16 found = tml_shuffle(lanes, places);
        for (int lane = 0; lane < 16; lane++)
            if (found[lane] != (places[lane] & 0x80 ? 0 : lanes[places[lane] & 15]))
                return step;
    }
    return 0;
}
