/* Tries alloc.c: random traces of calls beside a model that knows which bytes are in use, over a system that refuses
 * now and then. Blocks are aligned, do not meet, and keep their bytes. Every so many calls the heap is walked: sizes and
 * marks fit together, no two free blocks meet, and each stands in one list, that of its size. Then single calls: sizes
 * at their edges, and a system that refuses everything. Prints how many calls were made, and ends with status 1 at what
 * is wrong.
 *
 *     alloc_test [CALLS [SEED]]
 */
#define _GNU_SOURCE
#include <stddef.h>
#include <stdint.h>
#include <stdio.h>
#include <stdlib.h>
#include <string.h>
#include <sys/mman.h>
#include <sys/syscall.h>
#include <unistd.h>

/* What stands in for the system: a range of addresses whose end moves, and mappings that are counted. */
#define ROOM ((size_t)1 << 34)

static char *room_start, *room_end;
static int refuses_growth, refuses_mappings; /* of 100 */
static size_t mappings;

static unsigned random_of(unsigned count)
{
    static uint64_t state = 1;
    state = state * 6364136223846793005u + 1442695040888963407u;
    return (unsigned)((state >> 33) % count);
}

static long fake_brk(long number, uintptr_t wanted)
{
    (void)number;
    if (!room_start) {
        char *found = mmap(NULL, ROOM, PROT_READ | PROT_WRITE, MAP_PRIVATE | MAP_ANONYMOUS | MAP_NORESERVE, -1, 0);
        if (found == MAP_FAILED)
            exit(2);
        room_start = room_end = found + 4104; /* a program's data end anywhere */
    }
    int refused = random_of(100) < (unsigned)refuses_growth;
    if (wanted > (uintptr_t)room_end && wanted <= (uintptr_t)room_start + ROOM / 2 && !refused)
        room_end = (char *)wanted;
    return (long)room_end;
}

static void *fake_mmap(void *where, size_t size, int access, int kind, int file, off_t offset)
{
    if (random_of(100) < (unsigned)refuses_mappings)
        return MAP_FAILED;
    void *found = mmap(where, size, access, kind, file, offset);
    mappings += found != MAP_FAILED;
    return found;
}

static void *fake_mremap(void *where, size_t before, size_t size, int kind)
{
    if (random_of(100) < (unsigned)refuses_mappings)
        return MAP_FAILED;
    return mremap(where, before, size, kind);
}

static int fake_munmap(void *where, size_t size)
{
    mappings--;
    return munmap(where, size);
}

#define syscall fake_brk
#define mmap fake_mmap
#define mremap fake_mremap
#define munmap fake_munmap
#define malloc tried_malloc
#define realloc tried_realloc
#define free tried_free
#include "alloc.c"
#undef syscall
#undef mmap
#undef mremap
#undef munmap
#undef malloc
#undef realloc
#undef free

/* The model: the blocks in use, with their sizes and the byte that each is full of. */
#define MOST 4096

struct used {
    unsigned char *bytes;
    size_t size;
    unsigned char mark;
};

static struct used used[MOST];
static size_t used_count, calls;

#define CHECK(holds)                                                                \
    do {                                                                            \
        if (!(holds)) {                                                             \
            fprintf(stderr, "call %zu, line %d: %s\n", calls, __LINE__, #holds);    \
            exit(1);                                                                \
        }                                                                           \
    } while (0)

/* The bytes at both ends of a block, and some between, are those that were written. */
static void look_at(const struct used *block, size_t size)
{
    size_t step = size < 4096 ? 1 : size / 1024;
    for (size_t place = 0; place < size; place += step)
        CHECK(block->bytes[place] == block->mark);
    if (size)
        CHECK(block->bytes[size - 1] == block->mark);
}

static void fill(struct used *block)
{
    block->mark = (unsigned char)random_of(256);
    memset(block->bytes, block->mark, block->size);
}

static int is_used(const struct block *block)
{
    const unsigned char *bytes = (const unsigned char *)&block->next;
    for (size_t number = 0; number < used_count; number++)
        if (used[number].bytes == bytes)
            return 1;
    return 0;
}

static int is_in_list(const struct block *block, size_t list)
{
    int found = 0;
    for (const struct block *each = lists[list]; each; each = each->next) {
        CHECK(!each->next || each->next->previous == each);
        found += each == block;
    }
    return found == 1;
}

/* Walks the heap: the blocks follow one another up to the last one, and the free ones are those of the lists. */
static void walk(void)
{
    if (!top)
        return;
    size_t free_blocks = 0, in_heap = 0, listed = 0, mapped = 0;
    struct block *block = (struct block *)(((uintptr_t)room_start + UNIT - 1) & -(uintptr_t)UNIT);
    int is_before_used = 1;
    for (; block != top; block = at(block, size_of(block))) {
        struct block *after = at(block, size_of(block));
        CHECK(block < top && size_of(block) >= LEAST && !(block->marked & MAPPED));
        CHECK(((block->marked & BEFORE_USED) != 0) == is_before_used);
        int is_free = !(after->marked & BEFORE_USED);
        CHECK(is_free != is_used(block));
        if (is_free) {
            CHECK(is_before_used && after->before == size_of(block) && after != top);
            CHECK(is_in_list(block, list_of(size_of(block))));
            free_blocks++;
        } else {
            in_heap++;
        }
        is_before_used = !is_free;
    }
    CHECK(is_before_used && (top->marked & BEFORE_USED) && (char *)top + size_of(top) + UNIT <= end && end == room_end);
    for (size_t list = 0; list < LISTS; list++) {
        CHECK(((filled[list / 64] >> list % 64 & 1) != 0) == (lists[list] != NULL));
        for (const struct block *each = lists[list]; each; each = each->next)
            listed++;
    }
    for (size_t word = 0; word < LISTS / 64; word++)
        CHECK((words_filled >> word & 1) == (filled[word] != 0));
    for (size_t number = 0; number < used_count; number++) {
        const unsigned char *bytes = used[number].bytes;
        mapped += bytes < (unsigned char *)room_start || bytes >= (unsigned char *)room_start + ROOM;
    }
    CHECK(listed == free_blocks && mapped == mappings && in_heap + mapped == used_count);
}

/* A size: often a small one, often one beside a power of two or a limit of the lists, now and then a large one. */
static size_t some_size(void)
{
    switch (random_of(8)) {
    case 0: return random_of(64);
    case 1: return ((size_t)1 << random_of(23)) + random_of(33);
    case 2: return ((size_t)32 << random_of(18)) - random_of(32);
    case 3: return STEPS * UNIT - 24 + random_of(48);
    case 4: return random_of(1 << 20);
    case 5: return random_of(200) ? random_of(4096) : ((size_t)1 << 23) + random_of(1 << 22);
    default: return random_of(600);
    }
}

/* A new block is aligned, has room for its bytes, and meets no other. */
static void check_new(const struct used *block)
{
    const struct block *here = (const struct block *)(block->bytes - offsetof(struct block, next));
    size_t ends = here->marked & MAPPED ? 0 : sizeof(size_t);
    CHECK((uintptr_t)block->bytes % UNIT == 0);
    CHECK(block->bytes + block->size <= (const unsigned char *)here + size_of(here) + ends);
    for (size_t number = 0; number < used_count; number++)
        if (&used[number] != block)
            CHECK(used[number].bytes + used[number].size <= block->bytes
                  || block->bytes + block->size <= used[number].bytes);
}

static void take_one(void)
{
    size_t size = some_size();
    unsigned char *bytes = random_of(2) ? tried_malloc(size) : tried_realloc(NULL, size);
    if (!bytes) {
        CHECK(refuses_growth && refuses_mappings);
        return;
    }
    struct used *block = &used[used_count++];
    block->bytes = bytes;
    block->size = size;
    check_new(block);
    fill(block);
}

static void change_one(void)
{
    struct used *block = &used[random_of((unsigned)used_count)];
    size_t size = some_size();
    unsigned char *bytes = tried_realloc(block->bytes, size);
    look_at(&(struct used){bytes ? bytes : block->bytes, size, block->mark},
            bytes && size < block->size ? size : block->size);
    if (!bytes) {
        CHECK(refuses_mappings);
        return;
    }
    block->bytes = bytes;
    block->size = size;
    check_new(block);
    fill(block);
}

static void free_one(void)
{
    struct used *block = &used[random_of((unsigned)used_count)];
    look_at(block, block->size);
    tried_free(block->bytes);
    *block = used[--used_count];
}

/* A trace: blocks are taken until there are about this many, then as many go as come. */
static void trace(size_t count, size_t about)
{
    for (size_t number = 0; number < count; number++, calls++) {
        unsigned what = random_of(100);
        if (used_count == 0 || (used_count < MOST && what < (used_count < about ? 60u : 30u)))
            take_one();
        else if (what < 75)
            change_one();
        else
            free_one();
        if (number % 512 == 0)
            walk();
    }
    while (used_count > about / 2)
        free_one();
    walk();
}

/* Sizes that no memory has, and the least ones. */
static void edges(void)
{
    size_t top_size = top ? size_of(top) : 0;
    CHECK(!tried_malloc(SIZE_MAX) && !tried_malloc((size_t)PTRDIFF_MAX + 1) && !tried_malloc(PTRDIFF_MAX));
    CHECK(!tried_malloc(PTRDIFF_MAX - UNIT) && !tried_malloc((size_t)1 << 60));
    unsigned char *bytes = tried_malloc(8);
    CHECK(bytes && !tried_realloc(bytes, SIZE_MAX) && !tried_realloc(bytes, PTRDIFF_MAX));
    tried_free(bytes);
    tried_free(NULL);
    CHECK(!top_size || size_of(top) == top_size);
    unsigned char *none = tried_malloc(0), *other = tried_malloc(0);
    CHECK(none && other && none != other);
    tried_free(none);
    tried_free(other);
    walk();
}

/* A system that refuses all: nothing is given, what is there stays, and can be freed. */
static void refused(void)
{
    refuses_growth = refuses_mappings = 100;
    size_t size = ((size_t)1 << 30) - sizeof(size_t); /* with what stands before it, whole pages */
    CHECK(!tried_malloc(size));
    unsigned char *bytes = tried_malloc(100);
    if (bytes) {
        memset(bytes, 7, 100);
        CHECK(!tried_realloc(bytes, size) && bytes[0] == 7 && bytes[99] == 7);
        tried_free(bytes);
    }
    refuses_growth = refuses_mappings = 0;
    refuses_growth = 100;
    bytes = tried_malloc(size);
    CHECK(bytes && mappings == 1);
    check_new(&(struct used){bytes, size, 0});
    bytes[0] = bytes[size - 1] = 9;
    refuses_mappings = 100;
    CHECK(!tried_realloc(bytes, 2 * size) && bytes[0] == 9 && bytes[size - 1] == 9);
    refuses_mappings = 0;
    bytes = tried_realloc(bytes, 2 * size);
    CHECK(bytes && bytes[0] == 9 && bytes[size - 1] == 9);
    tried_free(bytes);
    CHECK(mappings == 0);
    refuses_growth = 0;
    walk();
}

int main(int count, char **words)
{
    size_t most = count > 1 ? strtoul(words[1], NULL, 10) : 60000;
    for (unsigned skipped = count > 2 ? (unsigned)strtoul(words[2], NULL, 10) : 0; skipped; skipped--)
        random_of(2);
    refuses_growth = refuses_mappings = 100;
    CHECK(!tried_malloc(1) && !tried_realloc(NULL, 1)); /* before the heap has begun */
    refuses_growth = refuses_mappings = 0;
    edges();
    trace(most / 4, 300);
    edges();
    trace(most / 4, 2000);
    refuses_growth = 50;
    trace(most / 4, 600);
    refuses_mappings = 50;
    trace(most / 4, 600);
    refuses_growth = refuses_mappings = 0;
    while (used_count)
        free_one();
    walk();
    CHECK(size_of(top) + UNIT == (size_t)(end - (char *)top) && mappings == 0);
    edges();
    refused();
    printf("%zu calls\n", calls);
    return 0;
}
