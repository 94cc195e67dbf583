/* An allocator for one thread in the place of musl's, which maps and copies more. The heap is a row of blocks; two free
 * ones that meet become one; free ones stand in lists by their size, and the first that is large enough is taken. All
 * memory comes in pages of 2 MB where the system has them. Where the heap cannot grow, a block is a mapping of its own.
 * alloc_test.c tries it. */
#define _GNU_SOURCE
#include <stddef.h>
#include <stdint.h>
#include <string.h>
#include <sys/mman.h>
#include <sys/syscall.h>
#include <unistd.h>

#define HUGE ((size_t)1 << 21) /* the size of a large page, and by how much the heap grows */
#define PAGE ((size_t)1 << 12)

enum {
    UNIT = 16,             /* sizes and places of blocks are multiples of it */
    STEPS = 32,            /* how many lists there are from one power of two to the next */
    LISTS = 64 * STEPS,
    LEAST = 32,            /* a free block has its four words */
    BEFORE_USED = 1,       /* marks in a size: the block before is in use, */
    MAPPED = 2,            /* and the block is a mapping of its own */
};

/* A block: its bytes begin at `next`, and while it is in use they go on to the end of `before` of the one after it. */
struct block {
    size_t before; /* the size of the block before, if that is free */
    size_t marked; /* the size, with marks */
    struct block *next, *previous;
};

static struct block *lists[LISTS];
static uint64_t filled[LISTS / 64]; /* which lists have a block, */
static uint64_t words_filled;       /* and which words of that are not 0 */
static struct block *top;           /* the last block, which is free and in no list */
static char *end;

static size_t size_of(const struct block *block)
{
    return block->marked & -(size_t)UNIT;
}

static struct block *at(struct block *block, size_t offset)
{
    return (struct block *)((char *)block + offset);
}

/* The list for blocks of this size: for the least sizes one each. */
static size_t list_of(size_t size)
{
    if (size < STEPS * UNIT)
        return size / UNIT;
    int shift = 63 - __builtin_clzl(size) - __builtin_ctz(STEPS);
    return STEPS * (size_t)(shift - __builtin_ctz(UNIT)) + (size >> shift);
}

/* Puts a free block into its list, and tells the one after it. */
static void put(struct block *block, size_t size)
{
    size_t list = list_of(size);
    block->marked = size | BEFORE_USED;
    at(block, size)->before = size;
    at(block, size)->marked &= ~(size_t)BEFORE_USED;
    block->previous = NULL;
    block->next = lists[list];
    if (block->next)
        block->next->previous = block;
    lists[list] = block;
    filled[list / 64] |= (uint64_t)1 << list % 64;
    words_filled |= (uint64_t)1 << list / 64;
}

static void take_out(struct block *block)
{
    size_t list = list_of(size_of(block));
    if (block->next)
        block->next->previous = block->previous;
    if (block->previous)
        block->previous->next = block->next;
    else if (!(lists[list] = block->next)) {
        filled[list / 64] &= ~((uint64_t)1 << list % 64);
        if (!filled[list / 64])
            words_filled &= ~((uint64_t)1 << list / 64);
    }
}

/* The first block of its own list, if that is large enough, or of the next list that has one; or nothing. No size has
 * one of the last 64 lists. */
static struct block *find(size_t size)
{
    size_t list = list_of(size);
    if (lists[list] && size_of(lists[list]) >= size)
        return lists[list];
    list++;
    size_t number = list / 64;
    uint64_t word = filled[number] & -((uint64_t)1 << list % 64);
    if (!word) {
        uint64_t words = words_filled & -((uint64_t)2 << number);
        if (!words)
            return NULL;
        number = (size_t)__builtin_ctzl(words);
        word = filled[number];
    }
    return lists[number * 64 + (size_t)__builtin_ctzl(word)];
}

/* Makes this the last block, up to the end of the heap. */
static void set_top(struct block *block)
{
    top = block;
    top->marked = (size_t)(end - (char *)top - UNIT) | BEFORE_USED;
}

/* Makes the heap longer, so that its last block has more than this size. Gives whether the system did. */
static int grow(size_t size)
{
    struct block *last = top;
    if (!last) {
        end = (char *)syscall(SYS_brk, 0);
        last = (struct block *)(end + (-(uintptr_t)end & (UNIT - 1)));
    }
    uintptr_t wanted = ((uintptr_t)last + size + 2 * sizeof(struct block) + HUGE - 1) & -(uintptr_t)HUGE;
    if ((uintptr_t)syscall(SYS_brk, wanted) != wanted)
        return 0;
    uintptr_t first = ((uintptr_t)end + HUGE - 1) & -(uintptr_t)HUGE;
    if (first < wanted)
        madvise((void *)first, wanted - first, MADV_HUGEPAGE);
    end = (char *)wanted;
    set_top(last);
    return 1;
}

/* Makes a block free that is in use, with those that it meets. */
static void give_back(struct block *block)
{
    size_t size = size_of(block);
    if (!(block->marked & BEFORE_USED)) {
        size += block->before;
        block = at(block, -block->before);
        take_out(block);
    }
    struct block *after = at(block, size);
    if (after == top) {
        set_top(block);
        return;
    }
    if (!(at(after, size_of(after))->marked & BEFORE_USED)) {
        take_out(after);
        size += size_of(after);
    }
    put(block, size);
}

/* Of a block of this size keeps the first bytes in use, and frees the rest where that is a block. */
static void cut(struct block *block, size_t size, size_t wanted)
{
    block->marked = (block->marked & BEFORE_USED) | size;
    at(block, size)->marked |= BEFORE_USED;
    if (size - wanted < LEAST)
        return;
    block->marked = (block->marked & BEFORE_USED) | wanted;
    at(block, wanted)->marked = (size - wanted) | BEFORE_USED;
    give_back(at(block, wanted));
}

static void *map(size_t size)
{
    size = (size + UNIT + PAGE - 1) & -PAGE;
    struct block *found = mmap(NULL, size, PROT_READ | PROT_WRITE, MAP_PRIVATE | MAP_ANONYMOUS, -1, 0);
    if (found == MAP_FAILED)
        return NULL;
    madvise(found, size, MADV_HUGEPAGE);
    found->marked = size | MAPPED;
    return &found->next;
}

static size_t block_size(size_t count)
{
    size_t size = (count + sizeof(size_t) + UNIT - 1) & -(size_t)UNIT;
    return size < LEAST ? LEAST : size;
}

void *malloc(size_t count)
{
    if (count > PTRDIFF_MAX)
        return NULL;
    size_t size = block_size(count);
    struct block *found = find(size);
    if (found) {
        take_out(found);
        cut(found, size_of(found), size);
        return &found->next;
    }
    if ((!top || size_of(top) < size + LEAST) && !grow(size))
        return map(size);
    found = top;
    set_top(at(top, size));
    found->marked = size | BEFORE_USED;
    return &found->next;
}

void free(void *bytes)
{
    if (!bytes)
        return;
    struct block *block = (struct block *)((char *)bytes - offsetof(struct block, next));
    if (block->marked & MAPPED)
        munmap(block, size_of(block));
    else
        give_back(block);
}

/* Makes a block longer or shorter where it stands. Gives whether it could be. */
static int resize(struct block *block, size_t size)
{
    size_t now = size_of(block);
    struct block *after = at(block, now);
    if (now < size && after == top) {
        if (now + size_of(top) < size + LEAST && !grow(size - now))
            return 0;
        set_top(at(top, size - now));
        block->marked += size - now;
        return 1;
    }
    if (now < size && !(at(after, size_of(after))->marked & BEFORE_USED) && now + size_of(after) >= size) {
        take_out(after);
        now += size_of(after);
    }
    if (now < size)
        return 0;
    cut(block, now, size);
    return 1;
}

static void *remap(struct block *block, size_t size)
{
    size = (size + UNIT + PAGE - 1) & -PAGE;
    struct block *moved = mremap(block, size_of(block), size, MREMAP_MAYMOVE);
    if (moved == MAP_FAILED)
        return NULL;
    moved->marked = size | MAPPED;
    return &moved->next;
}

void *realloc(void *bytes, size_t count)
{
    if (!bytes || count > PTRDIFF_MAX)
        return bytes ? NULL : malloc(count);
    struct block *block = (struct block *)((char *)bytes - offsetof(struct block, next));
    size_t size = block_size(count), before = size_of(block) - sizeof(size_t);
    if (block->marked & MAPPED)
        return remap(block, size);
    if (resize(block, size))
        return bytes;
    void *copy = malloc(count); /* of a longer block: a shorter one stays where it is */
    if (!copy)
        return NULL;
    memcpy(copy, bytes, before);
    free(bytes);
    return copy;
}
