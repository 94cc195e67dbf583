/* memcpy, memmove, memset and memcmp in the place of musl's: a link copies names and lines of a few bytes by the ten
 * thousand, for which musl's string instructions take long to begin. Up to 128 bytes are loaded before any is stored,
 * by loads that may overlap, so that it does not matter where the two ranges overlap; more go by 64 at a time, or by
 * the string instruction, which is the fastest for a page and more. memory_test.c tries them. */
#include <stddef.h>
#include <stdint.h>

/* Bytes at any address, as one number, and sixteen of them. */
typedef uint16_t __attribute__((aligned(1), may_alias)) two;
typedef uint32_t __attribute__((aligned(1), may_alias)) four;
typedef uint64_t __attribute__((aligned(1), may_alias)) eight;
typedef uint64_t __attribute__((vector_size(16), aligned(1), may_alias)) sixteen;

enum {
    SHORT = 128, /* as many bytes fit into eight registers */
    STEP = 64,   /* how many bytes a step of a loop takes */
    PAGE = 4096, /* from here on the string instruction is faster */
};

/* A loop must not be taken for a call of the function that it stands in. */
#ifdef __clang__
#define PLAIN
#else
#define PLAIN __attribute__((optimize("no-tree-loop-distribute-patterns")))
#endif

/* Copies up to 128 bytes, of ranges that may overlap. */
static inline void copy_short(char *to, const char *from, size_t count)
{
    char *end = to + count;
    const char *last = from + count;
    if (count > 64) {
        sixteen a = *(sixteen *)from, b = *(sixteen *)(from + 16);
        sixteen c = *(sixteen *)(from + 32), d = *(sixteen *)(from + 48);
        sixteen e = *(sixteen *)(last - 64), f = *(sixteen *)(last - 48);
        sixteen g = *(sixteen *)(last - 32), h = *(sixteen *)(last - 16);
        *(sixteen *)to = a, *(sixteen *)(to + 16) = b;
        *(sixteen *)(to + 32) = c, *(sixteen *)(to + 48) = d;
        *(sixteen *)(end - 64) = e, *(sixteen *)(end - 48) = f;
        *(sixteen *)(end - 32) = g, *(sixteen *)(end - 16) = h;
    } else if (count > 32) {
        sixteen a = *(sixteen *)from, b = *(sixteen *)(from + 16);
        sixteen c = *(sixteen *)(last - 32), d = *(sixteen *)(last - 16);
        *(sixteen *)to = a, *(sixteen *)(to + 16) = b;
        *(sixteen *)(end - 32) = c, *(sixteen *)(end - 16) = d;
    } else if (count >= 16) {
        sixteen a = *(sixteen *)from, b = *(sixteen *)(last - 16);
        *(sixteen *)to = a, *(sixteen *)(end - 16) = b;
    } else if (count >= 8) {
        uint64_t a = *(eight *)from, b = *(eight *)(last - 8);
        *(eight *)to = a, *(eight *)(end - 8) = b;
    } else if (count >= 4) {
        uint32_t a = *(four *)from, b = *(four *)(last - 4);
        *(four *)to = a, *(four *)(end - 4) = b;
    } else if (count >= 2) {
        uint16_t a = *(two *)from, b = *(two *)(last - 2);
        *(two *)to = a, *(two *)(end - 2) = b;
    } else if (count) {
        *to = *from;
    }
}

/* Copies more than 128 bytes upwards: right where the ranges do not overlap, and where `to` is the lower one. */
static PLAIN void copy_up(char *to, const char *from, size_t count)
{
    /* the last bytes are loaded first, as the steps may store over them */
    const char *last = from + count - STEP;
    char *end = to + count - STEP;
    sixteen e = *(sixteen *)last, f = *(sixteen *)(last + 16), g = *(sixteen *)(last + 32), h = *(sixteen *)(last + 48);
    while (to < end) {
        sixteen a = *(sixteen *)from, b = *(sixteen *)(from + 16);
        sixteen c = *(sixteen *)(from + 32), d = *(sixteen *)(from + 48);
        *(sixteen *)to = a, *(sixteen *)(to + 16) = b, *(sixteen *)(to + 32) = c, *(sixteen *)(to + 48) = d;
        to += STEP, from += STEP;
    }
    *(sixteen *)end = e, *(sixteen *)(end + 16) = f, *(sixteen *)(end + 32) = g, *(sixteen *)(end + 48) = h;
}

/* Copies more than 128 bytes downwards, where `to` is the higher one. */
static PLAIN void copy_down(char *to, const char *from, size_t count)
{
    char *first = to, *end = to + count;
    const char *last = from + count;
    sixteen e = *(sixteen *)from, f = *(sixteen *)(from + 16), g = *(sixteen *)(from + 32), h = *(sixteen *)(from + 48);
    while (end > first + STEP) {
        end -= STEP, last -= STEP;
        sixteen a = *(sixteen *)last, b = *(sixteen *)(last + 16);
        sixteen c = *(sixteen *)(last + 32), d = *(sixteen *)(last + 48);
        *(sixteen *)end = a, *(sixteen *)(end + 16) = b, *(sixteen *)(end + 32) = c, *(sixteen *)(end + 48) = d;
    }
    *(sixteen *)first = e, *(sixteen *)(first + 16) = f, *(sixteen *)(first + 32) = g, *(sixteen *)(first + 48) = h;
}

void *memcpy(void *restrict to, const void *restrict from, size_t count)
{
    void *result = to;
    if (count <= SHORT)
        copy_short(to, from, count);
    else if (count < PAGE)
        copy_up(to, from, count);
    else
        __asm__ volatile("rep movsb" : "+D"(to), "+S"(from), "+c"(count) : : "memory");
    return result;
}

void *memmove(void *to, const void *from, size_t count)
{
    /* how far one range begins after the other; where it begins before it, a number past all lengths */
    size_t after = (uintptr_t)to - (uintptr_t)from, before = (uintptr_t)from - (uintptr_t)to;
    if (count <= SHORT)
        copy_short(to, from, count);
    else if (after < count)
        copy_down(to, from, count);
    else if (before < count)
        copy_up(to, from, count);
    else
        memcpy(to, from, count);
    return to;
}

PLAIN void *memset(void *to, int byte, size_t count)
{
    char *first = to, *end = first + count;
    uint64_t all = 0x0101010101010101u * (unsigned char)byte;
    if (count >= PAGE) {
        void *at = to;
        __asm__ volatile("rep stosb" : "+D"(at), "+c"(count) : "a"(byte) : "memory");
    } else if (count >= 16) {
        sixteen filled = {all, all};
        for (char *at = first; at < end - 16; at += 16)
            *(sixteen *)at = filled;
        *(sixteen *)(end - 16) = filled;
    } else if (count >= 8) {
        *(eight *)first = all, *(eight *)(end - 8) = all;
    } else if (count >= 4) {
        *(four *)first = (uint32_t)all, *(four *)(end - 4) = (uint32_t)all;
    } else if (count >= 2) {
        *(two *)first = (uint16_t)all, *(two *)(end - 2) = (uint16_t)all;
    } else if (count) {
        *first = (char)byte;
    }
    return to;
}

PLAIN int memcmp(const void *one, const void *other, size_t count)
{
    const unsigned char *a = one, *b = other;
    for (; count >= 8; count -= 8, a += 8, b += 8) {
        uint64_t x = __builtin_bswap64(*(eight *)a), y = __builtin_bswap64(*(eight *)b);
        if (x != y)
            return x < y ? -1 : 1;
    }
    for (; count; count--, a++, b++)
        if (*a != *b)
            return *a - *b;
    return 0;
}
