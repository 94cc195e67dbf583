/* Tries memory.c beside plain loops: copies between all places of a short range and of a long one, that overlap and that
 * do not, fills and comparisons, of all lengths up to some hundreds and of some at the edges of a page. What lies beside
 * the range stays. Prints how many calls were made, and ends with status 1 at what is wrong. */
#include <stddef.h>
#include <stdio.h>
#include <stdlib.h>

#define memcpy own_memcpy
#define memmove own_memmove
#define memset own_memset
#define memcmp own_memcmp
#include "memory.c"

enum { ROOM = 20000, BESIDE = 256 };

static unsigned char bytes[ROOM], wanted[ROOM], source[ROOM];
static unsigned long calls;

static void fail(const char *what, size_t to, size_t from, size_t count)
{
    printf("%s of %zu bytes from %zu to %zu is wrong\n", what, count, from, to);
    exit(1);
}

/* Some bytes, other ones each time. */
static void begin(void)
{
    static uint32_t state = 1;
    for (size_t i = 0; i < ROOM; i++) {
        state = state * 1664525 + 1013904223;
        bytes[i] = wanted[i] = (unsigned char)(state >> 24);
        source[i] = (unsigned char)(state >> 16);
    }
}

static void look(const char *what, size_t to, size_t from, size_t count, void *given)
{
    size_t first = to > BESIDE ? to - BESIDE : 0, last = to + count + BESIDE;
    calls++;
    if (given != bytes + to)
        fail(what, to, from, count);
    for (size_t i = first; i < last; i++)
        if (bytes[i] != wanted[i])
            fail(what, to, from, count);
}

static void try_copy(size_t to, size_t from, size_t count)
{
    for (size_t i = 0; i < count; i++)
        wanted[to + i] = source[from + i];
    look("memcpy", to, from, count, memcpy(bytes + to, source + from, count));
}

static void try_move(size_t to, size_t from, size_t count)
{
    for (size_t i = 0; i < count; i++)
        source[i] = wanted[from + i];
    for (size_t i = 0; i < count; i++)
        wanted[to + i] = source[i];
    look("memmove", to, from, count, memmove(bytes + to, bytes + from, count));
}

static void try_fill(size_t to, int byte, size_t count)
{
    for (size_t i = 0; i < count; i++)
        wanted[to + i] = (unsigned char)byte;
    look("memset", to, 0, count, memset(bytes + to, byte, count));
}

static int sign(int x)
{
    return (x > 0) - (x < 0);
}

static void try_compare(size_t one, size_t count, size_t differs, int by)
{
    for (size_t i = 0; i < count; i++)
        source[i] = bytes[one + i];
    if (differs < count)
        source[differs] = (unsigned char)(source[differs] + by);
    int is = 0;
    for (size_t i = 0; !is && i < count; i++)
        is = bytes[one + i] - source[i];
    calls++;
    if (sign(memcmp(bytes + one, source, count)) != sign(is))
        fail("memcmp", one, differs, count);
}

int main(void)
{
    static const size_t lengths[] = {511, 512, 513, 1000, 2047, 4095, 4096, 4097, 5000, 8191, 8200};
    begin();
    for (size_t n = 0; n < 400 + sizeof lengths / sizeof *lengths; n++) {
        size_t count = n < 400 ? n : lengths[n - 400];
        for (size_t at = 0; at < 20; at++) {
            try_copy(1000 + at, 7 * at, count);
            try_fill(1000 + at, (int)(count + at), count);
            begin();
            for (size_t back = 0; back < 80; back += 1 + at) {
                try_move(1000 + at, 1000 + at + back, count);
                try_move(1000 + at + back, 1000 + at, count);
            }
            try_move(1000 + at, 10000, count);
            for (size_t differs = 0; differs <= count; differs += 1 + count / 9) {
                try_compare(1000 + at, count, differs, 1);
                try_compare(1000 + at, count, differs, 128);
            }
        }
    }
    printf("%lu calls\n", calls);
    return 0;
}
