/* Prints names of six letters whose hashes have the same low bits.

     collide FORM BITS COUNT

   The hash is SipHash-1-3 with keys 0, Rust's `std::hash::DefaultHasher::new()`, of a name as FORM says: `bytes`, a
   slice of bytes (its length as 8 bytes, then the bytes), or `text`, a string (its bytes, then FF). Tables find an
   entry's place by the low bits of its hash, so that all these names want one place. Prints COUNT names, one a
   line, whose lowest BITS bits are 0; fewer only where there are no more. */
#include <stdint.h>
#include <stdio.h>
#include <stdlib.h>
#include <string.h>

enum { LETTERS = 52, LENGTH = 6, HALF = LETTERS * LETTERS * LETTERS };

struct state { uint64_t v0, v1, v2, v3; };

static inline uint64_t turned(uint64_t word, int by) { return word << by | word >> (64 - by); }

static inline struct state round_of(struct state s) {
  s.v0 += s.v1; s.v2 += s.v3;
  s.v1 = turned(s.v1, 13) ^ s.v0; s.v3 = turned(s.v3, 16) ^ s.v2;
  s.v0 = turned(s.v0, 32);
  s.v2 += s.v1; s.v0 += s.v3;
  s.v1 = turned(s.v1, 17) ^ s.v2; s.v3 = turned(s.v3, 21) ^ s.v0;
  s.v2 = turned(s.v2, 32);
  return s;
}

static inline struct state taken(struct state s, uint64_t word) {
  s.v3 ^= word;
  s = round_of(s);
  s.v0 ^= word;
  return s;
}

static inline uint64_t ended(struct state s, uint64_t last) {
  s = taken(s, last);
  s.v2 ^= 0xff;
  s = round_of(round_of(round_of(s)));
  return s.v0 ^ s.v1 ^ s.v2 ^ s.v3;
}

/* The letters of a number below HALF, as the low bytes of a word in the order of the name. */
static uint64_t letters_of(unsigned number) {
  static const char letters[] = "ABCDEFGHIJKLMNOPQRSTUVWXYZabcdefghijklmnopqrstuvwxyz";
  uint64_t word = 0;
  for (int k = 0; k < LENGTH / 2; k++, number /= LETTERS)
    word = word << 8 | (uint64_t)letters[number % LETTERS];
  return word;
}

static uint64_t backs[HALF], hashes[HALF];

int main(int count, char **words) {
  if (count != 4 || (strcmp(words[1], "bytes") != 0 && strcmp(words[1], "text") != 0)) {
    fputs("collide bytes|text BITS COUNT\n", stderr);
    return 2;
  }
  int is_text = strcmp(words[1], "text") == 0;
  uint64_t mask = ((uint64_t)1 << atoi(words[2])) - 1;
  long wanted = atol(words[3]);
  struct state start = {0x736f6d6570736575, 0x646f72616e646f6d, 0x6c7967656e657261, 0x7465646279746573};
  if (!is_text)
    start = taken(start, LENGTH);
  /* The last word: what is left of the message, and the length of all of it in the highest byte. */
  uint64_t end = is_text ? (uint64_t)0xff << 48 | (uint64_t)(LENGTH + 1) << 56 : (uint64_t)(8 + LENGTH) << 56;
  for (unsigned back = 0; back < HALF; back++)
    backs[back] = letters_of(back) << 24 | end;
  for (unsigned front = 0; front < HALF && wanted > 0; front++) {
    uint64_t letters = letters_of(front);
    for (unsigned back = 0; back < HALF; back++)
      hashes[back] = ended(start, letters | backs[back]) & mask;
    for (unsigned back = 0; back < HALF && wanted > 0; back++)
      if (hashes[back] == 0) {
        uint64_t name = letters | backs[back];
        fwrite(&name, 1, LENGTH, stdout);
        putchar('\n');
        wanted--;
      }
  }
  return 0;
}
