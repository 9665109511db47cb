/* Three ways to fill the longest shuffled palindrome's length from each start of a string of A to Z: at most one letter
 * occurs an odd number of times, so at most one bit of a word of parities is set. n is at most 1,000. */

#include <stdbool.h>
#include <stdint.h>
#include <string.h>

enum { MOST_LETTERS = 1000, ALPHABET = 26, CHAINS = 2048, NONE = 0xffff };

typedef void Fill(const uint8_t *letters, unsigned n, uint16_t *lengths);

static uint32_t bit_of(uint8_t letter) { return UINT32_C(1) << (letter - 'A'); }

static bool at_most_one(uint32_t word) { return (word & (word - 1)) == 0; }

/* From each start along all letters, the last length that passes kept. */
static void fill_along(const uint8_t *letters, unsigned n, uint16_t *lengths) {
    for (unsigned start = 0; start < n; start++) {
        uint32_t word = 0;
        unsigned longest = 0;
        for (unsigned end = start; end < n;) {
            word ^= bit_of(letters[end++]);
            if (at_most_one(word))
                longest = end - start;
        }
        lengths[start] = (uint16_t)longest;
    }
}

/* The way of our program: from each start the letters up to the end, of which the last is taken out until the rest passes. */
static void fill_from_the_end(const uint8_t *letters, unsigned n, uint16_t *lengths) {
    uint32_t all = 0;
    for (unsigned start = n; start-- > 0;) {
        all ^= bit_of(letters[start]);
        uint32_t word = all;
        unsigned length = n - start;
        while (!at_most_one(word))
            word ^= bit_of(letters[start + --length]);
        lengths[start] = (uint16_t)length;
    }
}

/* One pass: the last place where each word of the letters before it stood, in chains by a hash of the word; a start asks for
 * the 27 words that differ in at most one bit from its own. */
static uint32_t words[MOST_LETTERS + 1];
static uint16_t heads[CHAINS], links[MOST_LETTERS + 1];

static unsigned chain_of(uint32_t word) { return word * UINT32_C(0x9e3779b1) >> 21; }

static unsigned last_place(uint32_t word) {
    unsigned place = heads[chain_of(word)];
    while (place != NONE && words[place] != word)
        place = links[place];
    return place;
}

static void keep_last_places(const uint8_t *letters, unsigned n) {
    memset(heads, 0xff, sizeof heads);
    words[0] = 0;
    for (unsigned k = 0; k < n; k++)
        words[k + 1] = words[k] ^ bit_of(letters[k]);
    for (unsigned place = n + 1; place-- > 0;) {
        if (last_place(words[place]) != NONE)
            continue;
        unsigned chain = chain_of(words[place]);
        links[place] = heads[chain];
        heads[chain] = (uint16_t)place;
    }
}

static void fill_by_last_places(const uint8_t *letters, unsigned n, uint16_t *lengths) {
    keep_last_places(letters, n);
    for (unsigned start = 0; start < n; start++) {
        unsigned last = last_place(words[start]);
        for (unsigned c = 0; c < ALPHABET; c++) {
            unsigned place = last_place(words[start] ^ UINT32_C(1) << c);
            if (place != NONE && place > last)
                last = place;
        }
        lengths[start] = (uint16_t)(last - start);
    }
}
