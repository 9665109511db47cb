/* Times three ways to fill the lengths of shuffled palindromes, in plain C and without lines, and sees that they agree.
 * Prints the best microseconds a fill; the seconds are this machine's own, not an emulator's. */

#include <stdio.h>
#include <stdlib.h>
#include <time.h>

#include "shuffles.h"

enum { ROUNDS = 25, FILLS = 20 };

static double seconds(void) {
    struct timespec now;
    timespec_get(&now, TIME_UTC);
    return (double)now.tv_sec + 1e-9 * (double)now.tv_nsec;
}

static double best_of(Fill *fill, const uint8_t *letters, uint16_t *lengths) {
    double best = 1e9;
    for (int round = 0; round < ROUNDS; round++) {
        double start = seconds();
        for (int k = 0; k < FILLS; k++)
            fill(letters, MOST_LETTERS, lengths);
        double time = (seconds() - start) / FILLS;
        best = time < best ? time : best;
    }
    return 1e6 * best;
}

static void compare(const char *name, const uint8_t *letters) {
    Fill *ways[] = {fill_along, fill_from_the_end, fill_by_last_places};
    uint16_t lengths[3][MOST_LETTERS];
    printf("%-32s", name);
    for (int way = 0; way < 3; way++) {
        printf(" %14.1f", best_of(ways[way], letters, lengths[way]));
        if (memcmp(lengths[way], lengths[0], sizeof lengths[0]) != 0) {
            printf(" differs\n");
            exit(1);
        }
    }
    printf("\n");
}

static void draw(uint8_t *letters, const char *alphabet) {
    uint32_t state = 1;
    for (int k = 0; k < MOST_LETTERS; k++) {
        state = state * UINT32_C(1664525) + UINT32_C(1013904223);
        letters[k] = (uint8_t)alphabet[(state >> 16) % strlen(alphabet)];
    }
}

int main(void) {
    uint8_t letters[MOST_LETTERS];
    printf("%-32s %14s %14s %14s\n", "1,000 letters, us a fill", "along", "from the end", "last places");
    draw(letters, "ACGT");
    compare("random DNA", letters);
    draw(letters, "ACDEFGHIKLMNPQRSTVWY");
    compare("random, 20 letters", letters);
    draw(letters, "ABCDEFGHIJKLMNOPQRSTUVWXYZ");
    compare("random, 26 letters", letters);
    memset(letters, 'A', sizeof letters);
    compare("all A", letters);
    memcpy(letters + MOST_LETTERS / 2, "CG", 2);
    compare("A with CG in the middle", letters);
    return 0;
}
