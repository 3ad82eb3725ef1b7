/* Prints so many names of six bytes, one a line, that begin their search in one place of a hash table.
 *
 * The hash is that of the library's default hasher, whose seed is fixed: the length and then each byte
 * are folded into a state of 64 bits by a product. The table joins the halves of the state by xor, and
 * begins at the group that the lowest bits name, of which it takes as many as it has groups for. The
 * names have the lowest PLACE_BITS bits 0, so that they begin at one group in every table of at most
 * 2^PLACE_BITS groups. */
#include <stdint.h>
#include <stdio.h>
#include <stdlib.h>

#define LENGTH 6
#define PLACE_BITS 14

static const uint64_t SEED = 0x243f6a8885a308d3u;
static const uint64_t MULTIPLIER = 0x9e3779b97f4a7c15u;
static const char LATER[] = "abcdefghijklmnopqrstuvwxyz0123456789_";
enum { FIRST = 26, ALL = sizeof LATER - 1 };

static uint64_t folded(uint64_t a, uint64_t b)
{
    unsigned __int128 product = (unsigned __int128)a * b;
    return (uint64_t)product ^ (uint64_t)(product >> 64);
}

static long left;
static char name[LENGTH];

/* The names with the bytes that are set and this state after them. */
static void search(int at, uint64_t state)
{
    if (at == LENGTH) {
        if (((state ^ state >> 32) & ((1u << PLACE_BITS) - 1)) == 0) {
            printf("%.*s\n", LENGTH, name);
            left--;
        }
        return;
    }
    int bytes = at == 0 ? FIRST : ALL;
    for (int i = 0; i < bytes && left > 0; i++) {
        name[at] = LATER[i];
        search(at + 1, folded(state ^ (uint64_t)LATER[i] * 0x010101u, MULTIPLIER ^ 2));
    }
}

int main(int count, char **words)
{
    if (count != 2) {
        fprintf(stderr, "colliding COUNT\n");
        return 2;
    }
    left = atol(words[1]);
    search(0, folded(SEED ^ LENGTH, MULTIPLIER ^ 16));
    return left == 0 ? 0 : 1;
}
