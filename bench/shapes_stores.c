/* ROUNDS LOCATIONS: in each round as many sequentially consistent stores and then as many loads as there are locations,
   which is what a publish and a collapse of that many written locations have to make. Prints the sum of what was read. */
#include <stdatomic.h>
#include <stdint.h>
#include <stdio.h>
#include <stdlib.h>

int main(int count, char **words)
{
    if (count != 3) {
        fprintf(stderr, "usage: shapes_stores ROUNDS LOCATIONS\n");
        return 2;
    }
    long rounds = atol(words[1]), locations = atol(words[2]);
    _Atomic uint64_t *cells = calloc((size_t)locations, sizeof *cells);
    if (!cells) return 7;
    uint64_t sum = 0;
    for (long round = 0; round < rounds; round++) {
        for (long at = 0; at < locations; at++) atomic_store(&cells[at], (uint64_t)(round + at));
        for (long at = 0; at < locations; at++) sum += atomic_load(&cells[at]);
    }
    printf("%llu\n", (unsigned long long)sum);
    free((void *)cells);
    return 0;
}
