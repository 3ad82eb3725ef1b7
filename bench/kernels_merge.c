/* Adds up changes of 4,096 cells as often as the call says: m + j - r with checks of overflow, by turns from one array into
   the other. Prints the sum of the last cells. */
#include <stdint.h>
#include <stdio.h>
#include <stdlib.h>

#define COUNT 4096

struct written {
    uint32_t location;
    int64_t value, root;
};

static int merge(const int64_t *mains, const struct written *all, int64_t *values)
{
    for (int i = 0; i < COUNT; i++) {
        int64_t both, rest;
        if (__builtin_add_overflow(mains[i], all[i].value, &both) || __builtin_sub_overflow(both, all[i].root, &rest))
            return 0;
        values[i] = rest;
    }
    return 1;
}

int main(int argc, char **argv)
{
    static int64_t first[COUNT], second[COUNT];
    static struct written all[COUNT];
    int64_t *mains = first, *values = second;
    long rounds = argc > 2 ? atol(argv[2]) : 0;
    for (int i = 0; i < COUNT; i++)
        all[i] = (struct written){i, 3, 1};
    for (long k = 0; k < rounds; k++) {
        int64_t *next = mains;
        if (!merge(mains, all, values))
            return 1;
        mains = values;
        values = next;
    }
    uint64_t sum = 0;
    for (int i = 0; i < COUNT; i++)
        sum += (uint64_t)mains[i];
    printf("%llu\n", (unsigned long long)sum);
    return 0;
}
