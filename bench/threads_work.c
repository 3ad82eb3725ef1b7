// Equal pieces of work, taken by threads from one counter. The words: how many threads, pieces, and rounds a piece.
#include <inttypes.h>
#include <pthread.h>
#include <stdatomic.h>
#include <stdio.h>
#include <stdlib.h>

static atomic_long next_piece;
static long pieces, rounds;
static _Atomic int64_t sum;

static void *work(void *unused) {
    (void)unused;
    while (atomic_fetch_add(&next_piece, 1) < pieces) {
        volatile int64_t x = 1;
        for (volatile long i = 0; i < rounds; i++) x = (x * 1103515245 + 12345) % 2147483648;
        atomic_fetch_add(&sum, x);
    }
    return NULL;
}

int main(int count, char **words) {
    if (count != 4) return 4;
    long threads = atol(words[1]);
    pieces = atol(words[2]);
    rounds = atol(words[3]);
    pthread_t *made = calloc((size_t)threads, sizeof *made);
    for (long i = 0; i < threads; i++)
        if (pthread_create(&made[i], NULL, work, NULL)) return 7;
    for (long i = 0; i < threads; i++) pthread_join(made[i], NULL);
    printf("%" PRId64 "\n", sum);
    return 0;
}
