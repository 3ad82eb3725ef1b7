// Empty tasks that go through a queue under one mutex, each waited for by whoever gave it. The words: how many threads, and
// how many tasks. Each thread gives its part of the tasks, and runs what stands in the queue while it waits for its own.
#include <pthread.h>
#include <stdio.h>
#include <stdlib.h>

struct task { int done; struct task *next; };

static pthread_mutex_t turn = PTHREAD_MUTEX_INITIALIZER;
static pthread_cond_t changed = PTHREAD_COND_INITIALIZER;
static struct task *waiting;
static long each;

static void give(struct task *task) {
    pthread_mutex_lock(&turn);
    task->next = waiting;
    waiting = task;
    pthread_cond_signal(&changed);
    pthread_mutex_unlock(&turn);
}

static void wait_for(struct task *task) {
    pthread_mutex_lock(&turn);
    while (!task->done) {
        struct task *other = waiting;
        if (other) {
            waiting = other->next;
            pthread_mutex_unlock(&turn);
            // The task is empty.
            pthread_mutex_lock(&turn);
            other->done = 1;
            pthread_cond_broadcast(&changed);
        } else {
            pthread_cond_wait(&changed, &turn);
        }
    }
    pthread_mutex_unlock(&turn);
}

static void *work(void *unused) {
    (void)unused;
    for (long i = 0; i < each; i++) {
        struct task *task = calloc(1, sizeof *task);
        if (!task) exit(7);
        give(task);
        wait_for(task);
        free(task);
    }
    return NULL;
}

int main(int count, char **words) {
    if (count != 3) return 4;
    long threads = atol(words[1]);
    each = atol(words[2]) / threads;
    pthread_t *made = calloc((size_t)threads, sizeof *made);
    for (long i = 0; i < threads; i++)
        if (pthread_create(&made[i], NULL, work, NULL)) return 7;
    for (long i = 0; i < threads; i++) pthread_join(made[i], NULL);
    puts("done");
    return 0;
}
