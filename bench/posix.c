/* The real calls, as a measure for lc3lab: pairs of sem_wait and sem_post, or of mq_send and mq_receive.

   usage: posix semaphores|queues THREADS PAIRS

   Each thread opens the one semaphore or queue by its name, and makes so many pairs. A message has two bytes, as one word
   of the LC-3. */
#include <fcntl.h>
#include <mqueue.h>
#include <pthread.h>
#include <semaphore.h>
#include <stdio.h>
#include <stdlib.h>
#include <string.h>
#include <unistd.h>

enum { MOST_THREADS = 64, MESSAGES = 10, MESSAGE_BYTES = 32 };

static char name[32];
static long pairs;

static void check(int holds, const char *call) {
    if (holds) return;
    perror(call);
    exit(1);
}

static void *semaphore_pairs(void *unused) {
    sem_t *semaphore = sem_open(name, O_CREAT, 0600, 1);
    check(semaphore != SEM_FAILED, "sem_open");
    for (long i = 0; i < pairs; i++) {
        check(sem_wait(semaphore) == 0, "sem_wait");
        check(sem_post(semaphore) == 0, "sem_post");
    }
    sem_close(semaphore);
    return unused;
}

static void *queue_pairs(void *unused) {
    struct mq_attr attributes = {.mq_maxmsg = MESSAGES, .mq_msgsize = MESSAGE_BYTES};
    char buffer[MESSAGE_BYTES] = {0};
    mqd_t queue = mq_open(name, O_RDWR | O_CREAT, 0600, &attributes);
    check(queue != (mqd_t)-1, "mq_open");
    for (long i = 0; i < pairs; i++) {
        check(mq_send(queue, buffer, 2, 0) == 0, "mq_send");
        check(mq_receive(queue, buffer, MESSAGE_BYTES, NULL) == 2, "mq_receive");
    }
    mq_close(queue);
    return unused;
}

static void run_threads(int count, void *(*work)(void *)) {
    pthread_t threads[MOST_THREADS];
    for (int i = 0; i < count; i++) check(pthread_create(&threads[i], NULL, work, NULL) == 0, "pthread_create");
    for (int i = 0; i < count; i++) pthread_join(threads[i], NULL);
}

int main(int count, char **words) {
    int threads = count == 4 ? atoi(words[2]) : 0;
    if (threads < 1 || threads > MOST_THREADS) {
        fprintf(stderr, "usage: posix semaphores|queues THREADS PAIRS\n");
        return 1;
    }
    pairs = atol(words[3]);
    snprintf(name, sizeof name, "/lc3lab-bench-%d", (int)getpid());
    if (strcmp(words[1], "semaphores") == 0) {
        run_threads(threads, semaphore_pairs);
        sem_unlink(name);
    } else {
        run_threads(threads, queue_pairs);
        mq_unlink(name);
    }
    return 0;
}
