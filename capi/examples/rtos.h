/* What rtos.c takes of an RTOS, by threads of Linux: tasks, a lock, flags to wait for, a queue of packets, and a clock.
   On a board the calls of its RTOS stand here. */
#ifndef RTOS_H
#define RTOS_H

#include <pthread.h>
#include <stdint.h>
#include <string.h>
#include <time.h>

enum { SLOTS = 32, SLOT = 1500 };

typedef pthread_t task;
typedef pthread_mutex_t mutex;
#define MUTEX PTHREAD_MUTEX_INITIALIZER

struct flags {
    pthread_mutex_t lock;
    pthread_cond_t changed;
    uint64_t set;
};
#define FLAGS {PTHREAD_MUTEX_INITIALIZER, PTHREAD_COND_INITIALIZER, 0}

struct queue {
    pthread_mutex_t lock;
    pthread_cond_t changed;
    unsigned first, count;
    int lens[SLOTS];
    uint8_t packets[SLOTS][SLOT];
};

static inline void task_start(task *it, void *(*run)(void *), void *of) { pthread_create(it, NULL, run, of); }
static inline void task_join(task it) { pthread_join(it, NULL); }
static inline void lock(mutex *it) { pthread_mutex_lock(it); }
static inline void unlock(mutex *it) { pthread_mutex_unlock(it); }

static inline long long milliseconds(void)
{
    struct timespec now;
    clock_gettime(CLOCK_MONOTONIC, &now);
    return now.tv_sec * 1000LL + now.tv_nsec / 1000000;
}

static inline void flags_set(struct flags *flags, uint64_t set)
{
    pthread_mutex_lock(&flags->lock);
    flags->set |= set;
    pthread_cond_broadcast(&flags->changed);
    pthread_mutex_unlock(&flags->lock);
}

/* Waits until the flag is set, and clears it. */
static inline void flags_wait(struct flags *flags, uint64_t flag)
{
    pthread_mutex_lock(&flags->lock);
    while ((flags->set & flag) == 0)
        pthread_cond_wait(&flags->changed, &flags->lock);
    flags->set &= ~flag;
    pthread_mutex_unlock(&flags->lock);
}

static inline void queue_make(struct queue *queue)
{
    pthread_condattr_t by_clock;
    pthread_condattr_init(&by_clock);
    pthread_condattr_setclock(&by_clock, CLOCK_MONOTONIC);
    pthread_mutex_init(&queue->lock, NULL);
    pthread_cond_init(&queue->changed, &by_clock);
}

/* A packet for the queue; if that is full it's lost. An RTOS has a form of this for interrupts. */
static inline void queue_put(struct queue *queue, const uint8_t *packet, int len)
{
    pthread_mutex_lock(&queue->lock);
    if (queue->count < SLOTS) {
        unsigned slot = (queue->first + queue->count++) % SLOTS;
        memcpy(queue->packets[slot], packet, (size_t)len);
        queue->lens[slot] = len;
    }
    pthread_cond_signal(&queue->changed);
    pthread_mutex_unlock(&queue->lock);
}

/* Takes the oldest packet, and returns its length: 0 if none came until this time. */
static inline int queue_take(struct queue *queue, uint8_t *packet, long long until)
{
    struct timespec end = {until / 1000, until % 1000 * 1000000};
    int len = 0;
    pthread_mutex_lock(&queue->lock);
    while (queue->count == 0 && pthread_cond_timedwait(&queue->changed, &queue->lock, &end) == 0)
        ;
    if (queue->count > 0) {
        len = queue->lens[queue->first];
        memcpy(packet, queue->packets[queue->first], (size_t)len);
        queue->first = (queue->first + 1) % SLOTS;
        queue->count--;
    }
    pthread_mutex_unlock(&queue->lock);
    return len;
}
#endif
