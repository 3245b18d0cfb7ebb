/* Times numbers through a plain ring for one producer and one consumer whose steps on the two positions are sequentially
   consistent: `plain WAY COUNT` prints their sum and the nanoseconds that they took. The ways are those of
   `lucy_bench ring`; `meet` is 64 at a time, since a plain ring has no meetings. */
#include <pthread.h>
#include <stdatomic.h>
#include <stdbool.h>
#include <stdint.h>
#include <stdio.h>
#include <stdlib.h>
#include <string.h>
#include <time.h>

enum { CAPACITY = 1024, BLOCK = 64 };

/* Positions count from the first item on. Each end has its own position and the last that it saw of the other's. */
static struct {
  _Alignas(128) _Atomic uint64_t head;
  _Alignas(128) _Atomic uint64_t tail;
  _Alignas(128) uint64_t pushed, seen_head;
  _Alignas(128) uint64_t popped, seen_tail;
  _Alignas(128) int64_t slots[CAPACITY];
} ring;

static bool push(int64_t item) {
  if (ring.pushed - ring.seen_head == CAPACITY) {
    ring.seen_head = atomic_load(&ring.head);
    if (ring.pushed - ring.seen_head == CAPACITY) return false;
  }
  ring.slots[ring.pushed % CAPACITY] = item;
  atomic_store(&ring.tail, ++ring.pushed);
  return true;
}

static bool pop(int64_t *item) {
  if (ring.popped == ring.seen_tail) {
    ring.seen_tail = atomic_load(&ring.tail);
    if (ring.popped == ring.seen_tail) return false;
  }
  *item = ring.slots[ring.popped % CAPACITY];
  atomic_store(&ring.head, ++ring.popped);
  return true;
}

static uint64_t alone(uint64_t count, uint64_t block) {
  uint64_t sum = 0;
  int64_t item;
  for (uint64_t i = 0; i < count; i += block) {
    for (uint64_t j = 0; j < block; j++) push((int64_t)(i + j));
    for (uint64_t j = 0; j < block; j++)
      if (pop(&item)) sum += (uint64_t)item;
  }
  return sum;
}

static void *push_all(void *count) {
  for (uint64_t i = 0; i < *(uint64_t *)count;) i += push((int64_t)i);
  return NULL;
}

static uint64_t apart(uint64_t count) {
  pthread_t pusher;
  uint64_t sum = 0;
  int64_t item;
  if (pthread_create(&pusher, NULL, push_all, &count)) exit(1);
  for (uint64_t took = 0; took < count;)
    if (pop(&item)) {
      sum += (uint64_t)item;
      took++;
    }
  pthread_join(pusher, NULL);
  return sum;
}

static uint64_t now(void) {
  struct timespec time;
  clock_gettime(CLOCK_MONOTONIC, &time);
  return (uint64_t)time.tv_sec * 1000000000 + (uint64_t)time.tv_nsec;
}

int main(int words, char **word) {
  if (words != 3) return 1;
  uint64_t count = strtoull(word[2], NULL, 10), start = now(), sum = 0;
  if (!strcmp(word[1], "alone")) sum = alone(count, 1);
  else if (!strcmp(word[1], "meet")) sum = alone(count / BLOCK * BLOCK, BLOCK);
  else if (!strcmp(word[1], "apart")) sum = apart(count);
  else return 1;
  printf("%llu %llu\n", (unsigned long long)sum, (unsigned long long)(now() - start));
}
