/* Times the events of a net on plain circles: `plain NET WAY INSTANTS` prints the sum of what the output took and the nanoseconds
   that the events took. The net is `sum` (a running sum) or `chain` (thirty names, each before the one that it takes from). The
   way is `static` (in a fixed order) or `picked` (the first event of that order that isn't done). */
#include <stdbool.h>
#include <stdint.h>
#include <stdio.h>
#include <stdlib.h>
#include <string.h>
#include <time.h>

enum kind { INPUT, PASS, FBY, ADD, OUTPUT };
enum { MOST = 64, NAMES = 30 };

/* Of each actor first the takes are done and then the gives, but that a delay gives first. */
static struct actor {
  enum kind kind;
  int takes, take[2], gives, give[2];
  uint64_t fired, done;
  int step;
  int64_t a, b;
} actors[MOST];

static const struct actor sum[] = {
    {INPUT, 0, {0}, 1, {3}, 0, 0, 0, 0, 0},  {PASS, 1, {0}, 1, {4}, 0, 0, 0, 0, 0},
    {PASS, 1, {1}, 2, {2, 5}, 0, 0, 0, 0, 0}, {FBY, 1, {2}, 1, {0}, 0, 0, 0, 0, 0},
    {ADD, 2, {3, 4}, 1, {1}, 0, 0, 0, 0, 0},  {OUTPUT, 1, {5}, 0, {0}, 0, 0, 0, 0, 0},
};

static const int sum_order[] = {0, 3, 1, 1, 4, 4, 4, 2, 2, 2, 3, 5};

static int count, events, order[2 * MOST];

static struct circle {
  int64_t *slots;
  size_t room, first, count;
} circles[MOST];

static int64_t *input, *output;
static uint64_t instants, took;

static int64_t pop(struct circle *c) {
  int64_t item = c->slots[c->first];
  if (++c->first == c->room) c->first = 0;
  c->count--;
  return item;
}

static void push(struct circle *c, int64_t item) {
  size_t place = c->first + c->count++;
  c->slots[place < c->room ? place : place - c->room] = item;
}

/* The ring of an actor's next operation, and whether it takes from it. */
static int next(const struct actor *x, bool *takes) {
  int before = x->kind == FBY ? x->gives : 0;
  *takes = x->step >= before && x->step - before < x->takes;
  return *takes ? x->take[x->step - before] : x->give[x->kind == FBY ? x->step : x->step - x->takes];
}

static void step(int number) {
  struct actor *x = &actors[number];
  bool takes;
  struct circle *c = &circles[next(x, &takes)];
  if (takes) {
    int64_t item = pop(c);
    if (x->kind == OUTPUT) output[took++] = item;
    else if (x->kind == ADD && x->step == 1) x->b = item;
    else x->a = item;
  } else if (x->kind == INPUT) push(c, input[x->fired]);
  else push(c, x->kind == ADD ? (int64_t)((uint64_t)x->a + (uint64_t)x->b) : x->a);
  if (++x->step == x->takes + x->gives) {
    x->step = 0;
    x->fired++;
  }
  x->done++;
}

/* Where the first event that isn't done stands, and how many of each actor stand before it. */
static uint64_t instant, passed[MOST];
static int place;

static int pick(void) {
  while (instant < instants) {
    for (; place < events; place++) {
      int a = order[place];
      if (actors[a].done <= passed[a]) return a;
      passed[a]++;
    }
    place = 0;
    instant++;
  }
  return -1;
}

static void make_sum(void) {
  memcpy(actors, sum, sizeof sum);
  count = 6;
  events = sizeof sum_order / sizeof *sum_order;
  memcpy(order, sum_order, sizeof sum_order);
}

/* The input, the names and the output; the ring of each but the input is its own number less one. */
static void make_chain(void) {
  actors[0] = (struct actor){.kind = INPUT, .gives = 1, .give = {NAMES - 1}};
  for (int a = 1; a <= NAMES; a++)
    actors[a] = (struct actor){.kind = PASS, .takes = 1, .take = {a - 1}, .gives = 1, .give = {a == 1 ? NAMES : a - 2}};
  actors[NAMES + 1] = (struct actor){.kind = OUTPUT, .takes = 1, .take = {NAMES}};
  count = NAMES + 2;
  order[events++] = 0;
  for (int a = NAMES; a > 0; a--) order[events++] = a, order[events++] = a;
  order[events++] = NAMES + 1;
}

static uint64_t now(void) {
  struct timespec time;
  clock_gettime(CLOCK_MONOTONIC, &time);
  return (uint64_t)time.tv_sec * 1000000000 + (uint64_t)time.tv_nsec;
}

int main(int words, char **word) {
  if (words != 4) return 1;
  if (!strcmp(word[1], "sum")) make_sum();
  else make_chain();
  instants = strtoull(word[3], NULL, 10);
  input = malloc((instants + 1) * sizeof *input);
  output = malloc((instants + 1) * sizeof *output);
  for (uint64_t i = 0; i < instants; i++) input[i] = (int64_t)i + 1;
  for (int r = 0; r < count; r++) circles[r] = (struct circle){malloc(sizeof(int64_t)), 1, 0, 0};
  uint64_t start = now(), total = 0;
  if (!strcmp(word[2], "static")) {
    for (uint64_t t = 0; t < instants; t++)
      for (int i = 0; i < events; i++) step(order[i]);
  } else {
    for (int a = pick(); a >= 0; a = pick()) step(a);
  }
  uint64_t time = now() - start;
  for (uint64_t i = 0; i < took; i++) total += (uint64_t)output[i];
  printf("%lld %llu\n", (long long)total, (unsigned long long)time);
}
