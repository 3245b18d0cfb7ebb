/* The verdict on two words by the classes of the greatest common divisor of their periods, with arrays of counts. */
#include <stdio.h>
#include <stdlib.h>
#include <string.h>

struct word {
  const char *prefix, *period;
  long prefix_len, period_len, ones;
};

struct walk {
  const char *at, *end;
};

static long gcd(long a, long b) { return b ? gcd(b, a % b) : a; }

static struct word read_word(char *text) {
  struct word w;
  char *open = strchr(text, '('), *close = strchr(text, ')');
  w.prefix = text;
  w.prefix_len = open - text;
  w.period = open + 1;
  w.period_len = close - open - 1;
  w.ones = 0;
  for (long i = 0; i < w.period_len; i++) w.ones += w.period[i] == '1';
  return w;
}

static struct walk walk_of(const struct word *w) { return (struct walk){w->prefix, w->prefix + w->prefix_len}; }

static int step(struct walk *walk, const struct word *w) {
  if (walk->at == walk->end) {
    walk->at = w->period;
    walk->end = w->period + w->period_len;
  }
  return *walk->at++ == '1';
}

/* The counts at instants 0 to the last. */
static long *counts(const struct word *w, long last) {
  long *at = malloc((last + 1) * sizeof *at);
  struct walk walk = walk_of(w);
  at[0] = 0;
  for (long i = 0; i < last; i++) at[i + 1] = at[i] + step(&walk, w);
  return at;
}

/* Of each class the least and the greatest count, less what comes with each divisor's length. */
static void extremes(const long *at, long start, long len, long divisor, long gain, long *least, long *greatest) {
  for (long c = 0; c < divisor; c++) least[c] = greatest[c] = at[start + c];
  for (long i = divisor, c = 0, taken = gain; i < len; i++) {
    long level = at[start + i] - taken;
    if (level < least[c]) least[c] = level;
    if (level > greatest[c]) greatest[c] = level;
    if (++c == divisor) c = 0, taken += gain;
  }
}

int main(void) {
  static char text[2][16384];
  if (scanf("%16383s %16383s", text[0], text[1]) != 2) return 1;
  struct word a = read_word(text[0]), b = read_word(text[1]);
  if (a.ones * b.period_len != b.ones * a.period_len) {
    puts("unequal rates");
    return 0;
  }
  long start = a.prefix_len > b.prefix_len ? a.prefix_len : b.prefix_len;
  long divisor = gcd(a.period_len, b.period_len), gain = a.ones / (a.period_len / divisor);
  long *at_a = counts(&a, start + a.period_len), *at_b = counts(&b, start + b.period_len);
  long *least_a = malloc(divisor * sizeof(long)), *greatest_a = malloc(divisor * sizeof(long));
  long *least_b = malloc(divisor * sizeof(long)), *greatest_b = malloc(divisor * sizeof(long));
  extremes(at_a, start, a.period_len, divisor, gain, least_a, greatest_a);
  extremes(at_b, start, b.period_len, divisor, gain, least_b, greatest_b);
  long least = 0, most = 0;
  for (long i = 0; i <= start; i++) {
    if (at_a[i] - at_b[i] < least) least = at_a[i] - at_b[i];
    if (at_a[i] - at_b[i] > most) most = at_a[i] - at_b[i];
  }
  for (long c = 0; c < divisor; c++) {
    if (least_a[c] - greatest_b[c] < least) least = least_a[c] - greatest_b[c];
    if (greatest_a[c] - least_b[c] > most) most = greatest_a[c] - least_b[c];
  }
  if (least < 0) {
    struct walk walk_a = walk_of(&a), walk_b = walk_of(&b);
    long lead = 0, at = 0;
    for (; lead >= 0; at++) {
      lead += step(&walk_a, &a);
      lead -= step(&walk_b, &b);
    }
    printf("late at %ld\n", at);
    return 0;
  }
  printf("adaptable size %ld\n", most);
  return 0;
}
