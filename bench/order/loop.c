/* The verdict on two words by a walk over the longer prefix and one common period, instant by instant. */
#include <stdio.h>
#include <string.h>

struct word {
  const char *prefix, *period;
  unsigned long prefix_len, period_len, ones;
};

struct walk {
  const char *at, *end;
};

static unsigned long gcd(unsigned long a, unsigned long b) { return b ? gcd(b, a % b) : a; }

static struct word read_word(char *text) {
  struct word w;
  char *open = strchr(text, '('), *close = strchr(text, ')');
  w.prefix = text;
  w.prefix_len = open - text;
  w.period = open + 1;
  w.period_len = close - open - 1;
  w.ones = 0;
  for (unsigned long i = 0; i < w.period_len; i++) w.ones += w.period[i] == '1';
  return w;
}

static int step(struct walk *walk, const struct word *w) {
  if (walk->at == walk->end) {
    walk->at = w->period;
    walk->end = w->period + w->period_len;
  }
  return *walk->at++ == '1';
}

int main(void) {
  static char text[2][16384];
  if (scanf("%16383s %16383s", text[0], text[1]) != 2) return 1;
  struct word a = read_word(text[0]), b = read_word(text[1]);
  if (a.ones * b.period_len != b.ones * a.period_len) {
    puts("unequal rates");
    return 0;
  }
  struct walk walk_a = {a.prefix, a.prefix + a.prefix_len}, walk_b = {b.prefix, b.prefix + b.prefix_len};
  unsigned long longer = a.prefix_len > b.prefix_len ? a.prefix_len : b.prefix_len;
  unsigned long horizon = longer + a.period_len / gcd(a.period_len, b.period_len) * b.period_len;
  unsigned long lead = 0, most = 0;
  for (unsigned long i = 0; i < horizon; i++) {
    lead += step(&walk_a, &a);
    int taken = step(&walk_b, &b);
    if (lead < (unsigned long)taken) {
      printf("late at %lu\n", i + 1);
      return 0;
    }
    lead -= taken;
    if (lead > most) most = lead;
  }
  printf("adaptable size %lu\n", most);
  return 0;
}
