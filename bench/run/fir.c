// A filter of three taps over lines `x VALUE`: prints a line `o VALUE` for each.
#include <inttypes.h>
#include <stdio.h>

int main(void) {
  static char in[1 << 16], out[1 << 16];
  setvbuf(stdin, in, _IOFBF, sizeof in);
  setvbuf(stdout, out, _IOFBF, sizeof out);
  int64_t before = 0, last = 0, now;
  while (scanf("x %" SCNd64 "\n", &now) == 1) {
    int64_t sum = (int64_t)((uint64_t)now + 2 * (uint64_t)last + (uint64_t)before);
    printf("o %" PRId64 "\n", sum / 4);
    before = last;
    last = now;
  }
  return 0;
}
