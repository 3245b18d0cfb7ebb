/* Prints the items of an input again, a line each, as `lucy_bench lines` does: numbers of the stream `x`, with reads and writes
   of 64 KiB. A line that is none of these ends it. */
#include <stdbool.h>
#include <stdint.h>
#include <stdlib.h>
#include <string.h>
#include <unistd.h>

enum { PIECE = 65536 };

static char in[2 * PIECE], out[PIECE];
static size_t start, end, used;

static void write_out(void) {
  for (size_t done = 0; done < used;) {
    ssize_t n = write(1, out + done, used - done);
    if (n <= 0) exit(1);
    done += (size_t)n;
  }
  used = 0;
}

/* One more piece behind what is left; false at the end. */
static bool more(void) {
  memmove(in, in + start, end - start);
  end -= start;
  start = 0;
  ssize_t n = read(0, in + end, PIECE);
  if (n < 0) exit(1);
  end += (size_t)n;
  return n > 0;
}

static const char *blanks(const char *p, const char *stop) {
  while (p < stop && (*p == ' ' || *p == '\t')) p++;
  return p;
}

static const char *field(const char *p, const char *stop) {
  while (p < stop && *p != ' ' && *p != '\t') p++;
  return p;
}

static int64_t number(const char *p, const char *stop) {
  bool minus = p < stop && *p == '-';
  p += minus;
  if (p == stop) exit(1);
  uint64_t n = 0;
  for (; p < stop; p++) {
    if (*p < '0' || *p > '9' || n > UINT64_MAX / 10 - 1) exit(1);
    n = 10 * n + (uint64_t)(*p - '0');
  }
  if (n > (uint64_t)INT64_MAX + minus) exit(1);
  return minus ? (int64_t)-n : (int64_t)n;
}

static void print(int64_t value) {
  char text[24];
  char *p = text + sizeof text;
  uint64_t n = value < 0 ? -(uint64_t)value : (uint64_t)value;
  *--p = '\n';
  do *--p = (char)('0' + n % 10); while (n /= 10);
  if (value < 0) *--p = '-';
  *--p = ' ';
  *--p = 'x';
  size_t length = (size_t)(text + sizeof text - p);
  if (used + length > PIECE) write_out();
  memcpy(out + used, p, length);
  used += length;
}

static void line(const char *p, const char *stop) {
  if (p < stop && stop[-1] == '\r') stop--;
  const char *name = blanks(p, stop), *behind = field(name, stop);
  if (name == stop) return;
  const char *value = blanks(behind, stop), *last = field(value, stop);
  if (behind - name != 1 || *name != 'x' || blanks(last, stop) != stop) exit(1);
  print(number(value, last));
}

int main(void) {
  for (;;) {
    char *feed = memchr(in + start, '\n', end - start);
    if (feed) {
      line(in + start, feed);
      start = (size_t)(feed - in) + 1;
    } else if (end - start > 4096 || !more()) {
      if (start < end) line(in + start, in + end);
      write_out();
      return 0;
    }
  }
}
