/* The algorithms of lucy_word in plain C, one byte a bit, to compare their time: reads the lines that the part
   `words` of lucy_bench reads, and prints the same answers and the time. */
#include <stdbool.h>
#include <stdint.h>
#include <stdio.h>
#include <stdlib.h>
#include <string.h>
#include <time.h>

enum { STRIDE = 64, MOST_BITS = 1048576 };

/* Bits, and the ones before each stride of them. */
typedef struct {
    bool *bits;
    uint64_t *before;
    uint64_t len, total;
} Counted;

typedef struct {
    Counted prefix, period;
} Word;

static void *room(size_t bytes) {
    void *at = malloc(bytes ? bytes : 1);
    if (!at) exit(1);
    return at;
}

static uint64_t count(const bool *bits, uint64_t len) {
    uint64_t ones = 0;
    for (uint64_t i = 0; i < len; i++) ones += bits[i];
    return ones;
}

static Counted counted(bool *bits, uint64_t len) {
    uint64_t strides = len / STRIDE, ones = 0;
    uint64_t *before = room((strides + 1) * sizeof *before);
    for (uint64_t stride = 0; stride < strides; stride++) {
        before[stride] = ones;
        ones += count(bits + stride * STRIDE, STRIDE);
    }
    before[strides] = ones;
    return (Counted){bits, before, len, ones + count(bits + strides * STRIDE, len % STRIDE)};
}

static uint64_t counted_ones(const Counted *c, uint64_t n) {
    return c->before[n / STRIDE] + count(c->bits + n / STRIDE * STRIDE, n % STRIDE);
}

static uint64_t counted_index(const Counted *c, uint64_t number) {
    if (number == 0) return 0;
    uint64_t low = 0, high = c->len / STRIDE + 1;
    while (low < high) {
        uint64_t middle = low + (high - low) / 2;
        if (c->before[middle] < number) low = middle + 1;
        else high = middle;
    }
    uint64_t at = (low - 1) * STRIDE, missing = number - c->before[low - 1];
    while (missing) missing -= c->bits[at++];
    return at;
}

static bool comes_again(const bool *bits, uint64_t len, uint64_t distance) {
    for (uint64_t i = distance; i < len; i++)
        if (bits[i] != bits[i - distance]) return false;
    return true;
}

/* The word of these bits, which become its own, in shortest form. */
static Word shortest(bool *prefix, uint64_t prefix_len, bool *period, uint64_t len) {
    uint64_t turn = len, at = 0;
    for (uint64_t rest = len, factor = 2; rest > 1;) {
        if (rest % factor) {
            factor++;
            continue;
        }
        rest /= factor;
        if (comes_again(period, len, turn / factor)) turn /= factor;
    }
    while (prefix_len > 0) {
        uint64_t last = at == 0 ? turn - 1 : at - 1;
        if (prefix[prefix_len - 1] != period[last]) break;
        prefix_len--;
        at = last;
    }
    if (at > 0) {
        bool *turned = room(turn);
        memcpy(turned, period + at, turn - at);
        memcpy(turned + turn - at, period, at);
        free(period);
        period = turned;
    }
    return (Word){counted(prefix, prefix_len), counted(period, turn)};
}

static bool from_bits(const bool *period, uint64_t len, Word *made) {
    if (len > MOST_BITS || !memchr(period, 1, len)) return false;
    bool *own = room(len);
    memcpy(own, period, len);
    *made = shortest(room(0), 0, own, len);
    return true;
}

static void drop(Word *w) {
    free(w->prefix.bits), free(w->prefix.before), free(w->period.bits), free(w->period.before);
}

static uint64_t ones(const Word *w, uint64_t i) {
    if (i <= w->prefix.len) return counted_ones(&w->prefix, i);
    uint64_t past = i - w->prefix.len;
    return w->prefix.total + past / w->period.len * w->period.total + counted_ones(&w->period, past % w->period.len);
}

static uint64_t index_of(const Word *w, uint64_t number) {
    if (number <= w->prefix.total) return counted_index(&w->prefix, number);
    uint64_t past = number - w->prefix.total - 1;
    return w->prefix.len + past / w->period.total * w->period.len + counted_index(&w->period, past % w->period.total + 1);
}

static uint64_t gcd(uint64_t a, uint64_t b) {
    while (b) {
        uint64_t rest = a % b;
        a = b;
        b = rest;
    }
    return a;
}

/* One word walked along. */
typedef struct {
    const bool *at, *end;
    const Counted *period;
} Walk;

static Walk walk(const Word *w) {
    return (Walk){w->prefix.bits, w->prefix.bits + w->prefix.len, &w->period};
}

static bool step(Walk *w) {
    if (w->at == w->end) {
        w->at = w->period->bits;
        w->end = w->at + w->period->len;
    }
    return *w->at++;
}

static bool *sampled(Walk *kept, Walk *read, uint64_t len) {
    bool *bits = room(len);
    for (uint64_t i = 0; i < len; i++) bits[i] = step(kept) && step(read);
    return bits;
}

static bool on(const Word *a, const Word *b, Word *made) {
    uint64_t prefix = a->prefix.len, last = index_of(a, b->prefix.len);
    uint64_t period = b->period.len / gcd(a->period.total, b->period.len) * a->period.len;
    if (prefix < last) prefix = last;
    if (prefix > MOST_BITS || period > MOST_BITS - prefix) return false;
    Walk kept = walk(a), read = walk(b);
    bool *first = sampled(&kept, &read, prefix);
    *made = shortest(first, prefix, sampled(&kept, &read, period), period);
    return true;
}

static uint64_t sum_of(const Word *w) {
    uint64_t sum = 0;
    for (uint64_t i = 0; i < w->prefix.len; i++) sum = sum * 31 + w->prefix.bits[i];
    for (uint64_t i = 0; i < w->period.len; i++) sum = sum * 31 + w->period.bits[i];
    return sum;
}

static uint32_t next(uint32_t number) { return number * 1664525u + 1013904223u; }

static bool scattered_bit(uint32_t place) {
    uint32_t mixed = (place + 1) * 2654435761u;
    return (mixed ^ mixed >> 15) * 2246822519u >> 31;
}

static bool *bits_of(uint32_t len, uint32_t turn, bool sparse) {
    bool *bits = room(len);
    for (uint32_t i = 0; i < len; i++) bits[i] = sparse ? i % turn == turn - 1 : scattered_bit(i % turn);
    return bits;
}

static uint64_t now(void) {
    struct timespec time;
    clock_gettime(CLOCK_MONOTONIC, &time);
    return (uint64_t)time.tv_sec * 1000000000 + (uint64_t)time.tv_nsec;
}

int main(void) {
    char kind[16];
    uint32_t len, turn, rounds;
    while (scanf("%15s %u %u %u", kind, &len, &turn, &rounds) == 4) {
        bool is_on = !strcmp(kind, "on"), is_ones = !strcmp(kind, "ones"), counts = is_ones || !strcmp(kind, "index");
        bool made = true;
        bool *bits = bits_of(len, is_on ? len : turn, !strcmp(kind, "sparse"));
        Word word, a, b;
        if (is_on && (!from_bits(bits, len, &a) || !from_bits(bits_of(turn, turn, false), turn, &b))) return 1;
        if (counts && !from_bits(bits, len, &word)) return 1;
        uint64_t sum = 0, start = now();
        if (counts) {
            uint32_t number = 0;
            for (uint32_t i = 0; i < rounds; i++) {
                number = next(number);
                sum += is_ones ? ones(&word, number) : index_of(&word, number);
            }
        } else {
            for (uint32_t i = 0; i < rounds && made; i++) {
                if (i > 0) drop(&word);
                made = is_on ? on(&a, &b, &word) : from_bits(bits, len, &word);
            }
        }
        uint64_t time = now() - start;
        if (counts) printf("sum %llu\n", (unsigned long long)sum);
        else if (!made) printf("no word\n");
        else printf("%llu and %llu bits, sum %llu\n", (unsigned long long)word.prefix.len,
                    (unsigned long long)word.period.len, (unsigned long long)sum_of(&word));
        printf("%llu nanoseconds\n", (unsigned long long)time);
    }
}
