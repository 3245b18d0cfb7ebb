// collide COUNT [plain]: prints so many names of eight letters that a hash table of the kit puts into one place, with its `FoldHasher`, whose
// seed is fixed, or with a plain `DefaultHasher` (SipHash-1-3 with both keys 0): the hashes agree in the 12 bits that choose a group among
// 4,096, and in the 7 bits from 25 on, which make the tag, or of the slower hasher in the last three of them.
#include <stdint.h>
#include <stdio.h>
#include <stdlib.h>
#include <string.h>

static const uint64_t multiplier = 0x9e3779b97f4a7c15u;

static uint64_t folded(uint64_t a, uint64_t b) {
    unsigned __int128 product = (unsigned __int128)a * b;
    return (uint64_t)product ^ (uint64_t)(product >> 64);
}

// A byte moves the state of the hasher, which reads it three times.
static uint64_t moved(uint64_t state, char letter) { return folded(state ^ (uint64_t)letter * 0x10101, multiplier ^ 2); }

struct sip {
    uint64_t v0, v1, v2, v3;
};

static uint64_t turned(uint64_t x, int by) { return x << by | x >> (64 - by); }

static struct sip mixed(struct sip s) {
    s.v0 += s.v1;
    s.v2 += s.v3;
    s.v1 = turned(s.v1, 13) ^ s.v0;
    s.v3 = turned(s.v3, 16) ^ s.v2;
    s.v0 = turned(s.v0, 32);
    s.v2 += s.v1;
    s.v0 += s.v3;
    s.v1 = turned(s.v1, 17) ^ s.v2;
    s.v3 = turned(s.v3, 21) ^ s.v0;
    s.v2 = turned(s.v2, 32);
    return s;
}

static struct sip written(struct sip s, uint64_t word) {
    s.v3 ^= word;
    s = mixed(s);
    s.v0 ^= word;
    return s;
}

// The length comes first, in eight bytes, then the letters; behind them the number of bytes.
static uint64_t sip_hash(const char *name) {
    uint64_t letters;
    memcpy(&letters, name, 8);
    struct sip s = {0x736f6d6570736575u, 0x646f72616e646f6du, 0x6c7967656e657261u, 0x7465646279746573u};
    s = written(written(written(s, 8), letters), (uint64_t)16 << 56);
    s.v2 ^= 0xff;
    s = mixed(mixed(mixed(s)));
    return s.v0 ^ s.v1 ^ s.v2 ^ s.v3;
}

// Prints the names that begin so, and are to have so many letters more, until none is wanted.
static void extend(char *name, int length, uint64_t state, int plain, long *wanted) {
    if (length == 8) {
        uint64_t whole = plain ? sip_hash(name) : state;
        uint32_t hash = (uint32_t)(whole ^ whole >> 32);
        if (*wanted > 0 && (hash & (plain ? 0xe0000fff : 0xfe000fff)) == 0) {
            puts(name);
            --*wanted;
        }
        return;
    }
    for (char letter = 'a'; letter <= 'z' && *wanted > 0; letter++) {
        name[length] = letter;
        extend(name, length + 1, plain ? 0 : moved(state, letter), plain, wanted);
    }
}

int main(int count, char **words) {
    long wanted = count > 1 ? atol(words[1]) : 20000;
    char name[9] = "";
    // The length comes first, in eight bytes.
    extend(name, 0, folded(0x243f6a8885a308d3u ^ 8, multiplier ^ 16), count > 2, &wanted);
}
