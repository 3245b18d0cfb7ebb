// Writes a system of inequalities of the shape of clock inference: `systems KIND INEQUALITIES`. The first line is the
// number of variables, each further line `left right most`. The kinds are
//   solution         clocks with needs in random order
//   short-cycle      the same with one need more, which no clocks meet
//   long-cycle       a circle of buffers through all clocks, in the order of their flow
//   scattered-cycle  the same in random order
//   chain            variables one above another, listed against their flow
//   wave             one variable far up lifts all others in turn, by constants above 0, in random order
//   hops             the more inequalities lead to a variable, the higher it stands, with constants above 0, in random order
#include <cstdint>
#include <cstdio>
#include <cstdlib>
#include <cstring>
#include <utility>
#include <vector>

struct Diff {
    uint32_t left, right;
    int64_t most;
};

using Need = std::vector<Diff>;

// A fixed sequence, so that each run has the same systems (Knuth's MMIX constants).
static uint64_t state = 20101001;
static uint64_t below(uint64_t n) {
    state = state * 6364136223846793005u + 1442695040888963407u;
    return (state >> 33) % n;
}

// Clocks of one component over a common period. The base has a one in each instant, the others in every second one. The
// positions of each clock are those of two periods.
struct Clocks {
    uint32_t period, others;

    uint32_t ones(uint32_t clock) const { return clock == 0 ? period : period / 2; }
    uint32_t positions(uint32_t clock) const { return 2 * ones(clock); }
    uint32_t variables() const { return 1 + positions(0) + others * positions(1); }
    uint32_t variable(uint32_t clock, uint32_t m) const {
        return clock == 0 ? m : positions(0) + (clock - 1) * positions(1) + m;
    }

    // x <= y for position m of one clock and position k of the other, each folded into its positions.
    Diff at_most(uint32_t x, uint32_t m, uint32_t y, uint32_t k) const {
        int64_t most = 0;
        for (; m > positions(x); m -= ones(x)) most -= period;
        for (; k > positions(y); k -= ones(y)) most += period;
        return {variable(x, m), variable(y, k), most};
    }

    void own(std::vector<Diff>& list, uint32_t clock) const {
        uint32_t last = positions(clock);
        for (uint32_t m = 1; m <= last; m++) {
            if (clock == 0) {
                list.push_back({0, m, -int64_t(m)});
                list.push_back({m, 0, m});
            } else {
                list.push_back({0, variable(clock, m), -1});
            }
        }
        for (uint32_t m = 1; m < last; m++) list.push_back({variable(clock, m), variable(clock, m + 1), -1});
        list.push_back({variable(clock, last), variable(clock, ones(clock) + 1), int64_t(period) - 1});
    }

    // The clock is the base on 0..0(01), with `late` zeros.
    Need written(uint32_t clock, uint32_t late) const {
        Need need;
        for (uint32_t k = 1; k <= positions(clock); k++) {
            need.push_back(at_most(clock, k, 0, late + 2 * k));
            need.push_back(at_most(0, late + 2 * k, clock, k));
        }
        return need;
    }

    // x on 0..0(1), with `skipped` zeros, is adaptable to y, or equal to it.
    Need between(uint32_t x, uint32_t skipped, uint32_t y, bool equal) const {
        Need need;
        for (uint32_t k = 1; k <= positions(x); k++) {
            need.push_back(at_most(x, k + skipped, y, k));
            if (equal) need.push_back(at_most(y, k, x, k + skipped));
        }
        return need;
    }
};

static bool is_ring(const char* kind) { return strcmp(kind, "long-cycle") == 0 || strcmp(kind, "scattered-cycle") == 0; }

static std::vector<Diff> inferred(const Clocks& clocks, uint64_t wanted, const char* kind) {
    std::vector<Diff> list;
    for (uint32_t clock = 0; clock <= clocks.others; clock++) clocks.own(list, clock);
    std::vector<Need> needs;
    std::vector<uint32_t> late(clocks.others + 1);
    uint64_t count = list.size();
    auto add = [&](Need need) {
        count += need.size();
        needs.push_back(need);
    };
    bool ring = is_ring(kind);
    for (uint32_t clock = 1; clock <= clocks.others; clock++) {
        if (ring) {
            if (clock > 1) add(clocks.between(clock - 1, 0, clock, false));
        } else if (clock < 4 || below(8) == 0) {
            late[clock] = below(8);
            add(clocks.written(clock, late[clock]));
        } else {
            uint32_t from = 1 + below(clock - 1);
            bool equal = below(2) == 0;
            uint32_t skipped = !equal && below(16) == 0;
            late[clock] = late[from] + 2 * skipped;
            add(clocks.between(from, skipped, clock, equal));
        }
    }
    if (ring) add(clocks.between(clocks.others, 1, 1, false));
    if (strcmp(kind, "short-cycle") == 0) add(clocks.between(2, 1, 2, false));
    while (count < wanted) {
        uint32_t x = 1 + below(clocks.others), y = 1 + below(clocks.others);
        if (ring ? x > y : late[x] <= late[y]) add(clocks.between(x, 0, y, !ring && late[x] == late[y]));
    }
    bool in_order = strcmp(kind, "long-cycle") == 0;
    for (size_t i = needs.size(); i > 1 && !in_order; i--) std::swap(needs[i - 1], needs[below(i)]);
    for (const Need& need : needs) list.insert(list.end(), need.begin(), need.end());
    return list;
}

static std::vector<Diff> chain(uint32_t links) {
    std::vector<Diff> list;
    for (uint32_t v = 1; v <= links; v++) list.push_back({0, v, -1});
    for (uint32_t v = links - 1; v >= 1; v--) list.push_back({v, v + 1, -1});
    return list;
}

// The variables under numbers in random order, and the inequalities between them too, behind a base of each.
static std::vector<Diff> scattered(std::vector<Diff> list, uint32_t variables) {
    std::vector<uint32_t> number(variables);
    for (uint32_t v = 0; v < variables; v++) number[v] = v;
    for (uint32_t v = variables - 1; v > 1; v--) std::swap(number[v], number[1 + below(v)]);
    for (size_t i = list.size(); i > 1; i--) std::swap(list[i - 1], list[below(i)]);
    std::vector<Diff> all;
    for (uint32_t v = 1; v < variables; v++) all.push_back({0, v, -1});
    for (const Diff& diff : list) all.push_back({number[diff.left], number[diff.right], diff.most});
    return all;
}

static std::vector<Diff> wave(uint32_t variables) {
    std::vector<Diff> list = {{0, 1, -10 * int64_t(variables)}};
    for (uint32_t v = 1; v + 1 < variables; v++) list.push_back({v, v + 1, 1});
    return scattered(list, variables);
}

static std::vector<Diff> hops(uint64_t wanted, uint32_t variables) {
    std::vector<Diff> list = {{0, 1, -6 * int64_t(variables)}};
    for (uint32_t v = 1; v + 1 < variables; v++) list.push_back({v, v + 1, 4});
    while (list.size() + variables - 1 < wanted) {
        uint32_t from = 1 + below(variables - 2), to = from + 1 + below(variables - 1 - from);
        list.push_back({from, to, 5 * int64_t(to - from) - 1});
    }
    return scattered(list, variables);
}

int main(int count, char** words) {
    if (count != 3) return 2;
    uint64_t wanted = strtoull(words[2], nullptr, 10);
    bool large = wanted > 500000, ring = is_ring(words[1]);
    Clocks clocks = ring ? Clocks{large ? 16u : 8u, large ? 4000u : 1600u} : Clocks{large ? 128u : 32u, large ? 500u : 200u};
    uint32_t variables = clocks.variables();
    std::vector<Diff> list;
    if (strcmp(words[1], "chain") == 0) {
        variables = uint32_t(wanted) + 1;
        list = chain(uint32_t(wanted));
    } else if (strcmp(words[1], "wave") == 0) {
        variables = uint32_t(wanted / 2) + 1;
        list = wave(variables);
    } else if (strcmp(words[1], "hops") == 0) {
        variables = large ? 8000 : 1000;
        list = hops(wanted, variables);
    } else {
        list = inferred(clocks, wanted, words[1]);
    }
    printf("%u\n", variables);
    for (const Diff& diff : list) printf("%u %u %lld\n", diff.left, diff.right, (long long)diff.most);
}
