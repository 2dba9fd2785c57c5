// One binomial and one difference, cut above the cap: the proved functions beside the same in C, in one run:
//     counting ROUNDS     the best of so many rounds
#include <stdbool.h>
#include <stdint.h>
#include <stdio.h>
#include <stdlib.h>
#include <time.h>

typedef struct {
    uint32_t value, cut;
} marked;

marked probe_binomial(uint64_t m, uint64_t k);
marked probe_difference(uint32_t m, uint32_t w, uint64_t k);

#define CAP 4294967295u

// A count is kept in 64 bits: exact up to the cap, and one above it where it is cut.
#define CUT ((uint64_t)CAP + 1)

static marked given(uint64_t kept) {
    if (kept == CUT) return (marked){CAP, 1};
    return (marked){(uint32_t)kept, 0};
}

// Straightforward: from the nearer end of the row, stopping above the cap.
static uint64_t __attribute__((noinline)) plain_binomial(uint64_t m, uint64_t k) {
    if (k > m) return 0;
    if (m - k < k) k = m - k;
    uint64_t entry = 1;
    for (uint64_t i = 0; i < k; i++) {
        entry = entry * (m - i) / (i + 1);
        if (entry > CAP) return CUT;
    }
    return entry;
}

// Both binomials exactly, by 128 bits, where the entry behind the difference is not cut.
static uint64_t __attribute__((noinline)) plain_difference(uint32_t m, uint32_t w, uint64_t k) {
    uint64_t top = (uint64_t)m + w;
    if (k == 0 || w == 0 || top < k) return 0;
    uint64_t gain = plain_binomial(top - 1, k - 1);
    if (gain == CUT) return CUT;
    uint64_t above = (uint64_t)((unsigned __int128)gain * top / k);
    uint64_t below = m < k ? 0 : (uint64_t)((unsigned __int128)plain_binomial(m - 1, k - 1) * m / k);
    return above - below > CAP ? CUT : above - below;
}

static uint64_t state = 88172645463325252u;
static uint64_t draw(void) {
    state ^= state << 13;
    state ^= state >> 7;
    state ^= state << 17;
    return state;
}

static double now(void) {
    struct timespec t;
    clock_gettime(CLOCK_MONOTONIC, &t);
    return t.tv_sec + t.tv_nsec / 1e9;
}

enum { CASES = 4096, TIMES = 600 };
static uint32_t ms[CASES], ws[CASES];
static uint64_t ks[CASES];
static volatile uint32_t sink;

static marked one(bool proved, bool difference, int i) {
    if (difference) {
        return proved ? probe_difference(ms[i], ws[i], ks[i]) : given(plain_difference(ms[i], ws[i], ks[i]));
    }
    return proved ? probe_binomial(ms[i], ks[i]) : given(plain_binomial(ms[i], ks[i]));
}

static bool same(bool difference, int i) {
    marked proved = one(true, difference, i), plain = one(false, difference, i);
    return proved.value == plain.value && proved.cut == plain.cut;
}

// Nanoseconds a call, the best of some rounds.
static double best(bool proved, bool difference, long rounds) {
    double least = 1e9;
    for (long round = 0; round < rounds; round++) {
        double begin = now();
        uint32_t sum = 0;
        for (int time = 0; time < TIMES; time++) {
            for (int i = 0; i < CASES; i++) {
                marked count = one(proved, difference, i);
                sum += count.value + count.cut;
            }
        }
        double taken = now() - begin;
        sink = sum;
        if (taken < least) least = taken;
    }
    return least / TIMES / CASES * 1e9;
}

// Whether the two agree on every case; if so, what each takes.
static bool compare(const char *what, uint32_t most, uint32_t weight, uint64_t choice, long rounds) {
    for (int i = 0; i < CASES; i++) {
        ms[i] = (uint32_t)(draw() % most);
        ws[i] = (uint32_t)(1 + draw() % weight);
        ks[i] = draw() % choice;
        if (!same(false, i) || !same(true, i)) {
            printf("the two differ at %u %u %lu\n", ms[i], ws[i], (unsigned long)ks[i]);
            return false;
        }
    }
    for (int difference = 0; difference < 2; difference++) {
        double c = best(false, difference, rounds), r = best(true, difference, rounds);
        printf("| %s, %s | %.1f | %.1f | %.2f |\n", difference ? "difference" : "binomial", what, r, c, r / c);
    }
    return true;
}

int main(int count, char **words) {
    long rounds = count > 1 ? strtol(words[1], NULL, 10) : 7;
    printf("| counts | proved, ns | C, ns | ratio |\n|---|---|---|---|\n");
    bool alike = compare("rows to 34", 35, 6, 36, rounds) && compare("rows to 4,000, k to 12", 4000, 300, 12, rounds) &&
                 compare("the largest rows", 511000000, 1000000, 20, rounds);
    return alike ? 0 : 1;
}
