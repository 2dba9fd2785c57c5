// One search of each plan file named, by the proved library and by the straightforward C program, over the same list of
// numbers:
//     search ROUNDS NUMBERS COUNT PLAN...     the first COUNT numbers; the best of so many rounds; each plan by SKC, then
//                                             by Novelty+
#include "plain.h"
#include "../include/planner.h"

#include <stdio.h>
#include <stdlib.h>
#include <string.h>
#include <time.h>

static planner_plan plan;
static planner_state state;
static planner_work work;
static planner_settings settings;
static plain_tables tables;
static plain_terms terms;
static uint8_t file[PLANNER_INPUT_SIZE], numbers[PLANNER_INPUT_SIZE], assignment[PLANNER_ASSIGNMENT_SIZE];
static size_t listed;

static size_t contents(const char *name, uint8_t *bytes) {
    FILE *f = fopen(name, "rb");
    size_t length = f ? fread(bytes, 1, PLANNER_INPUT_SIZE, f) : 0;
    if (f) fclose(f);
    return length;
}

static double now(void) {
    struct timespec t;
    clock_gettime(CLOCK_MONOTONIC, &t);
    return (double)t.tv_sec + (double)t.tv_nsec / 1e9;
}

static planner_searched proved(void) { return planner_plan_search(&plan, settings, numbers, listed, &state, &work); }

// In the library's terms: its endings begin at 1, after that of a refusal.
static planner_searched plain(void) {
    plain_settings set = {settings.noise, settings.tries,     settings.flips,
                          settings.mode,  settings.heuristic, settings.chance};
    plain_searched r = plain_search(&tables, &terms, set, numbers, listed, assignment);
    return (planner_searched){r.refusal, r.refusal ? 0 : r.ending + 1, r.cost, r.finds, r.flips, r.used};
}

static int same(planner_searched p, planner_searched q) {
    return p.refusal == q.refusal && p.ending == q.ending && p.cost == q.cost && p.finds == q.finds &&
           p.flips == q.flips && p.used == q.used && !memcmp(state.assignment, assignment, sizeof assignment);
}

// Seconds of one search: the best of some, of one alone where it takes long.
static double best(planner_searched (*search)(void), long rounds, planner_searched *answer) {
    double begin = now();
    *answer = search();
    double least = now() - begin;
    for (long round = 1; round < rounds && now() - begin < 2; round++) {
        double start = now();
        *answer = search();
        double taken = now() - start;
        if (taken < least) least = taken;
    }
    return least;
}

int main(int count, char **names) {
    static const char *const endings[] = {"refused", "floor", "ended", "none", "short-found", "short-none"};
    if (count < 5) {
        printf("usage: search ROUNDS NUMBERS COUNT PLAN...\n");
        return 2;
    }
    long rounds = strtol(names[1], NULL, 10);
    size_t most = 4 * strtoul(names[3], NULL, 10);
    const planner_settings choices[] = {planner_settings_of(500, 10, 100000, PLANNER_LBS),
                                        planner_novelty_of(500, 10, 100000, PLANNER_LBS, 10)};
    static const char *const heuristics[] = {"SKC", "Novelty+"};
    listed = contents(names[2], numbers);
    if (most < listed) listed = most;
    printf("| plan | choice | ending | finds | flips | proved, ms | C, ms | proved, µs a flip | C, µs a flip | ratio |\n");
    printf("|---|---|---|---|---|---|---|---|---|---|\n");
    for (int i = 8; i < 2 * count; i++) {
        const char *path = names[i / 2];
        settings = choices[i % 2];
        size_t length = contents(path, file);
        if (planner_plan_load(&plan, file, length).refusal || plain_load(file, length, &tables, &terms).refusal) {
            printf("%s is no plan\n", path);
            return 1;
        }
        memset(state.assignment, 2, sizeof state.assignment);
        memset(assignment, 2, sizeof assignment);
        planner_searched p, q;
        double r = best(proved, rounds, &p), c = best(plain, rounds, &q), flips = p.flips ? (double)p.flips : 1;
        if (!same(p, q)) {
            printf("the two differ on %s\n", path);
            return 1;
        }
        const char *slash = strrchr(path, '/');
        const char *name = slash ? slash + 1 : path;
        printf("| %.*s | %s | %s | %zu | %zu | %.1f | %.1f | %.2f | %.2f | %.2f |\n", (int)strcspn(name, "."), name,
               heuristics[i % 2], endings[p.ending], p.finds, p.flips, r * 1e3, c * 1e3, r / flips * 1e6, c / flips * 1e6, r / c);
        fflush(stdout);
    }
    return 0;
}
