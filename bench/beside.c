// Whole searches by the proved library beside the tuned C program, runs interleaved:
//     beside ROUNDS FOLDER...     folders with a plan.bin and a numbers.bin; the medians of so many rounds
#include "../include/planner.h"
#include "tuned/tuned.h"

#include <stdio.h>
#include <stdlib.h>
#include <string.h>
#include <time.h>

enum { NUMBERS = PLANNER_INPUT_SIZE / 4, MOST_ROUNDS = 99 };

static planner_plan plan;
static planner_state state;
static planner_work work;
static pl_plan tuned_plan;
static uint8_t file[PLANNER_INPUT_SIZE], list[PLANNER_INPUT_SIZE], found[PL_VARS];
static uint32_t numbers[NUMBERS];
static _Alignas(64) unsigned char room[1 << 20];

static double now(void) {
    struct timespec t;
    clock_gettime(CLOCK_MONOTONIC, &t);
    return (double)t.tv_sec + (double)t.tv_nsec / 1e9;
}

static size_t contents(const char *folder, const char *name, uint8_t *bytes) {
    char path[4096];
    snprintf(path, sizeof path, "%s/%s", folder, name);
    FILE *f = fopen(path, "rb");
    size_t length = f ? fread(bytes, 1, PLANNER_INPUT_SIZE, f) : 0;
    if (f) fclose(f);
    return length;
}

static int rising(const void *a, const void *b) {
    double d = *(const double *)a - *(const double *)b;
    return (d > 0) - (d < 0);
}

static double median(double *times, int n) {
    qsort(times, (size_t)n, sizeof *times, rising);
    return times[n / 2];
}

// One plan under one choice: a row of the table. Whether the two agree.
static int compare(const char *name, const char *choice, planner_settings s, size_t length, size_t listed, int rounds) {
    static const char *const endings[] = {"refused", "floor", "ended", "none", "short-found", "short-none"};
    static double proved[MOST_ROUNDS], tuned[MOST_ROUNDS];
    pl_settings t = {s.noise, s.tries, s.flips, s.mode, s.heuristic, s.chance, PL_LOCKS | PL_UNBIASED | PL_CUT | PL_NOVELTY};
    planner_searched p = {0};
    pl_found q = {0};
    int n = 0;
    if (planner_plan_load(&plan, file, length).refusal || pl_load(file, length, &tuned_plan, sizeof tuned_plan, t.features).code)
        return 0;
    for (double begin = now(); n < rounds && n < MOST_ROUNDS && (n == 0 || now() - begin < 10); n++) {
        double start = now();
        p = planner_plan_search(&plan, s, list, 4 * listed, &state, &work);
        double middle = now();
        q = pl_search_fast(&tuned_plan, sizeof tuned_plan, &t, numbers, listed, found, sizeof found, room, sizeof room);
        tuned[n] = now() - middle;
        proved[n] = middle - start;
    }
    double a = median(proved, n), b = median(tuned, n);
    printf("| %s | %s | %s | %zu | %zu | %.2f | %.2f | %.2f |\n", name, choice, endings[p.ending], p.finds, p.flips, a * 1e3,
           b * 1e3, a / b);
    fflush(stdout);
    return !p.refusal && !q.code && p.ending == q.ending + 1 && p.cost == q.cost && p.finds == q.finds && p.flips == q.flips &&
           p.used == q.used && !memcmp(state.assignment, found, planner_plan_variables(&plan));
}

int main(int count, char **names) {
    if (count < 3) {
        printf("usage: beside ROUNDS FOLDER...\n");
        return 2;
    }
    int rounds = (int)strtol(names[1], NULL, 10);
    printf("| plan | choice | ending | finds | flips | proved, ms | tuned C, ms | ratio |\n|---|---|---|---|---|---|---|---|\n");
    for (int i = 2; i < count; i++) {
        const char *slash = strrchr(names[i], '/');
        const char *name = slash ? slash + 1 : names[i];
        size_t length = contents(names[i], "plan.bin", file), listed = contents(names[i], "numbers.bin", list) / 4;
        for (size_t k = 0; k < listed; k++)
            numbers[k] = list[4 * k] | (uint32_t)list[4 * k + 1] << 8 | (uint32_t)list[4 * k + 2] << 16 | (uint32_t)list[4 * k + 3] << 24;
        planner_settings skc = planner_settings_of(500, 20, 2000, PLANNER_LBS);
        planner_settings novelty = planner_novelty_of(500, 20, 2000, PLANNER_LBS, 10);
        if (!compare(name, "SKC", skc, length, listed, rounds) || !compare(name, "Novelty+", novelty, length, listed, rounds)) {
            printf("the two differ on %s\n", name);
            return 1;
        }
    }
    return 0;
}
