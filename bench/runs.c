// Many runs of each plan file named by one call, and the searches that they are made of by a call each, over the same numbers:
//     runs RUNS COUNT PLAN...     so many runs of so many numbers
// The figures must be those of the searches. Where there are 1,000 runs they may take no more than 1,050 times one
// search, in the middle one of nine measurements.
#include "../include/planner.h"

#include <stdio.h>
#include <stdlib.h>
#include <string.h>
#include <time.h>

static planner_plan plan;
static planner_state state;
static planner_work work;
static planner_scratch scratch;
static uint8_t file[PLANNER_INPUT_SIZE], numbers[PLANNER_INPUT_SIZE];

// Of this process alone, so that another program on the machine does not count.
static double now(void) {
    struct timespec t;
    clock_gettime(CLOCK_PROCESS_CPUTIME_ID, &t);
    return (double)t.tv_sec + (double)t.tv_nsec / 1e9;
}

static size_t contents(const char *name, uint8_t *bytes) {
    FILE *f = fopen(name, "rb");
    size_t length = f ? fread(bytes, 1, PLANNER_INPUT_SIZE, f) : 0;
    if (f) fclose(f);
    return length;
}

static uint32_t draw(planner_xorwow *g) {
    uint32_t t = g->x ^ (g->x >> 2);
    g->x = g->y, g->y = g->z, g->z = g->w, g->w = g->v;
    g->v = (g->v ^ (g->v << 4)) ^ (t ^ (t << 1));
    return (g->counter += 362437) + g->v;
}

static void list(planner_xorwow *g, uint32_t count) {
    for (uint32_t i = 0; i < count; i++) {
        uint32_t number = draw(g);
        for (int byte = 0; byte < 4; byte++) numbers[4 * i + byte] = (uint8_t)(number >> (8 * byte));
    }
}

typedef struct {
    double one, all;
} times;

static int rising(const void *a, const void *b) {
    const times *s = a, *t = b;
    double d = s->all / s->one - t->all / t->one;
    return (d > 0) - (d < 0);
}

// The runs and the searches that they are made of. Whether the figures are those of the searches.
static int measure(uint32_t runs, uint32_t drawn, times *t) {
    planner_settings settings = planner_settings_of(500, 10, 100000, PLANNER_LBS);
    const planner_xorwow from = {123456789, 362436069, 521288629, 88675123, 5783321, 6615241};
    planner_xorwow g = from;
    uint64_t found = 0, flips = 0;
    int64_t cost = 0;
    double searched = 0;
    planner_figures f = {0};
    for (uint32_t run = 0; run < runs; run++) {
        double begin = now();
        /* In the middle of the searches, so that a machine that becomes slower or faster does so for both. */
        if (run == runs / 2) {
            f = planner_plan_runs(&plan, settings, from, runs, drawn, &scratch, &work);
            t->all = now() - begin;
        }
        list(&g, drawn);
        begin = now();
        planner_searched r = planner_plan_search(&plan, settings, numbers, 4 * (size_t)drawn, &state, &work);
        searched += now() - begin;
        found += r.finds > 0, flips += r.flips, cost += r.cost;
    }
    t->one = searched / runs;
    return !f.refusal && f.share_top * runs == found * f.share_bottom && f.flips_top * runs == flips * f.flips_bottom &&
           f.cost_top * (int64_t)found == cost * (int64_t)f.cost_bottom;
}

int main(int count, char **names) {
    if (count < 4) {
        printf("usage: runs RUNS COUNT PLAN...\n");
        return 2;
    }
    uint32_t runs = (uint32_t)strtoul(names[1], NULL, 10), drawn = (uint32_t)strtoul(names[2], NULL, 10);
    printf("| plan | runs | numbers a run | one search, ms | all runs, ms | times one search |\n|---|---|---|---|---|---|\n");
    for (int i = 3; i < count; i++) {
        if (planner_plan_load(&plan, file, contents(names[i], file)).refusal) {
            printf("%s is no plan\n", names[i]);
            return 1;
        }
        /* A search takes milliseconds, and one measurement differs from the next by some percent. */
        times t[9] = {{0}};
        int rounds = runs == 1000 ? 9 : 1;
        for (int round = 0; round < rounds; round++) {
            if (measure(runs, drawn, &t[round])) continue;
            printf("the figures of %s are not those of its searches\n", names[i]);
            return 1;
        }
        qsort(t, (size_t)rounds, sizeof *t, rising);
        times middle = t[rounds / 2];
        const char *slash = strrchr(names[i], '/');
        const char *name = slash ? slash + 1 : names[i];
        printf("| %.*s | %u | %u | %.3f | %.1f | %.0f |\n", (int)strcspn(name, "."), name, (unsigned)runs,
               (unsigned)drawn, middle.one * 1e3, middle.all * 1e3, middle.all / middle.one);
        fflush(stdout);
        if (runs == 1000 && middle.all > 1050 * middle.one) {
            printf("1,000 runs take more than 1,050 times one search\n");
            return 1;
        }
    }
    return 0;
}
