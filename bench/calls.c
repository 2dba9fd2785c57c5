// Loading, opening, flip and counts on each plan file named: the proved calls beside the plain ones, with all their
// checks, in one run:
//     calls ROUNDS PLAN...     the best of so many rounds
#include "plain.h"
#include "../include/planner.h"

#include <stdio.h>
#include <stdlib.h>
#include <string.h>
#include <time.h>

_Static_assert(sizeof(plain_tables) == PLANNER_TABLES_SIZE, "the plain tables are laid out alike");
_Static_assert(sizeof(plain_terms) == PLANNER_TERMS_SIZE, "the plain terms are laid out alike");
_Static_assert(sizeof(plain_tallies) == PLANNER_TALLIES_SIZE, "the plain tallies are laid out alike");

enum { OPEN, FLIP, COUNTS, LOAD, CALLS, TIMES = 200 };
static const char *const names_of_calls[CALLS] = {"open", "flip", "counts", "load"};

static planner_plan plan;
static planner_state state;
static plain_tables tables;
static plain_terms terms;
static plain_tallies tallies;
static uint8_t assignment[PLANNER_ASSIGNMENT_SIZE], file[PLANNER_INPUT_SIZE];
static size_t length;
static volatile uint32_t sink;

static double now(void) {
    struct timespec t;
    clock_gettime(CLOCK_MONOTONIC, &t);
    return (double)t.tv_sec + (double)t.tv_nsec / 1e9;
}

// A flip's answer in one number: no refusal is as large as a number of rules shifted.
static uint32_t flipped(planner_flipped f) { return f.refusal | f.rules << 8; }
static uint32_t plainly_flipped(plain_flipped f) { return f.refusal | f.rules << 8; }

static void run_proved(int call, uint32_t variable) {
    switch (call) {
    case OPEN: sink = planner_state_open(&state, &plan).refusal; break;
    case FLIP: sink = flipped(planner_state_flip(&state, &plan, variable)); break;
    case COUNTS: sink = planner_state_counts(&state, &plan, variable).break_count; break;
    default: sink = planner_plan_load(&plan, file, length).refusal;
    }
}

static void run_plain(int call, uint32_t variable) {
    switch (call) {
    case OPEN: sink = plain_open(&tables, &terms, assignment, &tallies); break;
    case FLIP: sink = plainly_flipped(plain_flip(&tables, &terms, assignment, &tallies, variable)); break;
    case COUNTS: sink = plain_counts(&tables, &terms, assignment, &tallies, variable).breaks; break;
    default: sink = plain_load(file, length, &tables, &terms).refusal;
    }
}

// Microseconds a call, the best of some rounds.
static double best(int call, int proved, long rounds) {
    double least = 1e9;
    for (long round = 0; round < rounds; round++) {
        double begin = now();
        for (uint32_t i = 1; i <= TIMES; i++) {
            uint32_t variable = i % tables.variables + 1;
            if (proved) {
                run_proved(call, variable);
            } else {
                run_plain(call, variable);
            }
        }
        double taken = (now() - begin) / TIMES * 1e6;
        if (taken < least) least = taken;
    }
    return least;
}

static int same_plan(void) {
    return !memcmp(plan.tables, &tables, sizeof tables) && !memcmp(plan.terms, &terms, sizeof terms);
}

static int same_state(void) {
    return !memcmp(state.tallies, &tallies, sizeof tallies) && !memcmp(state.assignment, assignment, sizeof assignment);
}

static int same_counts(planner_counted p, plain_counted q) {
    return !p.refusal && !q.refusal && p.break_count == q.breaks && p.break_cut == q.break_cut &&
           p.make_count == q.makes && p.make_cut == q.make_cut;
}

// Whether the two load the file alike, and open, count and flip every variable alike.
static int same_answers(void) {
    planner_loaded loaded = planner_plan_load(&plan, file, length);
    plain_loaded plainly = plain_load(file, length, &tables, &terms);
    if (loaded.refusal || plainly.refusal || !same_plan()) return 0;
    for (uint32_t i = 0; i < PLANNER_MOST_VARIABLES; i++) {
        assignment[i] = (uint8_t)(i * 2654435761u >> 31);
        state.assignment[i] = assignment[i];
    }
    run_proved(OPEN, 0);
    run_plain(OPEN, 0);
    for (uint32_t variable = 1; variable <= tables.variables; variable++) {
        planner_counted p = planner_state_counts(&state, &plan, variable);
        plain_counted q = plain_counts(&tables, &terms, assignment, &tallies, variable);
        run_proved(FLIP, variable);
        uint32_t answer = sink;
        run_plain(FLIP, variable);
        if (answer != sink || !same_counts(p, q) || !same_state()) return 0;
    }
    return 1;
}

int main(int count, char **names) {
    if (count < 3) {
        printf("usage: calls ROUNDS PLAN...\n");
        return 2;
    }
    long rounds = strtol(names[1], NULL, 10);
    printf("| plan | call | proved, µs | C, µs | ratio |\n|---|---|---|---|---|\n");
    for (int i = 2; i < count; i++) {
        FILE *f = fopen(names[i], "rb");
        length = f ? fread(file, 1, sizeof file, f) : 0;
        if (f) fclose(f);
        if (!same_answers()) {
            printf("the two differ on %s\n", names[i]);
            return 1;
        }
        const char *slash = strrchr(names[i], '/');
        const char *name = slash ? slash + 1 : names[i];
        for (int call = 0; call < CALLS; call++) {
            double c = best(call, 0, rounds), r = best(call, 1, rounds);
            printf("| %.*s | %s | %.1f | %.1f | %.2f |\n", (int)strcspn(name, "."), name, names_of_calls[call], r, c,
                   r / c);
        }
    }
    return 0;
}
