// OPB texts: those of each plan file named, and one at the limits of a plan, 500 constraints of 12 terms. How long each
// is, what writing it takes and, where it is within the limits, what reading it takes, each call with its checks.
//     opb ROUNDS PLAN...     the best of so many rounds
#include "../include/planner.h"

#include <stdio.h>
#include <stdlib.h>
#include <string.h>
#include <time.h>

enum { TIMES = 20, ROOM = 1 << 20, CONSTRAINTS = 500, TERMS = 12 };

static uint8_t file[PLANNER_INPUT_SIZE];
static char text[ROOM];
static planner_plan plan, other;

static double now(void) {
    struct timespec t;
    clock_gettime(CLOCK_MONOTONIC, &t);
    return (double)t.tv_sec + (double)t.tv_nsec / 1e9;
}

static size_t contents(const char *name) {
    FILE *f = fopen(name, "rb");
    size_t read = f ? fread(file, 1, sizeof file, f) : 0;
    if (f) fclose(f);
    return read;
}

// The plan of a text at the limits.
static uint32_t at_the_limits(void) {
    size_t at = (size_t)sprintf(text, "* #variable= %d #constraint= %d\n", PLANNER_MOST_VARIABLES, CONSTRAINTS);
    for (int c = 0; c < CONSTRAINTS; c++) {
        for (int t = 0; t < TERMS; t++) {
            at += (size_t)sprintf(text + at, "%+d x%d ", 1000 * (c + 1), c % 40 + 39 * t + 1);
        }
        at += (size_t)sprintf(text + at, ">= %d ;\n", c);
    }
    return planner_plan_read_opb(&plan, (const uint8_t *)text, at).refusal;
}

// The row of the plan that is loaded; whether all went well.
static int row(const char *name, long rounds) {
    planner_written written = {0, 0};
    planner_loaded read = {0, 0};
    double writing = 1e9, reading = 1e9;
    for (long round = 0; round < rounds; round++) {
        double begin = now();
        for (int k = 0; k < TIMES; k++) written = planner_plan_write_opb(&plan, text, sizeof text);
        double middle = now();
        for (int k = 0; k < TIMES; k++) read = planner_plan_read_opb(&other, (const uint8_t *)text, written.length);
        double end = now();
        if (middle - begin < writing) writing = middle - begin;
        if (end - middle < reading) reading = end - middle;
    }
    double bytes = (double)written.length, each = 1e6 / TIMES;
    const char *slash = strrchr(name, '/');
    if (slash) name = slash + 1;
    printf("| %.*s | %zu | ", (int)strcspn(name, "."), name, written.length);
    printf("%.0f | %.1f | ", writing * each, writing * each * 1e3 / bytes);
    if (read.refusal) {
        printf("refused: %u | |\n", (unsigned)read.refusal);
    } else {
        printf("%.0f | %.1f |\n", reading * each, reading * each * 1e3 / bytes);
    }
    return !written.refusal && (!read.refusal || read.refusal == PLANNER_TOO_LARGE);
}

int main(int count, char **names) {
    if (count < 3) {
        printf("usage: opb ROUNDS PLAN...\n");
        return 2;
    }
    long rounds = strtol(names[1], NULL, 10);
    printf("| plan | text, bytes | write, µs | ns a byte | read, µs | ns a byte |\n|---|---|---|---|---|---|\n");
    for (int i = 2; i < count; i++) {
        if (planner_plan_load(&plan, file, contents(names[i])).refusal || !row(names[i], rounds)) return 1;
    }
    return at_the_limits() || !row("at the limits", rounds);
}
