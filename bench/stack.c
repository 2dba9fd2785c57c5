// The deepest that each call goes down the stack, over the plan files named: it runs on a painted stack, and what it
// touched is counted.
//     stack NUMBERS PLAN...
#include "../include/planner.h"

#include <stdio.h>
#include <string.h>
#include <ucontext.h>

enum { SIZE = 1 << 20, PAINT = 0xa5, CALLS = 11, LISTED = 4 * 200 };

static uint8_t file[PLANNER_INPUT_SIZE], numbers[LISTED];
static planner_plan plan;
static planner_state state;
static planner_work work;
static planner_list old;
static planner_scratch scratch;
static size_t length, listed;
static uint32_t refusal;

static void nothing(void) {}
static void load(void) { refusal = planner_plan_load(&plan, file, length).refusal; }
static void open(void) { refusal = planner_state_open(&state, &plan).refusal; }
static void flip(void) { refusal = planner_state_flip(&state, &plan, 1).refusal; }
static void counts(void) { refusal = planner_state_counts(&state, &plan, 1).refusal; }
static void search(void) {
    planner_settings settings = planner_settings_of(500, 10, 1000, PLANNER_LBS);
    refusal = planner_plan_search(&plan, settings, numbers, listed, &state, &work).refusal;
}
static void runs(void) {
    planner_settings settings = planner_settings_of(500, 10, 1000, PLANNER_LBS);
    planner_xorwow from = {1, 2, 3, 4, 5, 6};
    refusal = planner_plan_runs(&plan, settings, from, 2, 100, &scratch, &work).refusal;
}
/* The call itself: what its inline function holds for 8 races would be counted with it. */
static void races(void) {
    static size_t race[3] = {1, 0, 0};
    static uint32_t settings[8][6] = {{500, 10, 1000, PLANNER_LBS, PLANNER_SKC, 0}};
    static uint8_t assignments[8][PLANNER_ASSIGNMENT_SIZE];
    static planner_searched answers[8];
#define NONE NULL, 0, NULL, 0
    refusal = planner_races(race, 3, numbers, listed, (const uint8_t *)settings, sizeof settings,
                            PLANNER_LEND(plan.tables), PLANNER_LEND(plan.terms), NONE, NONE, NONE, NONE, NONE, NONE,
                            NONE, assignments[0], sizeof assignments, (uint8_t *)answers, sizeof answers,
                            PLANNER_LEND(work.tables), PLANNER_LEND(work.terms), PLANNER_LEND(work.assignment),
                            PLANNER_LEND(work.tallies), PLANNER_LEND(work.marks));
#undef NONE
    if (!refusal) refusal = answers[0].refusal;
}
static void write(void) {
    static char text[SIZE];
    refusal = planner_plan_write_opb(&plan, text, sizeof text).refusal;
}
/* A text of its own: those of the plans may pass the limits. */
static void read(void) {
    static const char text[] = "* #variable= 3 #constraint= 2\nmin: +1 x1 -2 x3 ;\n+1 x1 +1 x2 >= 1 ;\n-1 x2 = -1 ;\n";
    static planner_plan other;
    refusal = planner_plan_read_opb(&other, (const uint8_t *)text, sizeof text - 1).refusal;
}
static void squeeze(void) { refusal = planner_file_squeeze(file, length, &old).refusal; }

static size_t touched(void (*call)(void)) {
    static uint8_t stack[SIZE];
    static ucontext_t here, there;
    memset(stack, PAINT, SIZE);
    getcontext(&there);
    there.uc_stack.ss_sp = stack;
    there.uc_stack.ss_size = SIZE;
    there.uc_link = &here;
    makecontext(&there, call, 0);
    swapcontext(&here, &there);
    size_t untouched = 0;
    while (untouched < SIZE && stack[untouched] == PAINT) untouched++;
    return SIZE - untouched;
}

static size_t contents(const char *name, uint8_t *bytes, size_t most) {
    FILE *f = fopen(name, "rb");
    size_t read = f ? fread(bytes, 1, most, f) : 0;
    if (f) fclose(f);
    return read;
}

int main(int count, char **names) {
    void (*calls[CALLS])(void) = {nothing, load, search, runs, races, open, flip, counts, read, write, squeeze};
    const char *called[CALLS] = {"nothing", "load",   "search", "runs",  "races",  "open",
                                 "flip",    "counts", "read",   "write", "squeeze"};
    size_t deepest[CALLS] = {0};
    if (count < 3) {
        printf("usage: stack NUMBERS PLAN...\n");
        return 2;
    }
    listed = contents(names[1], numbers, LISTED);
    for (int i = 2; i < count; i++) {
        length = contents(names[i], file, sizeof file);
        memset(state.assignment, 0, sizeof state.assignment);
        for (int call = 0; call < CALLS; call++) {
            size_t depth = touched(calls[call]);
            if (refusal) {
                printf("%s of %s is refused: %u\n", called[call], names[i], (unsigned)refusal);
                return 1;
            }
            if (depth > deepest[call]) deepest[call] = depth;
        }
    }
    printf("| call | stack, bytes |\n|---|---|\n");
    for (int call = 1; call < CALLS; call++) printf("| %s | %zu |\n", called[call], deepest[call] - deepest[0]);
    return 0;
}
