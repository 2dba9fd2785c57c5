/* Every inline call of the header on a plan, each struct a block of its own that holds nothing yet, so that valgrind
 * sees a decision that hangs on what a buffer held where it may hold anything, and a read or a write past a struct.
 *
 *     memcheck PLAN NUMBERS COUNT     the search takes the first COUNT numbers
 */
#include "planner.h"

#include <stdio.h>
#include <stdlib.h>
#include <string.h>

static void *block(size_t size) {
    void *bytes = malloc(size);
    if (!bytes) exit(2);
    return bytes;
}

/* A file's first bytes, as a block of exactly their number; NULL with none. */
static uint8_t *contents(const char *name, size_t most, size_t *length) {
    static uint8_t bytes[PLANNER_INPUT_SIZE];
    FILE *f = fopen(name, "rb");
    *length = f ? fread(bytes, 1, most < sizeof bytes ? most : sizeof bytes, f) : 0;
    if (f) fclose(f);
    if (*length == 0) return NULL;
    uint8_t *exact = block(*length);
    memcpy(exact, bytes, *length);
    return exact;
}

static void expect(const char *what, uint32_t refusal) {
    if (refusal == 0) return;
    printf("%s gave %u: %s\n", what, (unsigned)refusal, planner_refusal_text(refusal));
    exit(1);
}

/* Turns a variable over; one that is locked may not be. */
static void flip(planner_state *state, const planner_plan *plan, uint32_t variable) {
    planner_flipped flipped = planner_state_flip(state, plan, variable);
    if (planner_plan_lock(plan, variable) == PLANNER_FREE) {
        expect("flip", flipped.refusal);
        if (flipped.rules > PLANNER_MOST_RULES) exit(1);
    } else if (flipped.refusal != PLANNER_LOCKED || flipped.rules != 0) {
        printf("a flip of locked variable %u gave %u\n", (unsigned)variable, (unsigned)flipped.refusal);
        exit(1);
    }
}

/* Squeezes the plan's file and loads what is left of it: its variables are those that were unlocked, in order. A plan
 * that has every variable locked, or whose locks lose a clause, stays as it is. */
static void squeeze(planner_plan *plan, uint8_t *file, size_t length) {
    planner_list *old = block(sizeof *old);
    planner_squeezed squeezed = planner_file_squeeze(file, length, old);
    uint32_t left = 0;
    if (squeezed.refusal != PLANNER_ALL_LOCKED && squeezed.refusal != PLANNER_CLAUSE_LOST) {
        expect("squeeze", squeezed.refusal);
        for (uint32_t variable = 1; variable <= planner_plan_variables(plan); variable++) {
            if (planner_plan_lock(plan, variable) == PLANNER_FREE && planner_list_old(old, ++left) != variable) exit(1);
        }
        expect("load of what is left", planner_plan_load(plan, file, squeezed.length).refusal);
        if (planner_plan_variables(plan) != left || planner_list_old(old, left + 1) != 0) exit(1);
    }
    free(old);
}

/* Writes the plan as a text into a block of exactly its length, and reads that into a plan that holds nothing yet. What
 * is read without a refusal, written again, takes as many bytes unless a lock's line was among them. */
static void text(const planner_plan *plan) {
    planner_plan *again = block(sizeof *again);
    size_t length = planner_plan_write_opb(plan, NULL, 0).length;
    char *bytes = block(length);
    planner_written written = planner_plan_write_opb(plan, bytes, length);
    expect("write", written.refusal);
    if (written.length != length || bytes[0] != '*' || bytes[length - 1] != '\n') exit(1);
    planner_loaded read = planner_plan_read_opb(again, (const uint8_t *)bytes, length);
    if (read.refusal != PLANNER_TOO_LARGE && read.refusal != PLANNER_WRONG_TERM) {
        expect("read", read.refusal);
        uint32_t locks = 0;
        for (uint32_t x = 1; x <= planner_plan_variables(plan); x++) {
            locks += planner_plan_lock(plan, x) != PLANNER_FREE;
        }
        planner_written second = planner_plan_write_opb(again, NULL, 0);
        if (second.refusal != PLANNER_TEXT_OUTGROWS || (!locks && second.length != length)) exit(1);
    }
    free(bytes);
    free(again);
}

/* A few runs from a state: the share is of the runs, and every byte lent for writing is 0 after them. */
static void runs(const planner_plan *plan, planner_settings settings, planner_work *work) {
    planner_scratch *scratch = block(sizeof *scratch);
    planner_xorwow from = {123456789, 362436069, 521288629, 88675123, 5783321, 6615241};
    planner_figures figures = planner_plan_runs(plan, settings, from, 3, 20, scratch, work);
    expect("runs", figures.refusal);
    if (3 % figures.share_bottom != 0 || figures.share_top > figures.share_bottom) exit(1);
    const uint8_t *written[] = {(const uint8_t *)scratch, (const uint8_t *)work};
    const size_t sizes[] = {sizeof *scratch, sizeof *work};
    for (int i = 0; i < 2; i++) {
        for (size_t at = 0; at < sizes[i]; at++) {
            if (written[i][at] != 0) exit(1);
        }
    }
    free(scratch);
}

/* A festival of two races, of which the second has no plan: it is refused, and the first is as a search of its own. */
static void races(const planner_plan *plan, planner_settings settings, const uint8_t *numbers, size_t listed,
                  planner_work *work) {
    planner_state *states = block(2 * sizeof *states);
    planner_race entered[2] = {{.stake = 3, .plan = plan, .settings = settings, .state = &states[0]},
                               {.stake = 1, .plan = NULL, .settings = settings, .state = &states[1]}};
    expect("races", planner_plan_races(entered, 2, numbers, listed, work));
    expect("a race", entered[0].answer.refusal);
    if (entered[1].answer.refusal != PLANNER_BUFFER_TOO_SMALL) exit(1);
    if (entered[1].first != entered[0].length || entered[0].length + entered[1].length != listed / 4) exit(1);
    planner_searched alone = planner_plan_search(plan, settings, numbers, 4 * entered[0].length, &states[1], work);
    if (alone.ending != entered[0].answer.ending || alone.used != entered[0].answer.used) exit(1);
    if (alone.finds && memcmp(states[0].assignment, states[1].assignment, planner_plan_variables(plan)) != 0) exit(1);
    free(states);
}

int main(int count, char **arguments) {
    if (count != 4) return 2;
    size_t length, listed;
    uint8_t *file = contents(arguments[1], PLANNER_INPUT_SIZE, &length);
    uint8_t *numbers = contents(arguments[2], 4 * strtoul(arguments[3], NULL, 10), &listed);
    planner_plan *plan = block(sizeof *plan);
    planner_state *state = block(sizeof *state);
    planner_work *work = block(sizeof *work);

    expect("load", planner_plan_load(plan, file, length).refusal);
    planner_settings settings = planner_settings_of(500, 10, 1000, PLANNER_LBS);
    planner_searched found = planner_plan_search(plan, settings, numbers, listed, state, work);
    expect("search", found.refusal);
    runs(plan, settings, work);
    races(plan, settings, numbers, listed, work);
    uint32_t variables = planner_plan_variables(plan);
    if (found.finds == 0) memset(state->assignment, 0, variables);
    expect("open", planner_state_open(state, plan).refusal);
    int64_t cost = planner_state_cost(state, plan);
    for (uint32_t variable = 1; variable <= variables; variable++) {
        expect("counts", planner_state_counts(state, plan, variable).refusal);
        flip(state, plan, variable);
    }
    for (uint32_t variable = 1; variable <= variables; variable++) flip(state, plan, variable);

    /* Every unlocked variable was turned over twice: a find meets every clause again, and costs what the search said. */
    uint32_t unmet = 0;
    for (uint32_t clause = 1; clause <= planner_plan_clauses(plan); clause++) {
        unmet += !planner_state_meets(state, clause);
    }
    if (unmet != planner_state_unmet(state) || cost != planner_state_cost(state, plan) || (found.finds && unmet) ||
        (found.finds && cost != found.cost)) {
        printf("%s: the readers disagree\n", arguments[1]);
        return 1;
    }
    text(plan);
    squeeze(plan, file, length);
    printf("%s: %s, %zu found, %zu flips\n", arguments[1], planner_ending_text(found.ending), found.finds, found.flips);
    free(file);
    free(numbers);
    free(plan);
    free(state);
    free(work);
    return 0;
}
