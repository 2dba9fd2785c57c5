/* Every call of the archive with each buffer a block of its own of exactly the size named, so that valgrind sees a read
 * or a write past its end; then with one buffer a byte short, and with NULL for it and 0.
 *
 *     blocks PLAN NUMBERS COUNT     the search takes the first COUNT numbers
 */
#include "planner.h"

#include <stdio.h>
#include <stdlib.h>
#include <string.h>

enum { BUFFERS = 6, CUTS = 2 };
static const size_t sizes[BUFFERS] = {PLANNER_TABLES_SIZE, PLANNER_TERMS_SIZE, PLANNER_ASSIGNMENT_SIZE,
                                      PLANNER_TALLIES_SIZE, PLANNER_KEPT_SIZE, PLANNER_MARKS_SIZE};

/* A block that holds nothing yet; NULL for one of no bytes. */
static uint8_t *block(size_t size) {
    if (size == 0) return NULL;
    uint8_t *bytes = malloc(size);
    if (!bytes) exit(2);
    return bytes;
}

static uint8_t *contents(const char *name, size_t most, size_t *length) {
    static uint8_t bytes[PLANNER_INPUT_SIZE];
    FILE *f = fopen(name, "rb");
    *length = f ? fread(bytes, 1, most < sizeof bytes ? most : sizeof bytes, f) : 0;
    if (f) fclose(f);
    uint8_t *exact = block(*length);
    if (exact) memcpy(exact, bytes, *length);
    return exact;
}

static void expect(const char *what, uint32_t refusal, uint32_t wanted) {
    if (refusal == wanted) return;
    printf("%s gave %u, not %u\n", what, (unsigned)refusal, (unsigned)wanted);
    exit(1);
}

/* All calls on buffers of these sizes; the first three arguments are the refusals that load, the calls and the search
 * must give. */
static void run(uint32_t load, uint32_t call, uint32_t search, const size_t *size, const uint8_t *file, size_t length,
                const uint8_t *numbers, size_t listed) {
    uint8_t *lent[BUFFERS], *work[BUFFERS];
    for (int i = 0; i < BUFFERS; i++) {
        lent[i] = block(size[i]);
        work[i] = block(size[i]);
    }
    /* What a refused file leaves must hold something before it is judged. */
    if (load == PLANNER_CUT_SHORT) {
        memset(lent[0], 0, size[0]);
        memset(lent[1], 0, size[1]);
    }
    expect("load", planner_load(file, length, lent[0], size[0], lent[1], size[1]).refusal, load);
    planner_searched found =
        planner_search(lent[0], size[0], lent[1], size[1], numbers, listed, 500, 10, 1000, 1, 0, 0, lent[2], size[2],
                       work[0], size[0], work[1], size[1], work[2], size[2], work[4], size[4], work[5], size[5]);
    expect("search", found.refusal, search);
    uint8_t *drawn = block(PLANNER_INPUT_SIZE), *tried = block(size[2]);
    planner_figures figures =
        planner_runs(lent[0], size[0], lent[1], size[1], 1, 2, 3, 4, 5, 6, 2, 9, 500, 10, 1000, 1, 0, 0, drawn,
                     PLANNER_INPUT_SIZE, tried, size[2], work[0], size[0], work[1], size[1], work[2], size[2], work[4],
                     size[4], work[5], size[5]);
    expect("runs", figures.refusal, search);
    free(drawn);
    free(tried);
    uint32_t variables = call ? 1 : planner_word(lent[0]);
    if (!call && !found.finds) memset(lent[2], 0, variables);
    expect("open", planner_open(lent[0], size[0], lent[1], size[1], lent[2], size[2], lent[3], size[3]), call);
    for (uint32_t x = 1; x <= variables; x++) {
        expect("counts",
               planner_counts(lent[0], size[0], lent[1], size[1], lent[2], size[2], lent[3], size[3], x).refusal, call);
        planner_flipped flipped =
            planner_flip(lent[0], size[0], lent[1], size[1], lent[2], size[2], lent[3], size[3], x);
        expect("flip", flipped.refusal, call);
        if (call) expect("rules of a refused flip", flipped.rules, 0);
    }
    for (int i = 0; i < BUFFERS; i++) {
        free(lent[i]);
        free(work[i]);
    }
}

/* A squeeze of a file in a block of its own, with a list of this many bytes. */
static void squeeze(uint32_t refusal, const uint8_t *file, size_t length, size_t list) {
    uint8_t *own = block(length), *old = block(list);
    if (own) memcpy(own, file, length);
    planner_squeezed squeezed = planner_squeeze(own, length, old, list);
    expect("squeeze", squeezed.refusal, refusal);
    if (!refusal && squeezed.length > length) exit(1);
    free(own);
    free(old);
}

/* A plan's text written into blocks that are short, absent and exact, and read from a block of exactly its length into
 * tables that are short, absent and exact. A text within the limits is read without a refusal, one past them with 4. */
static void text(const uint8_t *file, size_t length) {
    uint8_t *tables = block(sizes[0]), *terms = block(sizes[1]);
    const uint32_t small = PLANNER_BUFFER_TOO_SMALL;
    expect("load", planner_load(file, length, tables, sizes[0], terms, sizes[1]).refusal, 0);
    expect("write", planner_write_opb(tables, sizes[0] - 1, terms, sizes[1], NULL, 0).refusal, small);
    expect("write", planner_write_opb(tables, sizes[0], NULL, 0, NULL, 0).refusal, small);
    planner_written needed = planner_write_opb(tables, sizes[0], terms, sizes[1], NULL, 0);
    expect("write", needed.refusal, PLANNER_TEXT_OUTGROWS);
    uint8_t *less = block(needed.length - 1), *bytes = block(needed.length);
    planner_written refused = planner_write_opb(tables, sizes[0], terms, sizes[1], less, needed.length - 1);
    expect("write", refused.refusal, PLANNER_TEXT_OUTGROWS);
    if (refused.length != needed.length) exit(1);
    free(less);
    planner_written written = planner_write_opb(tables, sizes[0], terms, sizes[1], bytes, needed.length);
    expect("write", written.refusal, 0);
    if (written.length != needed.length) exit(1);
    uint8_t *short_tables = block(sizes[0] - 1), *short_terms = block(sizes[1] - 1);
    expect("read", planner_read_opb(bytes, needed.length, short_tables, sizes[0] - 1, terms, sizes[1]).refusal, small);
    expect("read", planner_read_opb(bytes, needed.length, tables, sizes[0], short_terms, sizes[1] - 1).refusal, small);
    expect("read", planner_read_opb(bytes, needed.length, NULL, 0, terms, sizes[1]).refusal, small);
    expect("read", planner_read_opb(bytes, needed.length, tables, sizes[0], NULL, 0).refusal, small);
    expect("read", planner_read_opb(NULL, 0, tables, sizes[0], terms, sizes[1]).refusal, PLANNER_WRONG_TEXT);
    free(short_tables);
    free(short_terms);
    /* Tables that hold nothing yet. */
    free(tables);
    free(terms);
    tables = block(sizes[0]);
    terms = block(sizes[1]);
    char first[64] = "";
    unsigned variables = 0, constraints = 0;
    memcpy(first, bytes, needed.length < sizeof first ? needed.length : sizeof first - 1);
    if (sscanf(first, "* #variable= %u #constraint= %u\n", &variables, &constraints) != 2) exit(1);
    uint32_t again = variables > PLANNER_MOST_VARIABLES || constraints > PLANNER_MOST_CLAUSES ? PLANNER_TOO_LARGE : 0;
    expect("read", planner_read_opb(bytes, needed.length, tables, sizes[0], terms, sizes[1]).refusal, again);
    if (!again) {
        /* The tables read are lawful, and no byte of them is without a value. */
        expect("write", planner_write_opb(tables, sizes[0], terms, sizes[1], NULL, 0).refusal, PLANNER_TEXT_OUTGROWS);
    }
    free(bytes);
    free(tables);
    free(terms);
}

/* A festival of so many races in blocks of these sizes for the settings, assignments and answers of 8. The first race
 * has a plan, the others have none. */
static void races(uint32_t refusal, size_t count, const size_t *size, const uint8_t *file, size_t length,
                  const uint8_t *numbers, size_t listed) {
    uint8_t *tables = block(PLANNER_TABLES_SIZE), *terms = block(PLANNER_TERMS_SIZE), *lent[3], *work[BUFFERS];
    size_t *records = count ? malloc(3 * count * sizeof *records) : NULL;
    for (size_t i = 0; i < 3 * count && records; i += 3) records[i] = 1;
    for (int i = 0; i < 3; i++) lent[i] = block(size[i]);
    for (int i = 0; i < BUFFERS; i++) work[i] = block(sizes[i]);
    const uint32_t settings[6] = {500, 10, 1000, PLANNER_LBS, PLANNER_SKC, 0};
    for (size_t at = 0; at + sizeof settings <= size[0]; at += sizeof settings) {
        memcpy(lent[0] + at, settings, sizeof settings);
    }
    expect("load", planner_load(file, length, tables, PLANNER_TABLES_SIZE, terms, PLANNER_TERMS_SIZE).refusal, 0);
#define NONE NULL, 0, NULL, 0
    expect("races",
           planner_races(records, 3 * count, numbers, listed, lent[0], size[0], tables, PLANNER_TABLES_SIZE, terms,
                         PLANNER_TERMS_SIZE, NONE, NONE, NONE, NONE, NONE, NONE, NONE, lent[1], size[1], lent[2],
                         size[2], work[0], sizes[0], work[1], sizes[1], work[2], sizes[2], work[4], sizes[4], work[5],
                         sizes[5]),
           refusal);
#undef NONE
    for (uint32_t i = 0; i < count && !refusal; i++) {
        expect("a race", planner_word(lent[2] + PLANNER_ALL_ANSWERS_SIZE / PLANNER_MOST_RACES * i),
               i ? PLANNER_BUFFER_TOO_SMALL : 0);
    }
    for (int i = 0; i < 3; i++) free(lent[i]);
    for (int i = 0; i < BUFFERS; i++) free(work[i]);
    free(records);
    free(tables);
    free(terms);
}

int main(int count, char **arguments) {
    if (count != 4) return 2;
    size_t length, listed, size[BUFFERS];
    uint8_t *file = contents(arguments[1], PLANNER_INPUT_SIZE, &length);
    uint8_t *numbers = contents(arguments[2], 4 * strtoul(arguments[3], NULL, 10), &listed);
    uint32_t small = PLANNER_BUFFER_TOO_SMALL;
    run(0, 0, 0, sizes, file, length, numbers, listed);
    run(0, 0, 0, sizes, file, length, NULL, 0);
    run(PLANNER_CUT_SHORT, PLANNER_NOT_LOADED, PLANNER_NOT_LOADED, sizes, NULL, 0, numbers, listed);
    for (int cut = 0; cut < CUTS; cut++) {
        for (int shortened = 0; shortened < BUFFERS; shortened++) {
            memcpy(size, sizes, sizeof size);
            size[shortened] = cut ? 0 : sizes[shortened] - 1;
            run(shortened < 2 ? small : 0, shortened < 4 ? small : 0, shortened == 3 ? 0 : small, size, file, length, numbers, listed);
        }
    }
    squeeze(0, file, length, PLANNER_LIST_SIZE);
    squeeze(small, file, length, PLANNER_LIST_SIZE - 1);
    squeeze(small, file, length, 0);
    squeeze(PLANNER_CUT_SHORT, file, length - 1, PLANNER_LIST_SIZE);
    squeeze(PLANNER_CUT_SHORT, NULL, 0, PLANNER_LIST_SIZE);
    text(file, length);
    const size_t eight[3] = {PLANNER_ALL_SETTINGS_SIZE, PLANNER_ALL_ASSIGNMENTS_SIZE, PLANNER_ALL_ANSWERS_SIZE};
    races(0, 1, eight, file, length, numbers, listed);
    races(0, PLANNER_MOST_RACES, eight, file, length, numbers, listed);
    races(PLANNER_WRONG_RACES, 0, eight, file, length, numbers, listed);
    races(PLANNER_WRONG_RACES, PLANNER_MOST_RACES + 1, eight, file, length, numbers, listed);
    for (int cut = 0; cut < CUTS; cut++) {
        for (int shortened = 0; shortened < 3; shortened++) {
            size_t fewer[3] = {eight[0], eight[1], eight[2]};
            fewer[shortened] = cut ? 0 : eight[shortened] - 1;
            races(small, 2, fewer, file, length, numbers, listed);
        }
    }
    printf("%s: exact and short blocks\n", arguments[1]);
    free(file);
    free(numbers);
    return 0;
}
