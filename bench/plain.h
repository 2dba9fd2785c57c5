// The planner as a straightforward C program writes it: the same file, tables, tallies and answers as the proved
// library, for comparison.
#ifndef PLAIN_H
#define PLAIN_H

#include <stddef.h>
#include <stdint.h>

typedef struct {
    uint32_t variables, clauses, rules, terms;
    int32_t objective[512];
    struct {
        uint32_t first, count;
    } clause[513];
    struct {
        uint32_t first, count, mode;
        int32_t lower, upper;
    } rule[1025];
    uint32_t lock[512]; // 0 free, 1 locked at 0, 2 locked at 1
    struct {
        uint32_t end[513], word[6512]; // the terms by variable: where each run ends, and a word for each place
    } order;
} plain_tables;

typedef struct {
    struct {
        uint32_t variable;
        int32_t weight;
    } term[6512];
} plain_terms;

typedef struct {
    uint32_t p[1025], holding[513], unsatisfied;
} plain_tallies;

typedef struct {
    uint32_t refusal;
    size_t offset;
} plain_loaded;
typedef struct {
    uint32_t refusal, rules;
} plain_flipped;
typedef struct {
    uint32_t refusal, breaks, break_cut, makes, make_cut;
} plain_counted;
typedef struct {
    uint32_t noise, tries, flips, mode, heuristic, chance;
} plain_settings;

typedef struct {
    uint32_t refusal, ending;
    int64_t cost;
    uint64_t finds, flips, used;
} plain_searched;

plain_loaded plain_load(const uint8_t *file, size_t length, plain_tables *tables, plain_terms *terms);
uint32_t plain_open(const plain_tables *t, const plain_terms *s, const uint8_t *a, plain_tallies *y);
plain_flipped plain_flip(const plain_tables *t, const plain_terms *s, uint8_t *a, plain_tallies *y, uint32_t x);
plain_counted plain_counts(const plain_tables *t, const plain_terms *s, const uint8_t *a, const plain_tallies *y,
                           uint32_t x);
plain_searched plain_search(const plain_tables *t, const plain_terms *s, plain_settings set, const uint8_t *numbers,
                            size_t length, uint8_t *a);

#endif
