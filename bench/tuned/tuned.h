/* The tuned planner: load and search.  Plain C11, no heap; every byte that is
 * written is lent by the caller.
 *
 * Counts inside are u64, saturated at PL_OVER = 2^32: a value below PL_OVER is
 * the true number, PL_OVER means "more than 4,294,967,295" (cut, T-08).
 * min(a,S)+min(b,S) and min(a,S)*min(b,S), again saturated, are min(a+b,S) and
 * min(ab,S) for whole numbers, so one arithmetic serves base and T-08. */
#ifndef TUNED_H
#define TUNED_H

#include <stddef.h>
#include <stdint.h>

enum {
    PL_VARS = 512, PL_CLAUSES = 512, PL_RULES = 1024, PL_TERMS = 6000,
    PL_MAX_COEF = 1000000, PL_MAX_BOUND = 1000000000
};
#define PL_CAP  UINT64_C(4294967295)
#define PL_OVER UINT64_C(4294967296)

/* features (document 02), any mixture */
enum { PL_LOCKS = 1, PL_UNBIASED = 2, PL_CUT = 4, PL_NOVELTY = 8 };

/* The tables that loading fills; unused entries are 0. */
typedef struct {
    uint32_t n, obj_len, clauses, rules, terms;
    uint16_t obj_var[PL_VARS];
    int32_t  obj_coef[PL_VARS];
    uint8_t  lock[PL_VARS];             /* 0 free, 1 locked at 0, 2 locked at 1 */
    uint16_t clause_rule[PL_CLAUSES];   /* first rule */
    uint16_t clause_len[PL_CLAUSES];    /* number of rules */
    uint8_t  mode[PL_RULES];
    int32_t  lower[PL_RULES], upper[PL_RULES];
    uint16_t rule_term[PL_RULES];       /* first term */
    uint16_t rule_len[PL_RULES];        /* number of terms */
    uint16_t var[PL_TERMS];
    int32_t  coef[PL_TERMS];
} pl_plan;

typedef struct { uint32_t code, offset; } pl_answer;          /* code 0: accepted */

typedef struct {
    uint32_t noise, tries, flips, mode;
    uint32_t heuristic, chance;         /* T-09; 0, 0 is SKC */
    unsigned features;
} pl_settings;

enum { PL_FLOOR, PL_ENDED, PL_NONE, PL_SHORT_FOUND, PL_SHORT_NONE };
typedef struct {
    uint32_t code, ending;
    int64_t  cost;
    uint32_t finds, flips, used;
} pl_found;

/* size arguments are the lent sizes in bytes; too small gives 21 */
pl_answer pl_load(const uint8_t *file, size_t len, pl_plan *plan, size_t plan_size,
                  unsigned features);
int pl_plan_ok(const pl_plan *plan);            /* 0 means refusal 22 */
uint32_t pl_settings_code(const pl_settings *s);/* 0 or 11..16 */
int64_t pl_floor_cost(const pl_plan *plan);     /* l(O), locks at their value */
int64_t pl_next_bound(int64_t floor_cost, int64_t v);   /* LBS: floor((l+2v)/3) */

/* work must be aligned to 64 bytes */
pl_found pl_search_fast(const pl_plan *plan, size_t plan_size, const pl_settings *s,
                        const uint32_t *numbers, size_t count, uint8_t *x, size_t x_size,
                        void *work, size_t work_size);
size_t   pl_work_fast(void);
uint64_t pl_binomial(uint64_t m, uint64_t k);

static inline uint64_t pl_sat(uint64_t a) { return a < PL_OVER ? a : PL_OVER; }
static inline uint64_t pl_add(uint64_t a, uint64_t b) { return pl_sat(a + b); }
static inline uint64_t pl_mul(uint64_t a, uint64_t b)
{   /* only 2^32 * 2^32 leaves 64 bits */
    return (a & b & PL_OVER) ? PL_OVER : pl_sat(a * b);
}
#endif
