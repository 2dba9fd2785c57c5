/* Loading and checks. */
#include "tuned.h"
#include <string.h>

/* ---------------------------------------------------------------- reading */

static uint32_t le16(const uint8_t *p) { return (uint32_t)p[0] | (uint32_t)p[1] << 8; }
static uint32_t le32(const uint8_t *p) { return le16(p) | le16(p + 2) << 16; }
static int32_t les32(const uint8_t *p)
{
    uint32_t u = le32(p);
    return u < UINT32_C(0x80000000) ? (int32_t)u : -(int32_t)(UINT32_MAX - u) - 1;
}

typedef struct { uint32_t tag, len; const uint8_t *body; } field;

/* k terms, from left to right; 0 or 5.  Writes only when var is not null. */
static uint32_t take_terms(const uint8_t *b, uint32_t k, uint32_t n, uint16_t *var,
                           int32_t *coef)
{
    uint32_t before = 0;
    for (uint32_t i = 0; i < k; i++, b += 6) {
        uint32_t v = le16(b);
        int32_t c = les32(b + 2);
        if (v < 1 || v > n || v <= before) return 5;
        if (c == 0 || c < -PL_MAX_COEF || c > PL_MAX_COEF) return 5;
        if (var) { var[i] = (uint16_t)v; coef[i] = c; }
        before = v;
    }
    return 0;
}

static int bound_ok(int32_t b, int present)
{
    return present ? b >= -PL_MAX_BOUND && b <= PL_MAX_BOUND : b == 0;
}

/* One pass over a plan file.  With out == 0 it only judges. */
static pl_answer pass(const uint8_t *file, size_t len, pl_plan *out, unsigned features)
{
    enum { WANT_01, WANT_02, AFTER_02, AFTER_06, AFTER_03, AFTER_04 } st = WANT_01;
    uint32_t n = 0, clauses = 0, rules = 0, terms = 0;
    size_t at = 0;
    for (;;) {
        pl_answer no = { 0, (uint32_t)at };
        size_t left = len - at;
        if (left < 3) { no.code = 1; return no; }
        field f = { file[at], le16(file + at + 1), file + at + 3 };

        int lawful = 0;
        switch (f.tag) {
        case 1: lawful = st == WANT_01; break;
        case 2: lawful = st == WANT_02; break;
        case 6: lawful = st == AFTER_02 && (features & PL_LOCKS); break;
        case 3: case 5: lawful = st == AFTER_02 || st == AFTER_06 || st == AFTER_04; break;
        case 4: lawful = st == AFTER_03 || st == AFTER_04; break;
        }
        if (!lawful) { no.code = 2; return no; }

        int fits = 0;
        switch (f.tag) {
        case 1: fits = f.len == 2; break;
        case 2: fits = f.len % 6 == 0; break;
        case 6: fits = f.len % 3 == 0; break;
        case 3: case 5: fits = f.len == 0; break;
        case 4: fits = f.len >= 15 && (f.len - 9) % 6 == 0; break;
        }
        if (!fits) { no.code = 3; return no; }
        if (left - 3 < f.len) { no.code = 1; return no; }

        switch (f.tag) {
        case 1:
            n = le16(f.body);
            if (n < 1 || n > PL_VARS) { no.code = 4; return no; }
            if (out) out->n = n;
            st = WANT_02;
            break;
        case 2:
            no.code = take_terms(f.body, f.len / 6, n, out ? out->obj_var : 0,
                                 out ? out->obj_coef : 0);
            if (no.code) return no;
            if (out) out->obj_len = f.len / 6;
            st = AFTER_02;
            break;
        case 6: {
            uint32_t before = 0;
            for (uint32_t i = 0; i < f.len; i += 3) {
                uint32_t v = le16(f.body + i), b = f.body[i + 2];
                if (v < 1 || v > n || v <= before) { no.code = 5; return no; }
                if (b > 1) { no.code = 10; return no; }
                if (out) out->lock[v - 1] = (uint8_t)(1 + b);
                before = v;
            }
            st = AFTER_06;
            break;
        }
        case 3:
            if (clauses == PL_CLAUSES) { no.code = 4; return no; }
            if (out) out->clause_rule[clauses] = (uint16_t)rules;
            clauses++;
            st = AFTER_03;
            break;
        case 4: {
            uint32_t k = (f.len - 9) / 6, mode = f.body[0];
            int32_t l = les32(f.body + 1), u = les32(f.body + 5);
            if (rules == PL_RULES || k > PL_TERMS - terms) { no.code = 4; return no; }
            if (mode < 1 || mode > 3 || !bound_ok(l, mode & 1) || !bound_ok(u, mode & 2)) {
                no.code = 6;
                return no;
            }
            no.code = take_terms(f.body + 9, k, n, out ? out->var + terms : 0,
                                 out ? out->coef + terms : 0);
            if (no.code) return no;
            if (out) {
                out->mode[rules] = (uint8_t)mode;
                out->lower[rules] = l;
                out->upper[rules] = u;
                out->rule_term[rules] = (uint16_t)terms;
                out->rule_len[rules] = (uint16_t)k;
                out->clause_len[clauses - 1]++;
            }
            rules++;
            terms += k;
            st = AFTER_04;
            break;
        }
        case 5:
            at += 3;
            if (at != len) { no.code = 7; no.offset = (uint32_t)at; return no; }
            if (out) { out->clauses = clauses; out->rules = rules; out->terms = terms; }
            no.offset = 0;
            return no;
        }
        at += 3 + f.len;
    }
}

pl_answer pl_load(const uint8_t *file, size_t len, pl_plan *plan, size_t plan_size,
                  unsigned features)
{
    if (!plan || plan_size < sizeof *plan) return (pl_answer){ 21, 0 };
    pl_answer a = pass(file, len, 0, features);
    if (a.code) return a;
    memset(plan, 0, sizeof *plan);
    return pass(file, len, plan, features);
}

/* ----------------------------------------------------------------- checks */

static int zero16(const uint16_t *p, size_t from, size_t to)
{
    uint32_t any = 0;
    for (size_t i = from; i < to; i++) any |= p[i];
    return !any;
}
static int zero32(const int32_t *p, size_t from, size_t to)
{
    int32_t any = 0;
    for (size_t i = from; i < to; i++) any |= p[i];
    return !any;
}
static int zero8(const uint8_t *p, size_t from, size_t to)
{
    int any = 0;
    for (size_t i = from; i < to; i++) any |= p[i];
    return !any;
}
static int terms_ok(const uint16_t *var, const int32_t *coef, size_t k, uint32_t n)
{
    uint32_t before = 0, bad = 0;
    for (size_t i = 0; i < k; i++) {
        bad |= var[i] <= before;
        bad |= (coef[i] == 0) | (coef[i] < -PL_MAX_COEF) | (coef[i] > PL_MAX_COEF);
        before = var[i];
    }
    return !bad && before <= n;
}

int pl_plan_ok(const pl_plan *q)
{
    if (q->n < 1 || q->n > PL_VARS || q->obj_len > PL_VARS || q->clauses > PL_CLAUSES
        || q->rules > PL_RULES || q->terms > PL_TERMS)
        return 0;
    if (!terms_ok(q->obj_var, q->obj_coef, q->obj_len, q->n)) return 0;
    if (!zero16(q->obj_var, q->obj_len, PL_VARS) || !zero32(q->obj_coef, q->obj_len, PL_VARS))
        return 0;
    for (uint32_t i = 0; i < q->n; i++)
        if (q->lock[i] > 2) return 0;
    if (!zero8(q->lock, q->n, PL_VARS)) return 0;
    uint32_t r = 0, t = 0;
    for (uint32_t c = 0; c < q->clauses; c++) {
        if (q->clause_rule[c] != r || q->clause_len[c] < 1) return 0;
        r += q->clause_len[c];
        if (r > q->rules) return 0;
    }
    if (r != q->rules) return 0;
    if (!zero16(q->clause_rule, q->clauses, PL_CLAUSES)
        || !zero16(q->clause_len, q->clauses, PL_CLAUSES))
        return 0;
    for (uint32_t i = 0; i < q->rules; i++) {
        uint32_t k = q->rule_len[i], m = q->mode[i];
        if (q->rule_term[i] != t || k < 1 || k > q->terms - t) return 0;
        if (m < 1 || m > 3 || !bound_ok(q->lower[i], m & 1) || !bound_ok(q->upper[i], m & 2))
            return 0;
        if (!terms_ok(q->var + t, q->coef + t, k, q->n)) return 0;
        t += k;
    }
    return t == q->terms
        && zero8(q->mode, q->rules, PL_RULES) && zero32(q->lower, q->rules, PL_RULES)
        && zero32(q->upper, q->rules, PL_RULES) && zero16(q->rule_term, q->rules, PL_RULES)
        && zero16(q->rule_len, q->rules, PL_RULES) && zero16(q->var, q->terms, PL_TERMS)
        && zero32(q->coef, q->terms, PL_TERMS);
}

uint32_t pl_settings_code(const pl_settings *s)
{
    if (s->noise > 1000) return 11;
    if (s->tries < 1 || s->tries > 1000) return 12;
    if (s->flips < 1 || s->flips > 1000000) return 13;
    if (s->mode > 1) return 14;
    if (s->features & PL_NOVELTY) {
        if (s->heuristic > 1) return 15;
        if (s->chance > 1000) return 16;
    }
    return 0;
}

int64_t pl_floor_cost(const pl_plan *q)
{
    int64_t l = 0;
    for (uint32_t i = 0; i < q->obj_len; i++) {
        uint8_t lock = q->lock[q->obj_var[i] - 1];
        int32_t c = q->obj_coef[i];
        if (lock ? lock == 2 : c < 0) l += c;
    }
    return l;
}

int64_t pl_next_bound(int64_t l, int64_t v)
{
    int64_t s = l + 2 * v, q = s / 3;
    return s % 3 < 0 ? q - 1 : q;
}

/* ----------------------------------------------------------------- counts */

uint64_t pl_binomial(uint64_t m, uint64_t k)
{
    if (k > m) return 0;
    if (k > m - k) k = m - k;
    uint64_t r = 1;             /* C(m, i), rising while i <= m/2; m < 2^31 */
    for (uint64_t i = 1; i <= k; i++) {
        r = r * (m - i + 1) / i;
        if (r >= PL_OVER) return PL_OVER;
    }
    return r;
}
