// How the cost of a flip grows with the variables of a plan, the rules that name a variable and the terms of a rule, in
// the proved library and in the tuned C program, runs interleaved:
//     growth ROUNDS FLIPS FILE     the least of so many rounds, tries of so many flips; the picture goes to FILE
// The plans are made here: one of the three numbers grows, the others stay. The time is that of a whole search, its
// tests and the starts of its tries with it, divided by its flips.
#include "../include/planner.h"
#include "tuned/tuned.h"

#include <math.h>
#include <stdio.h>
#include <stdlib.h>
#include <string.h>
#include <time.h>

enum { SERIES = 3, MOST_POINTS = 8, TRIES = 10, NUMBERS = 1 << 16 };

// A panel of the picture: the sizes at which it is measured, 0 after the last, and the nanoseconds of a flip at each.
typedef struct {
    const char *axis, *fixed;
    int sizes[MOST_POINTS];
    double proved[MOST_POINTS], tuned[MOST_POINTS];
} series;

// What stays where another number grows: variables, rules that name a variable, terms of a rule.
static const int usual[SERIES] = {128, 8, 8};
static series measured[SERIES] = {
    {"variables", "8 rules name each, 8 terms a rule", {32, 64, 88, 128, 184, 256, 360, 512}, {0}, {0}},
    {"rules that name a variable", "128 variables, 8 terms a rule", {3, 4, 6, 8, 12, 16, 24, 32}, {0}, {0}},
    {"terms of a rule", "128 variables, 8 rules name each", {2, 4, 8, 16, 32, 64, 128}, {0}, {0}},
};

static planner_plan plan;
static planner_state state;
static planner_work work;
static pl_plan tuned_plan;
static uint8_t file[PLANNER_INPUT_SIZE], list[4 * NUMBERS], found[PL_VARS];
static size_t made;
static uint32_t numbers[NUMBERS];
static _Alignas(64) unsigned char room[1 << 20];
static uint64_t drawn;

static double now(void) {
    struct timespec t;
    clock_gettime(CLOCK_MONOTONIC, &t);
    return (double)t.tv_sec + (double)t.tv_nsec / 1e9;
}

// xorshift64*
static uint32_t draw(void) {
    drawn ^= drawn >> 12;
    drawn ^= drawn << 25;
    drawn ^= drawn >> 27;
    return (uint32_t)(drawn * UINT64_C(2685821657736338717) >> 32);
}

static void put(uint32_t value, int bytes) {
    for (; bytes > 0; bytes--, value >>= 8) file[made++] = (uint8_t)value;
}

static void field(uint32_t tag, int length) {
    put(tag, 1);
    put((uint32_t)length, 2);
}

static int rising(const void *a, const void *b) { return *(const int *)a - *(const int *)b; }

// A clause of one rule over these variables, with weights 1 and -1: its sum is to be that of an assignment drawn for it
// alone.
static void rule(int *variables, int length) {
    int weights[PL_VARS], sum = 0;
    qsort(variables, (size_t)length, sizeof *variables, rising);
    for (int i = 0; i < length; i++) {
        weights[i] = draw() % 2 ? 1 : -1;
        if (draw() % 2) sum += weights[i];
    }
    field(3, 0);
    field(4, 9 + 6 * length);
    put(3, 1);
    put((uint32_t)sum, 4);
    put((uint32_t)sum, 4);
    for (int i = 0; i < length; i++) {
        put((uint32_t)variables[i], 2);
        put((uint32_t)weights[i], 4);
    }
}

static void shuffle(int *deck, int n) {
    for (int i = n - 1; i > 0; i--) {
        int other = (int)(draw() % (uint32_t)(i + 1)), card = deck[i];
        deck[i] = deck[other];
        deck[other] = card;
    }
}

// All variables are dealt out to rules as often as each is to be named. As each rule asks for one sum, the walk meets
// them all at no flip and goes on to the last; there is no objective, which would be a clause of every variable.
static void make(const int *shape) {
    int deck[PL_VARS], n = shape[0], times = shape[1], length = shape[2];
    drawn = UINT64_C(0x9E3779B97F4A7C15);
    made = 0;
    field(1, 2);
    put((uint32_t)n, 2);
    field(2, 0);
    for (int i = 0; i < n; i++) deck[i] = i + 1;
    for (int deal = 0; deal < times; deal++) {
        shuffle(deck, n);
        for (int i = 0; i < n; i += length) rule(deck + i, length);
    }
    field(5, 0);
}

static void fill_numbers(void) {
    drawn = UINT64_C(78) * UINT64_C(0x9E3779B97F4A7C15);
    for (int k = 0; k < NUMBERS; k++) {
        numbers[k] = draw();
        for (int byte = 0; byte < 4; byte++) list[4 * k + byte] = (uint8_t)(numbers[k] >> (8 * byte));
    }
}

static void keep_least(double *least, double taken) {
    if (*least == 0 || taken < *least) *least = taken;
}

static int points(const series *s) {
    int n = 0;
    while (n < MOST_POINTS && s->sizes[n]) n++;
    return n;
}

static void shape_of(int kind, int point, int *shape) {
    memcpy(shape, usual, sizeof usual);
    shape[kind] = measured[kind].sizes[point];
}

// Both at one point, once. Whether they agree, and the walk went on to the last flip.
static int measure(int kind, int point, uint32_t flips) {
    planner_settings set = planner_settings_of(500, TRIES, flips, PLANNER_LBS);
    pl_settings t = {set.noise, set.tries, set.flips, set.mode, 0, 0, PL_LOCKS | PL_UNBIASED | PL_CUT | PL_NOVELTY};
    int shape[SERIES];
    shape_of(kind, point, shape);
    make(shape);
    if (planner_plan_load(&plan, file, made).refusal) return 0;
    if (pl_load(file, made, &tuned_plan, sizeof tuned_plan, t.features).code) return 0;
    double start = now();
    planner_searched p = planner_plan_search(&plan, set, list, sizeof list, &state, &work);
    double middle = now();
    pl_found q =
        pl_search_fast(&tuned_plan, sizeof tuned_plan, &t, numbers, NUMBERS, found, sizeof found, room, sizeof room);
    double end = now();
    keep_least(&measured[kind].proved[point], (middle - start) / (double)p.flips * 1e9);
    keep_least(&measured[kind].tuned[point], (end - middle) / (double)p.flips * 1e9);
    return !p.refusal && !q.code && p.ending == PLANNER_NONE && q.ending == PL_NONE && p.cost == q.cost &&
           p.finds == q.finds && p.flips == q.flips && p.used == q.used;
}

// Each round goes through all points, so that a while in which the machine is slow meets all of them and not one alone.
static int measure_all(int rounds, uint32_t flips) {
    for (int round = 0; round < rounds; round++)
        for (int i = 0; i < SERIES; i++)
            for (int k = 0; k < points(&measured[i]); k++) {
                if (measure(i, k, flips)) continue;
                printf("the two differ at %d %s, or a search ended early\n", measured[i].sizes[k], measured[i].axis);
                return 0;
            }
    return 1;
}

static void table(void) {
    printf("| variables | rules that name each | terms a rule | rules | proved, ns a flip | tuned C, ns a flip | ratio |\n");
    printf("|---|---|---|---|---|---|---|\n");
    for (int i = 0; i < SERIES; i++)
        for (int k = 0; k < points(&measured[i]); k++) {
            int shape[SERIES];
            shape_of(i, k, shape);
            double a = measured[i].proved[k], b = measured[i].tuned[k];
            int rules = shape[0] * shape[1] / shape[2];
            printf("| %d | %d | %d | %d | %.0f | %.0f | %.2f |\n", shape[0], shape[1], shape[2], rules, a, b, a / b);
        }
}

// ---- the picture: three panels, all axes logarithmic, with one range of nanoseconds

enum { WIDE = 1000, HIGH = 400, LEFT = 76, APART = 320, ACROSS = 268, TOP = 50, TALL = 270, BOTTOM = TOP + TALL };

#define BLACK " stroke=\"black\""
#define BROKEN BLACK " stroke-dasharray=\"6 4\""
#define GREY " stroke=\"#ccc\""
#define MIDDLE " text-anchor=\"middle\""

static FILE *picture;
static double lowest, highest;

static void text(double x, double y, const char *style, const char *words) {
    fprintf(picture, "<text x=\"%.1f\" y=\"%.1f\"%s>%s</text>\n", x, y, style, words);
}

static void line(double x1, double y1, double x2, double y2, const char *style) {
    fprintf(picture, "<line x1=\"%.1f\" y1=\"%.1f\" x2=\"%.1f\" y2=\"%.1f\"%s/>\n", x1, y1, x2, y2, style);
}

// The proved library has full circles on a full line, the tuned program empty ones on a broken line.
static void circle(double x, double y, int full) {
    const char *inside = full ? "black" : "white";
    fprintf(picture, "<circle cx=\"%.1f\" cy=\"%.1f\" r=\"4\" fill=\"%s\"" BLACK "/>\n", x, y, inside);
}

// How far right of a panel's left side a point stands: some room stays free on either side.
static double across(const series *s, int point) {
    double first = log(s->sizes[0]), last = log(s->sizes[points(s) - 1]);
    return ACROSS * (0.06 + 0.88 * (log(s->sizes[point]) - first) / (last - first));
}

static double height(double ns) { return BOTTOM - TALL * log(ns / lowest) / log(highest / lowest); }

// The next after this one of 1, 2, 5, 10, 20, 50 and on.
static double next(double tick) {
    double digit = tick / pow(10, floor(log10(tick) + 0.01));
    return digit > 1.5 && digit < 3 ? tick * 2.5 : tick * 2;
}

// The range of nanoseconds: from one tick to another, with every point between.
static void fit(void) {
    double least = measured[0].proved[0], most = least;
    for (int i = 0; i < SERIES; i++)
        for (int k = 0; k < points(&measured[i]); k++) {
            least = fmin(least, fmin(measured[i].proved[k], measured[i].tuned[k]));
            most = fmax(most, fmax(measured[i].proved[k], measured[i].tuned[k]));
        }
    for (lowest = 1; next(lowest) <= least;) lowest = next(lowest);
    for (highest = next(lowest); highest < most;) highest = next(highest);
}

static void axes(const series *s, double left) {
    char number[32];
    for (double tick = lowest; tick < highest * 1.01; tick = next(tick)) {
        line(left, height(tick), left + ACROSS, height(tick), GREY);
        snprintf(number, sizeof number, "%.0f", tick);
        text(left - 8, height(tick) + 4, " font-size=\"12\" text-anchor=\"end\"", number);
    }
    for (int k = 0; k < points(s); k++) {
        line(left + across(s, k), BOTTOM, left + across(s, k), BOTTOM + 5, BLACK);
        snprintf(number, sizeof number, "%d", s->sizes[k]);
        text(left + across(s, k), BOTTOM + 20, MIDDLE " font-size=\"12\"", number);
    }
    line(left, TOP, left, BOTTOM, BLACK);
    line(left, BOTTOM, left + ACROSS, BOTTOM, BLACK);
    text(left + ACROSS / 2.0, BOTTOM + 44, MIDDLE " font-weight=\"bold\"", s->axis);
    text(left + ACROSS / 2.0, BOTTOM + 62, MIDDLE, s->fixed);
}

static void curve(const series *s, double left, const double *ns, int full) {
    fprintf(picture, "<polyline fill=\"none\"%s points=\"", full ? BLACK : BROKEN);
    for (int k = 0; k < points(s); k++) fprintf(picture, " %.1f,%.1f", left + across(s, k), height(ns[k]));
    fprintf(picture, "\"/>\n");
    for (int k = 0; k < points(s); k++) circle(left + across(s, k), height(ns[k]), full);
}

static void legend(double x, int full, const char *words) {
    line(x, 22, x + 44, 22, full ? BLACK : BROKEN);
    circle(x + 22, 22, full);
    text(x + 54, 26, "", words);
}

// Whether it was written.
static int draw_picture(const char *name) {
    if (!(picture = fopen(name, "w"))) return 0;
    fit();
    fprintf(picture, "<svg xmlns=\"http://www.w3.org/2000/svg\" width=\"%d\" height=\"%d\"", WIDE, HIGH);
    fprintf(picture, " viewBox=\"0 0 %d %d\" role=\"img\" font-family=\"sans-serif\" font-size=\"13\"", WIDE, HIGH);
    fprintf(picture, " stroke-width=\"1.5\">\n");
    fprintf(picture, "<title>Nanoseconds a flip by variables, rules that name a variable and terms of a rule</title>\n");
    fprintf(picture, "<rect width=\"%d\" height=\"%d\" fill=\"white\"/>\n", WIDE, HIGH);
    legend(LEFT, 1, "proved library");
    legend(LEFT + 200, 0, "tuned C program");
    text(-(TOP + TALL / 2.0), 22, MIDDLE " transform=\"rotate(-90)\"", "nanoseconds a flip");
    for (int i = 0; i < SERIES; i++) {
        axes(&measured[i], LEFT + i * APART);
        curve(&measured[i], LEFT + i * APART, measured[i].proved, 1);
        curve(&measured[i], LEFT + i * APART, measured[i].tuned, 0);
    }
    fprintf(picture, "</svg>\n");
    int bad = ferror(picture);
    return !fclose(picture) && !bad;
}

int main(int count, char **names) {
    if (count != 4) {
        printf("usage: growth ROUNDS FLIPS FILE\n");
        return 2;
    }
    int rounds = (int)strtol(names[1], NULL, 10);
    uint32_t flips = (uint32_t)strtoul(names[2], NULL, 10);
    fill_numbers();
    if (!measure_all(rounds, flips)) return 1;
    table();
    if (draw_picture(names[3])) return 0;
    printf("%s cannot be written\n", names[3]);
    return 1;
}
