/* The tent planner: a plan file is loaded, a cheap assignment of it is searched for, and an assignment is opened,
 * turned over one variable at a time, and counted.
 *
 *     static planner_plan plan;      // declare these three once, as static or global objects: they are large
 *     static planner_state state;
 *     static planner_work work;
 *
 *     planner_loaded loaded = planner_plan_load(&plan, file, file_length);
 *     planner_settings settings = planner_settings_of(500, 10, 1000, PLANNER_LBS);
 *     planner_searched found = planner_plan_search(&plan, settings, numbers, numbers_length, &state, &work);
 *     planner_opened opened = planner_state_open(&state, &plan);
 *     planner_flipped flipped = planner_state_flip(&state, &plan, 7);
 *
 * There are two layers. The archive exports ten calls on pointers and lengths: planner_load, planner_read_opb,
 * planner_open, planner_flip, planner_counts, planner_search, planner_runs, planner_squeeze, planner_races and
 * planner_write_opb. What the comments say of them is proved. The structs and the inline functions after them are plain
 * C, which is tested and not proved: they lend buffers of the right sizes, so that none is mixed up, and read what the
 * calls leave. A program that uses these alone need not change when a call gains an argument or an answer a field.
 *
 * What holds of every call:
 * - It may be made with anything at all. It returns, and gives what it was asked for or one of the refusals below.
 *   A refused call changes no byte of what it was lent.
 * - It touches nothing but the buffers it is lent, keeps no pointer, allocates nothing, has no state of its own and
 *   takes up to two kilobytes of stack, planner_squeeze and planner_races up to three. It is reentrant: threads may
 *   call at once, each with buffers of its own.
 * - The caller lends the memory that it says it lends, and no byte twice in one call. This cannot be tested by the
 *   call; it is assumed.
 * - NULL is fine where the length is 0: a file or a list of numbers may be empty, and any other buffer is then too
 *   small. No alignment is asked for.
 * - The archive is for x86-64 Linux. Where the layout of the answers is another one, this header does not compile
 *   (C11, C++11).
 *
 * Time: load, open, flip, counts and squeeze take microseconds. A search works through the list of numbers: a flip
 * takes at least two of them. With 16,384 numbers it takes from a tenth of a second to some seconds on a server's core,
 * more on a slow one. It cannot be stopped or asked how far it is. To show something early, search with the first part
 * of the list, then with a longer one: a search that did not run short answers the same with a longer list, and one
 * that ran short with a find ends with a cost no higher.
 */
#ifndef PLANNER_H
#define PLANNER_H

#include <stddef.h>
#include <stdint.h>

#ifdef __cplusplus
extern "C" {
#endif

/* ---- version: of header and archives together (CHANGELOG.md). Where the first number changes, programs have to */

#define PLANNER_VERSION "1.0.0"
/* The same for the preprocessor: 10,000 times the first number, 100 times the second, and the third. */
#define PLANNER_VERSION_NUMBER 10000

/* ---- sizes */

/* The buffers in bytes (docs/FORMAT.md). None is larger than 64 KiB. Larger ones may be lent: places past these sizes
 * are neither read nor written. */
#define PLANNER_TABLES_SIZE 56816
#define PLANNER_TERMS_SIZE 52096
#define PLANNER_ASSIGNMENT_SIZE 512
#define PLANNER_TALLIES_SIZE 6156
#define PLANNER_KEPT_SIZE 26656 /* the tallies of a search, and what it keeps behind them */
#define PLANNER_MARKS_SIZE 60804
#define PLANNER_LIST_SIZE 2048

/* A festival has at most so many races. Each has a place in the buffers that hold one for each: 24 bytes of settings, an
 * assignment, and an answer. */
#define PLANNER_MOST_RACES 8
#define PLANNER_ALL_SETTINGS_SIZE 192
#define PLANNER_ALL_ASSIGNMENTS_SIZE 4096
#define PLANNER_ALL_ANSWERS_SIZE 320

/* The byte of the tables at which the locks begin. */
#define PLANNER_LOCKS_PLACE 26668

/* The most of each that a plan has. Terms are those of its rules. It may have a lock for each variable. */
#define PLANNER_MOST_VARIABLES 512
#define PLANNER_MOST_CLAUSES 512
#define PLANNER_MOST_RULES 1024
#define PLANNER_MOST_TERMS 6000

/* The largest plan file that is accepted. Do not read a file into a buffer of this size: a longer one would be cut
 * there, and its start might be a plan. */
#define PLANNER_FILE_SIZE 54446
/* A program takes files up to this size and gives PLANNER_FILE_TOO_LARGE for a longer one. Read so many bytes, then
 * see whether one more follows. */
#define PLANNER_INPUT_SIZE 65536

/* An array as two arguments of a call: PLANNER_LEND(tables). Not for a pointer. */
#define PLANNER_LEND(buffer) (buffer), sizeof(buffer)

/* ---- refusals: docs/REFUSALS.md has the same words */

enum planner_refusal {
    PLANNER_ACCEPTED = 0,

    /* By the plan file, with the offset of the field at fault. Make the file again at the desk. */
    PLANNER_CUT_SHORT = 1,       /* it ends within a field, or is empty: copy it again, whole */
    PLANNER_WRONG_TAG = 2,       /* a field stands where it may not: is this a plan file? */
    PLANNER_WRONG_LENGTH = 3,    /* a field has a length that none of its kind has */
    PLANNER_TOO_LARGE = 4,       /* variables not from 1 to 512, the 513th clause, 1,025th rule, or above 6,000 terms */
    PLANNER_WRONG_TERM = 5,      /* a variable outside the plan or out of order, a coefficient 0 or out of range; in
                                    a lock too the variable */
    PLANNER_WRONG_BOUND = 6,     /* a mode or a bound out of range, or an absent bound that is not 0 */
    PLANNER_BYTES_AFTER_END = 7, /* bytes after the end field; the offset is that of the first of them */
    PLANNER_WRONG_LOCK = 10,     /* a lock's value is neither 0 nor 1 */

    /* By the files of a program that reads them. No call below gives these two. */
    PLANNER_CUT_NUMBER = 8,     /* the list of numbers is no multiple of 4 bytes: copy it again, whole */
    PLANNER_FILE_TOO_LARGE = 9, /* a file has more than 65,536 bytes: it is another file, or too long a list */

    /* By the settings of a search. Choose others. */
    PLANNER_WRONG_NOISE = 11, /* noise above 1,000 */
    PLANNER_WRONG_TRIES = 12, /* tries not from 1 to 1,000 */
    PLANNER_WRONG_FLIPS = 13, /* flips not from 1 to 1,000,000 */
    PLANNER_WRONG_MODE = 14,  /* a mode other than PLANNER_LINEAR and PLANNER_LBS */
    PLANNER_WRONG_HEURISTIC = 15, /* a heuristic other than PLANNER_SKC and PLANNER_NOVELTY */
    PLANNER_WRONG_CHANCE = 16,    /* a walk chance above 1,000, under either heuristic */

    /* By what many runs are asked for. Choose others. */
    PLANNER_ZERO_STATE = 41,  /* x, y, z, w and v all 0, from which every number would be the counter's */
    PLANNER_WRONG_RUNS = 42,  /* runs not from 1 to 1,000 */
    PLANNER_WRONG_COUNT = 43, /* numbers of a run not from 1 to 16,384 */

    /* By an OPB text, with the offset of the line at fault. 4, 5 and 6 are its refusals too. */
    PLANNER_WRONG_TEXT = 31,  /* a line is no statement of its form, or the text ends without a line feed */
    PLANNER_WRONG_TOTAL = 32, /* a variable is above n, or, with offset 0, the constraints are not m */

    /* By what the program lends: a fault of the program, and none of the plan. */
    PLANNER_BUFFER_TOO_SMALL = 21, /* a buffer below its size above: the inline functions lend the right ones */
    PLANNER_NOT_LOADED = 22,       /* tables that no accepted loading left: load first, and write nothing there */
    PLANNER_WRONG_VARIABLE = 23,   /* a variable outside 1 to the plan's number of them */
    PLANNER_NOT_BITS = 24,         /* one of the plan's assignment bytes is neither 0 nor 1 */
    PLANNER_STALE_TALLIES = 25,    /* tallies that are not those of this assignment: open again */

    PLANNER_TEXT_OUTGROWS = 33,    /* the text is longer than the buffer: lend as much as the answer's length says */

    /* By the plan: no fault of anyone's. */
    PLANNER_LOCKED = 26,     /* a flip of a variable that the plan has locked: show it, and let another be turned over */
    PLANNER_WRONG_RACES = 61, /* a festival of no race, or of more than 8 */
    PLANNER_WRONG_STAKE = 62, /* a race's stake is not from 1 to 100 */
    PLANNER_ALL_LOCKED = 71, /* every variable is locked: nothing is left to squeeze */
    PLANNER_CLAUSE_LOST = 72 /* the locks leave a clause that no values can meet: look at it at the desk */
};

/* A refusal in plain words, for a screen. */
static inline const char *planner_refusal_text(uint32_t refusal) {
    switch (refusal) {
    case PLANNER_ACCEPTED: return "accepted";
    case PLANNER_CUT_SHORT: return "the file ends in the middle of a field";
    case PLANNER_WRONG_TAG: return "a field of this kind may not stand here";
    case PLANNER_WRONG_LENGTH: return "no field of this kind has this length";
    case PLANNER_TOO_LARGE:
        return "the number of variables is not from 1 to 512, or this is one clause, rule or term too many";
    case PLANNER_WRONG_TERM:
        return "the variable of a term or lock is not in the plan or not above the one before it, "
               "or a coefficient is 0 or beyond 1,000,000 either way";
    case PLANNER_WRONG_BOUND:
        return "a rule's mode is not 1, 2 or 3, a bound is beyond 1,000,000,000 either way, "
               "or an absent bound is not written 0";
    case PLANNER_BYTES_AFTER_END: return "the file goes on after its end";
    case PLANNER_CUT_NUMBER: return "the list of numbers ends in the middle of a number";
    case PLANNER_FILE_TOO_LARGE: return "the file has more than 65,536 bytes";
    case PLANNER_WRONG_LOCK: return "a lock's value is neither 0 nor 1";
    case PLANNER_WRONG_NOISE: return "the noise is not from 0 to 1,000";
    case PLANNER_WRONG_TRIES: return "the number of tries is not from 1 to 1,000";
    case PLANNER_WRONG_FLIPS: return "the number of flips is not from 1 to 1,000,000";
    case PLANNER_WRONG_MODE: return "the mode is neither 0 (linear) nor 1 (LBS)";
    case PLANNER_WRONG_HEURISTIC: return "the heuristic is neither 0 (SKC) nor 1 (Novelty+)";
    case PLANNER_WRONG_CHANCE: return "the walk chance is not from 0 to 1,000";
    case PLANNER_ZERO_STATE: return "the five words of the generator's state are all 0";
    case PLANNER_WRONG_RUNS: return "the number of runs is not from 1 to 1,000";
    case PLANNER_WRONG_COUNT: return "the numbers of a run are not from 1 to 16,384";
    case PLANNER_BUFFER_TOO_SMALL: return "a buffer is too small";
    case PLANNER_NOT_LOADED: return "the tables hold no plan as loading leaves it";
    case PLANNER_WRONG_VARIABLE: return "the plan has no such variable";
    case PLANNER_NOT_BITS: return "the assignment has a byte other than 0 and 1";
    case PLANNER_STALE_TALLIES: return "the tallies are not those of this assignment";
    case PLANNER_WRONG_TEXT: return "this line of the text is no statement of its form";
    case PLANNER_WRONG_TOTAL:
        return "a variable is above the text's number of variables, or the constraints are not as many as it says";
    case PLANNER_TEXT_OUTGROWS: return "the text is longer than the buffer";
    case PLANNER_LOCKED: return "the plan has locked this variable";
    case PLANNER_WRONG_RACES: return "there is no race, or there are more than 8";
    case PLANNER_WRONG_STAKE: return "a race's stake is not from 1 to 100";
    case PLANNER_ALL_LOCKED: return "the plan has locked every variable";
    case PLANNER_CLAUSE_LOST: return "the locks leave a clause with no rule that can be met";
    default: return "no refusal has this number";
    }
}

/* ---- answers: the first field is the refusal, 0 for none */

typedef struct {
    uint32_t refusal;
    size_t offset; /* in the file: of the first byte of the field at fault; with 7 of the first byte after the end
                      field; else 0 */
} planner_loaded;

typedef struct {
    uint32_t refusal;
} planner_opened;

typedef struct {
    uint32_t refusal;
    uint32_t rules; /* how many rules name the variable: so many rule tallies were rewritten; 0 with a refusal */
} planner_flipped;

/* A count that is cut is greater than any that is not, whatever the two numbers; two that are cut count as equal. */
typedef struct {
    uint32_t refusal;
    uint32_t break_count; /* the true number, or 4,294,967,295 if that is greater */
    uint32_t break_cut;   /* 1 where the true number is greater than 4,294,967,295, else 0 */
    uint32_t make_count;
    uint32_t make_cut;
} planner_counted;

/* How a search ended. */
enum planner_ending {
    PLANNER_NOT_SEARCHED = 0, /* refused */
    PLANNER_FLOOR = 1,        /* found, and its cost is the sum of the negative coefficients, with locked variables
                                 counted at their value: nothing costs less */
    PLANNER_ENDED = 2,        /* found, and the walk for a lesser cost failed; a cheaper one may exist all the same */
    PLANNER_NONE = 3,         /* the walk for the plan alone failed; an assignment may exist all the same */
    PLANNER_SHORT_FOUND = 4,  /* found, then fewer numbers were left than the next need: a longer list may help */
    PLANNER_SHORT_NONE = 5    /* nothing found, and fewer numbers were left than the next need */
};

typedef struct {
    uint32_t refusal;
    uint32_t ending; /* enum planner_ending */
    int64_t cost;    /* of the last find; 0 with none */
    size_t finds;    /* how many assignments were found, each cheaper than the one before */
    size_t flips;    /* made, over all tries */
    size_t used;     /* how many of the numbers, discarded ones too */
} planner_searched;

/* Figures over many runs: fractions in lowest terms, their denominators positive. With a refusal all else is 0. */
typedef struct {
    uint32_t refusal;
    uint32_t found;        /* 1 where some run found an assignment; else 0, and the mean cost is absent, 0 over 0 */
    uint64_t share_top;    /* the share of runs with a find */
    uint64_t share_bottom;
    uint64_t flips_top;    /* the mean of the flips over all runs */
    uint64_t flips_bottom;
    int64_t cost_top;      /* the mean cost over the runs with a find; the sign is on top */
    uint64_t cost_bottom;
} planner_figures;

typedef struct {
    uint32_t refusal;
    size_t offset;    /* as in planner_loaded; 0 with another refusal than the file's own */
    size_t length;    /* of the new file; 0 with a refusal */
    int64_t constant; /* what the locked variables cost: an assignment costs so much more than the new plan says */
} planner_squeezed;

typedef struct {
    uint32_t refusal; /* PLANNER_ACCEPTED, or the rest is 0, but for PLANNER_TEXT_OUTGROWS */
    size_t length;    /* of the text; with PLANNER_TEXT_OUTGROWS what it needs */
} planner_written;

/* An ending by its name and in plain words, for a screen. */
static inline const char *planner_ending_text(uint32_t ending) {
    switch (ending) {
    case PLANNER_NOT_SEARCHED: return "not searched";
    case PLANNER_FLOOR: return "floor: found, and nothing can cost less";
    case PLANNER_ENDED: return "ended: found, and a search for less found nothing";
    case PLANNER_NONE: return "none: nothing was found";
    case PLANNER_SHORT_FOUND: return "short-found: found, then the numbers ran out";
    case PLANNER_SHORT_NONE: return "short-none: the numbers ran out before anything was found";
    default: return "no ending has this number";
    }
}

/* ---- the ten calls; the refusals of each stand in the order in which they are tried */

/* Loads a plan file of any length and content into the two tables.
 * PLANNER_BUFFER_TOO_SMALL, then the file's own: PLANNER_CUT_SHORT to PLANNER_BYTES_AFTER_END and PLANNER_WRONG_LOCK,
 * with its offset.
 * Accepted: the tables are those of the plan, unused entries 0. */
planner_loaded planner_load(const uint8_t *file, size_t file_length, uint8_t *tables, size_t tables_length,
                            uint8_t *terms, size_t terms_length);

/* Reads an OPB text of any length and content into the two tables: "* #variable= n #constraint= m", comment lines,
 * "min:" and constraints with ">=" or "=", one to a line that ends in a line feed. Each constraint is a clause of one
 * rule, "=" with both bounds; there is no lock.
 * PLANNER_BUFFER_TOO_SMALL, then the text's own, with the offset of the line at fault; in a line PLANNER_WRONG_TEXT,
 * PLANNER_WRONG_TOTAL (a variable above n), PLANNER_TOO_LARGE, PLANNER_WRONG_BOUND, PLANNER_WRONG_TERM; last
 * PLANNER_WRONG_TOTAL with offset 0 for a number of constraints other than m.
 * Accepted: the tables are those that loading the plan would leave. */
planner_loaded planner_read_opb(const uint8_t *text, size_t text_length, uint8_t *tables, size_t tables_length,
                                uint8_t *terms, size_t terms_length);

/* Counts the tallies of an assignment afresh and writes them, 0 in unused entries. Writes nothing else. The first n
 * bytes of an assignment are its values, variable 1 first, n being the plan's number of variables. It may disagree with
 * the plan's locks.
 * PLANNER_BUFFER_TOO_SMALL, PLANNER_NOT_LOADED, PLANNER_NOT_BITS. */
uint32_t planner_open(const uint8_t *tables, size_t tables_length, const uint8_t *terms, size_t terms_length,
                      const uint8_t *assignment, size_t assignment_length, uint8_t *tallies, size_t tallies_length);

/* Turns one variable over: its assignment byte, and the tallies that concern it. The same flip twice restores every
 * byte. The answer says how many rules name the variable, at most 1,024: so many rule tallies were rewritten.
 * PLANNER_BUFFER_TOO_SMALL, PLANNER_NOT_LOADED, PLANNER_NOT_BITS, PLANNER_STALE_TALLIES, PLANNER_WRONG_VARIABLE,
 * PLANNER_LOCKED. */
planner_flipped planner_flip(const uint8_t *tables, size_t tables_length, const uint8_t *terms, size_t terms_length,
                             uint8_t *assignment, size_t assignment_length, uint8_t *tallies, size_t tallies_length,
                             uint32_t variable);

/* The break count and the make count of a variable: how many clauses of the plan's full propositional expansion its
 * flip would spoil and mend. A number greater than 4,294,967,295 is given out as that one, with the mark that it is
 * cut; without the mark a count is exact, 4,294,967,295 too. Writes nothing.
 * As for planner_flip, but for PLANNER_LOCKED: a locked variable is counted as any other. Counts and marks are 0 with a
 * refusal. */
planner_counted planner_counts(const uint8_t *tables, size_t tables_length, const uint8_t *terms, size_t terms_length,
                               const uint8_t *assignment, size_t assignment_length, const uint8_t *tallies,
                               size_t tallies_length, uint32_t variable);

/* Searches for an assignment that meets every clause, then for cheaper ones, by the walk of Liu and Truszczynski with
 * the SKC choice or with Novelty+ (Hoos, 1999). A locked variable has its value from each try's start on and is not
 * chosen; a try that picks a clause without an unlocked variable ends there. Each call of the walk has so many tries of
 * so many flips.
 * With SKC a variable of the picked clause that spoils nothing is chosen. Where every one spoils something, noise is how
 * many of 1,000 choices take the least break count, cut ones being the greatest; the others take any. With Novelty+
 * chance is how many of 1,000 choices take any of them. The others rank them by make count minus break count, a cut one
 * standing as 4,294,967,295, the highest first, equals by how long they are unflipped in this try, then by number, and
 * take the first; but where that is the one most recently flipped in this try, noise is how many of 1,000 such choices
 * take the second. chance is judged under SKC too, which does not ask for it.
 * numbers is a list of any length, each number of 4 bytes, little-endian: the same plan, settings and list give the same
 * answer. A pick among m discards each number at or above the largest multiple of m up to 4,294,967,296 and takes the
 * next, so that no place is favoured; the numbers for noise and chance are such picks among 1,000. A last number of
 * fewer than 4 bytes is not read.
 * PLANNER_BUFFER_TOO_SMALL (a buffer other than numbers), PLANNER_NOT_LOADED, PLANNER_WRONG_NOISE, PLANNER_WRONG_TRIES,
 * PLANNER_WRONG_FLIPS, PLANNER_WRONG_MODE, PLANNER_WRONG_HEURISTIC, PLANNER_WRONG_CHANCE; with a refusal every other
 * field of the answer is 0.
 * Accepted: the answer is that of the walk. With a find (finds is not 0: ending 1, 2 or 4) the first n bytes of
 * assignment are the last one found: it meets every clause, each locked variable has its value, and cost is its cost.
 * With none they are as they were; those beyond n always are. What the five work buffers hold at first does not matter;
 * they end filled with 0 up to the sizes above. Writes nothing else, so that tallies opened before are stale after a
 * find. */
planner_searched planner_search(const uint8_t *tables, size_t tables_length, const uint8_t *terms, size_t terms_length,
                                const uint8_t *numbers, size_t numbers_length, uint32_t noise, uint32_t tries,
                                uint32_t flips, uint32_t mode, uint32_t heuristic, uint32_t chance,
                                uint8_t *assignment, size_t assignment_length, uint8_t *work_tables,
                                size_t work_tables_length, uint8_t *work_terms,
                                size_t work_terms_length, uint8_t *work_assignment, size_t work_assignment_length,
                                uint8_t *work_tallies, size_t work_tallies_length, uint8_t *work_marks,
                                size_t work_marks_length);

/* Makes runs of the search one after another, each over the next count numbers of Marsaglia's xorwow ("Xorshift RNGs",
 * 2003): from x, y, z, w, v and the counter, t = x ^ (x >> 2), x = y, y = z, z = w, w = v,
 * v = (v ^ (v << 4)) ^ (t ^ (t << 1)), the counter rises by 362,437, and the number is counter + v, all of 32 bits.
 * Each run answers what planner_search would over its own numbers; the tables are tested once.
 * PLANNER_ZERO_STATE, PLANNER_WRONG_RUNS, PLANNER_WRONG_COUNT, then as for planner_search, PLANNER_BUFFER_TOO_SMALL for
 * numbers below PLANNER_INPUT_SIZE too.
 * Accepted: the share of runs with a find, the mean flips over all runs, and the mean cost over the runs with a find.
 * What the seven buffers lent for writing hold at first does not matter; they end filled with 0 up to their sizes, so
 * that no find is kept. Writes nothing else. */
planner_figures planner_runs(const uint8_t *tables, size_t tables_length, const uint8_t *terms, size_t terms_length,
                             uint32_t x, uint32_t y, uint32_t z, uint32_t w, uint32_t v, uint32_t counter,
                             uint32_t runs, uint32_t count, uint32_t noise, uint32_t tries, uint32_t flips,
                             uint32_t mode, uint32_t heuristic, uint32_t chance, uint8_t *numbers, size_t numbers_length, uint8_t *assignment,
                             size_t assignment_length, uint8_t *work_tables, size_t work_tables_length,
                             uint8_t *work_terms, size_t work_terms_length, uint8_t *work_assignment,
                             size_t work_assignment_length, uint8_t *work_tallies, size_t work_tallies_length,
                             uint8_t *work_marks, size_t work_marks_length);

/* Rewrites a plan file in its own buffer without its locked variables: their values are put in, a bound that all values
 * of the others meet is dropped, so is a rule that no values can meet, and a clause with a rule that all values meet.
 * A rule is judged by its least and its greatest sum alone. The unlocked variables are numbered from 1 by rising number,
 * each kept, and the list gets their old numbers: 512 numbers of 4 bytes, little-endian, 0 in unused places.
 * PLANNER_BUFFER_TOO_SMALL (the list), then the file's own as for planner_load, PLANNER_ALL_LOCKED,
 * PLANNER_CLAUSE_LOST; with a refusal length and constant are 0.
 * Accepted: the first length bytes are a plan file that planner_load accepts, and those behind it are 0. An assignment
 * that has each locked variable at its value meets every clause of the old plan exactly where its unlocked variables
 * meet every clause of the new one, and costs constant more. */
planner_squeezed planner_squeeze(uint8_t *file, size_t file_length, uint8_t *old, size_t old_length);

/* A festival: up to 8 races searched with one list of numbers. The races stand in the list as records of three numbers:
 * a stake from 1 to 100, and the race's part, which the call writes: its first place in the list, from 0, and its
 * length. A race gets the whole part of (numbers times stake over all stakes), and what remains goes one each to the
 * first races; the parts follow one another. Race i, from 0, has its settings at byte 24 i (noise, tries, flips, mode,
 * heuristic and chance, 4 bytes each), its plan in the tables and terms numbered i + 1, its assignment at byte 512 i,
 * and its answer, a planner_searched, at byte 40 i. Answer, assignment and refusal of a race are those of a
 * planner_search of its own with its part: another race's plan, settings or refusal cannot change them. A race that is
 * not there needs no tables. Past the last race nothing is written.
 * PLANNER_BUFFER_TOO_SMALL (settings, assignments or answers below 8 races' worth), PLANNER_WRONG_RACES,
 * PLANNER_WRONG_STAKE, before any search; what a race's search refuses stands in that race's answer. */
uint32_t planner_races(size_t *races, size_t races_length, const uint8_t *numbers, size_t numbers_length,
                       const uint8_t *settings, size_t settings_length,
                       const uint8_t *tables1, size_t tables1_length, const uint8_t *terms1, size_t terms1_length,
                       const uint8_t *tables2, size_t tables2_length, const uint8_t *terms2, size_t terms2_length,
                       const uint8_t *tables3, size_t tables3_length, const uint8_t *terms3, size_t terms3_length,
                       const uint8_t *tables4, size_t tables4_length, const uint8_t *terms4, size_t terms4_length,
                       const uint8_t *tables5, size_t tables5_length, const uint8_t *terms5, size_t terms5_length,
                       const uint8_t *tables6, size_t tables6_length, const uint8_t *terms6, size_t terms6_length,
                       const uint8_t *tables7, size_t tables7_length, const uint8_t *terms7, size_t terms7_length,
                       const uint8_t *tables8, size_t tables8_length, const uint8_t *terms8, size_t terms8_length,
                       uint8_t *assignments, size_t assignments_length, uint8_t *answers, size_t answers_length,
                       uint8_t *work_tables, size_t work_tables_length, uint8_t *work_terms, size_t work_terms_length,
                       uint8_t *work_assignment, size_t work_assignment_length, uint8_t *work_tallies,
                       size_t work_tallies_length, uint8_t *work_marks, size_t work_marks_length);

/* Writes the plan of two tables as a text in the form of the 2006 pseudo-Boolean evaluation (OPB). A clause with 'or'
 * has three new variables for each of its rules, so that the text may pass the limits of a plan.
 * PLANNER_BUFFER_TOO_SMALL, PLANNER_NOT_LOADED, PLANNER_TEXT_OUTGROWS.
 * Accepted: the text stands at the front of the buffer, with no 0 behind it; the bytes beyond it stay. To ask for its
 * length alone, lend NULL and 0. */
planner_written planner_write_opb(const uint8_t *tables, size_t tables_length, const uint8_t *terms,
                                  size_t terms_length, uint8_t *text, size_t text_length);

/* ---- plan, state and work */

/* A plan as loading leaves it: two buffers, each below 64 KiB; 108,912 bytes in all. To be written by
 * planner_plan_load and planner_plan_read_opb alone. */
typedef struct {
    uint8_t tables[PLANNER_TABLES_SIZE];
    uint8_t terms[PLANNER_TERMS_SIZE];
} planner_plan;

/* An assignment, a byte 0 or 1 for each variable of the plan, variable 1 first, which the program may write; and its
 * tallies, which it may not. All bytes 0 is an assignment of every plan, though one that locks may disagree with. */
typedef struct {
    uint8_t assignment[PLANNER_ASSIGNMENT_SIZE];
    uint8_t tallies[PLANNER_TALLIES_SIZE];
} planner_state;

/* What a search works in: five buffers, each below 64 KiB; 196,884 bytes in all. Nothing of it is of use after. */
typedef struct {
    uint8_t tables[PLANNER_TABLES_SIZE];
    uint8_t terms[PLANNER_TERMS_SIZE];
    uint8_t assignment[PLANNER_ASSIGNMENT_SIZE];
    uint8_t tallies[PLANNER_KEPT_SIZE];
    uint8_t marks[PLANNER_MARKS_SIZE];
} planner_work;

/* What many runs write besides: one run's numbers, and its finds. 66,048 bytes. Nothing of it is of use after. */
typedef struct {
    uint8_t numbers[PLANNER_INPUT_SIZE];
    uint8_t assignment[PLANNER_ASSIGNMENT_SIZE];
} planner_scratch;

/* The generator's state: any numbers, but x, y, z, w and v not all 0. */
typedef struct {
    uint32_t x, y, z, w, v, counter;
} planner_xorwow;

/* Which old variable each new one was, after a squeeze. To be written by planner_file_squeeze alone. */
typedef struct {
    uint8_t numbers[PLANNER_LIST_SIZE];
} planner_list;

/* Make it by planner_settings_of or planner_novelty_of, so that fields to come have their plain values. */
typedef struct {
    uint32_t noise;     /* 0 to 1,000 */
    uint32_t tries;     /* 1 to 1,000 */
    uint32_t flips;     /* 1 to 1,000,000 */
    uint32_t mode;      /* enum planner_mode */
    uint32_t heuristic; /* enum planner_heuristic */
    uint32_t chance;    /* 0 to 1,000 */
} planner_settings;

/* How far below a find's cost the next search asks. PLANNER_LINEAR: by one. PLANNER_LBS: by a third of the way down to
 * the least cost that PLANNER_FLOOR speaks of, until that fails; then by one. */
enum planner_mode { PLANNER_LINEAR = 0, PLANNER_LBS = 1 };

/* How a variable is chosen. PLANNER_NOVELTY: Novelty+, for plans on which SKC sticks. */
enum planner_heuristic { PLANNER_SKC = 0, PLANNER_NOVELTY = 1 };

/* Settings with the SKC choice. */
static inline planner_settings planner_settings_of(uint32_t noise, uint32_t tries, uint32_t flips, uint32_t mode) {
    planner_settings settings = {noise, tries, flips, mode, PLANNER_SKC, 0};
    return settings;
}

/* Settings with Novelty+ and its walk chance. */
static inline planner_settings planner_novelty_of(uint32_t noise, uint32_t tries, uint32_t flips, uint32_t mode,
                                                  uint32_t chance) {
    planner_settings settings = {noise, tries, flips, mode, PLANNER_NOVELTY, chance};
    return settings;
}

/* ---- the calls on them */

/* planner_load: the plan of a file. A refused file leaves the plan that was there. */
static inline planner_loaded planner_plan_load(planner_plan *plan, const uint8_t *file, size_t file_length) {
    return planner_load(file, file_length, PLANNER_LEND(plan->tables), PLANNER_LEND(plan->terms));
}

/* planner_read_opb: the plan of an OPB text. A refused text leaves the plan that was there. */
static inline planner_loaded planner_plan_read_opb(planner_plan *plan, const uint8_t *text, size_t text_length) {
    return planner_read_opb(text, text_length, PLANNER_LEND(plan->tables), PLANNER_LEND(plan->terms));
}

/* planner_search: the state's assignment is the last one found, if there is one. Its tallies are not written: open
 * the state before it is flipped or counted. */
static inline planner_searched planner_plan_search(const planner_plan *plan, planner_settings settings,
                                                   const uint8_t *numbers, size_t numbers_length, planner_state *state,
                                                   planner_work *work) {
    return planner_search(PLANNER_LEND(plan->tables), PLANNER_LEND(plan->terms), numbers, numbers_length,
                          settings.noise, settings.tries, settings.flips, settings.mode, settings.heuristic,
                          settings.chance, PLANNER_LEND(state->assignment), PLANNER_LEND(work->tables), PLANNER_LEND(work->terms),
                          PLANNER_LEND(work->assignment), PLANNER_LEND(work->tallies), PLANNER_LEND(work->marks));
}

/* planner_runs: the figures of so many runs from a state, each over so many numbers. */
static inline planner_figures planner_plan_runs(const planner_plan *plan, planner_settings settings,
                                                planner_xorwow from, uint32_t runs, uint32_t count,
                                                planner_scratch *scratch, planner_work *work) {
    return planner_runs(PLANNER_LEND(plan->tables), PLANNER_LEND(plan->terms), from.x, from.y, from.z, from.w, from.v,
                        from.counter, runs, count, settings.noise, settings.tries, settings.flips, settings.mode,
                        settings.heuristic, settings.chance, PLANNER_LEND(scratch->numbers), PLANNER_LEND(scratch->assignment), PLANNER_LEND(work->tables),
                        PLANNER_LEND(work->terms), PLANNER_LEND(work->assignment), PLANNER_LEND(work->tallies),
                        PLANNER_LEND(work->marks));
}

/* planner_open: the tallies of the state's assignment. */
static inline planner_opened planner_state_open(planner_state *state, const planner_plan *plan) {
    planner_opened opened = {planner_open(PLANNER_LEND(plan->tables), PLANNER_LEND(plan->terms),
                                          PLANNER_LEND(state->assignment), PLANNER_LEND(state->tallies))};
    return opened;
}

/* planner_flip: one variable of an opened state turned over. */
static inline planner_flipped planner_state_flip(planner_state *state, const planner_plan *plan, uint32_t variable) {
    return planner_flip(PLANNER_LEND(plan->tables), PLANNER_LEND(plan->terms), PLANNER_LEND(state->assignment),
                        PLANNER_LEND(state->tallies), variable);
}

/* planner_counts: what that flip would spoil and mend. */
static inline planner_counted planner_state_counts(const planner_state *state, const planner_plan *plan,
                                                   uint32_t variable) {
    return planner_counts(PLANNER_LEND(plan->tables), PLANNER_LEND(plan->terms), PLANNER_LEND(state->assignment),
                          PLANNER_LEND(state->tallies), variable);
}

/* One race of a festival: its stake, plan, settings and state are the caller's; its part and its answer are written,
 * and the state's assignment where a plan is found. */
typedef struct {
    size_t stake, first, length;
    const planner_plan *plan;
    planner_settings settings;
    planner_state *state;
    planner_searched answer;
} planner_race;

/* planner_races: every race of a festival, from one list of numbers. With a refusal no race is written. What it copies
 * takes five kilobytes of stack. */
static inline uint32_t planner_plan_races(planner_race *races, size_t count, const uint8_t *numbers,
                                          size_t numbers_length, planner_work *work) {
    size_t records[PLANNER_MOST_RACES + 1][3];
    uint32_t settings[PLANNER_MOST_RACES][6];
    uint8_t assignments[PLANNER_MOST_RACES][PLANNER_ASSIGNMENT_SIZE];
    planner_searched answers[PLANNER_MOST_RACES];
    const planner_plan *plans[PLANNER_MOST_RACES];
    size_t shown = count <= PLANNER_MOST_RACES ? count : PLANNER_MOST_RACES + 1;
    for (size_t i = 0; i < PLANNER_MOST_RACES; i++) {
        const planner_race *race = i < count ? &races[i] : NULL;
        const uint32_t words[6] = {race ? race->settings.noise : 0, race ? race->settings.tries : 0,
                                   race ? race->settings.flips : 0, race ? race->settings.mode : 0,
                                   race ? race->settings.heuristic : 0, race ? race->settings.chance : 0};
        plans[i] = race ? race->plan : NULL;
        for (size_t k = 0; k < 6; k++) settings[i][k] = words[k];
        for (size_t k = 0; k < PLANNER_ASSIGNMENT_SIZE; k++) assignments[i][k] = race ? race->state->assignment[k] : 0;
    }
    for (size_t i = 0; i <= PLANNER_MOST_RACES; i++) {
        records[i][0] = i < count ? races[i].stake : 0;
        records[i][1] = records[i][2] = 0;
    }
    uint32_t refusal = planner_races(
        records[0], 3 * shown, numbers, numbers_length, (const uint8_t *)settings, sizeof settings,
        plans[0] ? plans[0]->tables : NULL, plans[0] ? sizeof plans[0]->tables : 0,
        plans[0] ? plans[0]->terms : NULL, plans[0] ? sizeof plans[0]->terms : 0,
        plans[1] ? plans[1]->tables : NULL, plans[1] ? sizeof plans[1]->tables : 0,
        plans[1] ? plans[1]->terms : NULL, plans[1] ? sizeof plans[1]->terms : 0,
        plans[2] ? plans[2]->tables : NULL, plans[2] ? sizeof plans[2]->tables : 0,
        plans[2] ? plans[2]->terms : NULL, plans[2] ? sizeof plans[2]->terms : 0,
        plans[3] ? plans[3]->tables : NULL, plans[3] ? sizeof plans[3]->tables : 0,
        plans[3] ? plans[3]->terms : NULL, plans[3] ? sizeof plans[3]->terms : 0,
        plans[4] ? plans[4]->tables : NULL, plans[4] ? sizeof plans[4]->tables : 0,
        plans[4] ? plans[4]->terms : NULL, plans[4] ? sizeof plans[4]->terms : 0,
        plans[5] ? plans[5]->tables : NULL, plans[5] ? sizeof plans[5]->tables : 0,
        plans[5] ? plans[5]->terms : NULL, plans[5] ? sizeof plans[5]->terms : 0,
        plans[6] ? plans[6]->tables : NULL, plans[6] ? sizeof plans[6]->tables : 0,
        plans[6] ? plans[6]->terms : NULL, plans[6] ? sizeof plans[6]->terms : 0,
        plans[7] ? plans[7]->tables : NULL, plans[7] ? sizeof plans[7]->tables : 0,
        plans[7] ? plans[7]->terms : NULL, plans[7] ? sizeof plans[7]->terms : 0,
        assignments[0], sizeof assignments, (uint8_t *)answers, sizeof answers, PLANNER_LEND(work->tables),
        PLANNER_LEND(work->terms), PLANNER_LEND(work->assignment), PLANNER_LEND(work->tallies),
        PLANNER_LEND(work->marks));
    if (refusal) return refusal;
    for (size_t i = 0; i < count; i++) {
        races[i].first = records[i][1];
        races[i].length = records[i][2];
        races[i].answer = answers[i];
        for (size_t k = 0; k < PLANNER_ASSIGNMENT_SIZE; k++) races[i].state->assignment[k] = assignments[i][k];
    }
    return 0;
}

/* planner_squeeze: a plan file without its locked variables, in its own buffer. */
static inline planner_squeezed planner_file_squeeze(uint8_t *file, size_t file_length, planner_list *old) {
    return planner_squeeze(file, file_length, PLANNER_LEND(old->numbers));
}

/* planner_write_opb: a loaded plan as an OPB text. */
static inline planner_written planner_plan_write_opb(const planner_plan *plan, char *text, size_t text_length) {
    return planner_write_opb(PLANNER_LEND(plan->tables), PLANNER_LEND(plan->terms), (uint8_t *)text, text_length);
}

/* ---- readers of a loaded plan and of an opened state; of any other they give some number and read nothing outside */

/* The number that stands in the 4 bytes at a place. */
static inline uint32_t planner_word(const uint8_t *bytes) {
    return (uint32_t)bytes[0] | (uint32_t)bytes[1] << 8 | (uint32_t)bytes[2] << 16 | (uint32_t)bytes[3] << 24;
}

/* How many variables the plan has; they are numbered from 1. */
static inline uint32_t planner_plan_variables(const planner_plan *plan) { return planner_word(plan->tables); }

/* How many clauses the plan has; they are numbered from 1, in the order of the file. */
static inline uint32_t planner_plan_clauses(const planner_plan *plan) { return planner_word(plan->tables + 4); }

/* What a variable adds to the cost where its byte is 1; 0 for one that is not in the plan. */
static inline int64_t planner_plan_coefficient(const planner_plan *plan, uint32_t variable) {
    if (variable < 1 || variable > PLANNER_MOST_VARIABLES) return 0;
    uint32_t word = planner_word(plan->tables + 16 + 4 * ((size_t)variable - 1));
    return (int64_t)(word ^ 0x80000000u) - INT64_C(0x80000000);
}

/* Where a variable of the plan stands. */
enum planner_lock { PLANNER_FREE = 0, PLANNER_LOCKED_AT_0 = 1, PLANNER_LOCKED_AT_1 = 2 };

/* Whether the plan has locked a variable, and at which value: enum planner_lock; PLANNER_FREE for one that is not in
 * the plan. */
static inline uint32_t planner_plan_lock(const planner_plan *plan, uint32_t variable) {
    if (variable < 1 || variable > PLANNER_MOST_VARIABLES) return PLANNER_FREE;
    return planner_word(plan->tables + PLANNER_LOCKS_PLACE + 4 * ((size_t)variable - 1));
}

/* The old number of a squeezed plan's variable; 0 for one that is not in it. */
static inline uint32_t planner_list_old(const planner_list *old, uint32_t variable) {
    if (variable < 1 || variable > PLANNER_MOST_VARIABLES) return 0;
    return planner_word(old->numbers + 4 * ((size_t)variable - 1));
}

/* The cost of the state's assignment. */
static inline int64_t planner_state_cost(const planner_state *state, const planner_plan *plan) {
    uint32_t variables = planner_plan_variables(plan);
    int64_t cost = 0;
    for (uint32_t variable = 1; variable <= variables && variable <= PLANNER_MOST_VARIABLES; variable++) {
        if (state->assignment[variable - 1]) cost += planner_plan_coefficient(plan, variable);
    }
    return cost;
}

/* How many clauses the state's assignment does not meet. */
static inline uint32_t planner_state_unmet(const planner_state *state) {
    return planner_word(state->tallies + PLANNER_TALLIES_SIZE - 4);
}

/* Whether it meets a clause; 0 for one that is not in the plan. */
static inline int planner_state_meets(const planner_state *state, uint32_t clause) {
    if (clause < 1 || clause > PLANNER_MOST_CLAUSES) return 0;
    return planner_word(state->tallies + 4 * (PLANNER_MOST_RULES + 1) + 4 * ((size_t)clause - 1)) != 0;
}

/* ---- guards: the layout that the archive has */

#if defined(__cplusplus) && __cplusplus >= 201103L
#define PLANNER_GUARD(condition) static_assert(condition, #condition)
#elif !defined(__cplusplus) && defined(__STDC_VERSION__) && __STDC_VERSION__ >= 201112L
#define PLANNER_GUARD(condition) _Static_assert(condition, #condition)
#else
#define PLANNER_GUARD(condition) struct planner_guard
#endif

PLANNER_GUARD(sizeof(void *) == 8 && sizeof(size_t) == 8);
PLANNER_GUARD(sizeof(planner_loaded) == 16 && offsetof(planner_loaded, offset) == 8);
PLANNER_GUARD(sizeof(planner_flipped) == 8 && offsetof(planner_flipped, rules) == 4);
PLANNER_GUARD(sizeof(planner_counted) == 20 && offsetof(planner_counted, break_cut) == 8);
PLANNER_GUARD(offsetof(planner_counted, make_count) == 12 && offsetof(planner_counted, make_cut) == 16);
PLANNER_GUARD(sizeof(planner_searched) == 40 && offsetof(planner_searched, cost) == 8);
PLANNER_GUARD(offsetof(planner_searched, finds) == 16 && offsetof(planner_searched, used) == 32);
PLANNER_GUARD(sizeof(planner_figures) == 56 && offsetof(planner_figures, share_top) == 8);
PLANNER_GUARD(PLANNER_ALL_SETTINGS_SIZE == PLANNER_MOST_RACES * 6 * sizeof(uint32_t));
PLANNER_GUARD(PLANNER_ALL_ASSIGNMENTS_SIZE == PLANNER_MOST_RACES * PLANNER_ASSIGNMENT_SIZE);
PLANNER_GUARD(PLANNER_ALL_ANSWERS_SIZE == PLANNER_MOST_RACES * sizeof(planner_searched));
PLANNER_GUARD(sizeof(planner_written) == 16 && offsetof(planner_written, length) == 8);
PLANNER_GUARD(sizeof(planner_squeezed) == 32 && offsetof(planner_squeezed, offset) == 8);
PLANNER_GUARD(offsetof(planner_squeezed, length) == 16 && offsetof(planner_squeezed, constant) == 24);
PLANNER_GUARD(PLANNER_LIST_SIZE == 4 * PLANNER_MOST_VARIABLES && sizeof(planner_list) == PLANNER_LIST_SIZE);
PLANNER_GUARD(sizeof(planner_plan) == PLANNER_TABLES_SIZE + PLANNER_TERMS_SIZE);
PLANNER_GUARD(sizeof(planner_state) == PLANNER_ASSIGNMENT_SIZE + PLANNER_TALLIES_SIZE);
PLANNER_GUARD(sizeof(planner_work) ==
              sizeof(planner_plan) + PLANNER_ASSIGNMENT_SIZE + PLANNER_KEPT_SIZE + PLANNER_MARKS_SIZE);
PLANNER_GUARD(PLANNER_LOCKS_PLACE ==
              4 * (4 + PLANNER_MOST_VARIABLES + 2 * (PLANNER_MOST_CLAUSES + 1) + 5 * (PLANNER_MOST_RULES + 1)));
PLANNER_GUARD(PLANNER_TABLES_SIZE ==
              PLANNER_LOCKS_PLACE + 4 * (3 * PLANNER_MOST_VARIABLES + 1 + PLANNER_MOST_TERMS));
PLANNER_GUARD(PLANNER_TERMS_SIZE == 8 * (PLANNER_MOST_TERMS + PLANNER_MOST_VARIABLES));
PLANNER_GUARD(PLANNER_TALLIES_SIZE == 4 * (PLANNER_MOST_RULES + 1 + PLANNER_MOST_CLAUSES + 1 + 1));
PLANNER_GUARD(PLANNER_KEPT_SIZE == PLANNER_TALLIES_SIZE + 20 * (PLANNER_MOST_RULES + 1));
PLANNER_GUARD(PLANNER_MARKS_SIZE == 13 * PLANNER_MOST_VARIABLES + 4 * (PLANNER_MOST_CLAUSES + 1) +
                                        8 * (PLANNER_MOST_TERMS + PLANNER_MOST_VARIABLES));
PLANNER_GUARD(PLANNER_TABLES_SIZE <= 65536 && PLANNER_TERMS_SIZE <= 65536 && PLANNER_KEPT_SIZE <= 65536 &&
              PLANNER_MARKS_SIZE <= 65536);

#undef PLANNER_GUARD

#ifdef __cplusplus
}
#endif

#endif
