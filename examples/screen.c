/* A screen for the tent: it loads a plan, searches, shows what was chosen by name, and lets the crew turn sites over
 * and see which clauses that leaves unmet.
 *
 *     screen [FOLDER]
 *
 * FOLDER, or the current one, holds plan.bin, walk.bin and numbers.bin. names.txt has a line for each variable and
 * clauses.txt one for each clause, if they are there; `desk write` writes all five. Commands come from the standard
 * input; `help` lists them. It exits with 1 where a file is refused.
 *
 * Where FOLDER has a file races.txt it is a festival: a line of it has a race's stake and the name of the subfolder that
 * holds its plan.bin, walk.bin, names.txt and clauses.txt. All races are planned from FOLDER's numbers.bin, and what is
 * chosen is shown. Commands are for one race, the first, until `race` takes another. A festival is not planned in parts
 * of its list: with a shorter list each race would have other numbers, and not the first of those that it has.
 *
 * The planner's calls are proved. What this program does around them is not: it reads the files, and it judges walk.bin
 * and the length of numbers.bin itself, as docs/FORMAT.md says.
 */
#include "planner.h"

#include <stdio.h>
#include <string.h>

enum { NAME_SIZE = 40, CLAUSE_SIZE = 120, LINE_SIZE = 80, LONG_LIST = 1024 };

static uint8_t plan_file[PLANNER_INPUT_SIZE], walk_file[PLANNER_INPUT_SIZE], numbers[PLANNER_INPUT_SIZE];
static planner_plan plan;
static planner_state state, trial;
static planner_work work;
static char names[PLANNER_MOST_VARIABLES][NAME_SIZE];
static char clauses[PLANNER_MOST_CLAUSES][CLAUSE_SIZE];

/* ---- files */

static FILE *open_file(const char *folder, const char *name) {
    char path[4096];
    int length = snprintf(path, sizeof path, "%s/%s", folder, name);
    if (length < 0 || (size_t)length >= sizeof path) return NULL;
    return fopen(path, "rb");
}

/* Reads a file of at most PLANNER_INPUT_SIZE bytes. One that cannot be opened or read counts as empty. Whether it
 * fits: a longer one is told by the byte that follows. */
static int read_file(const char *folder, const char *name, uint8_t *bytes, size_t *length) {
    int fits = 1;
    FILE *file = open_file(folder, name);
    *length = 0;
    if (!file) return fits;
    *length = fread(bytes, 1, PLANNER_INPUT_SIZE, file);
    if (*length == PLANNER_INPUT_SIZE) fits = fgetc(file) == EOF;
    if (ferror(file)) *length = 0;
    fclose(file);
    return fits;
}

/* One line without the blanks around it; 0 at the end of the input. What cannot be shown becomes '?', and so does what
 * has no room. */
static int read_line(FILE *file, char *line, size_t room) {
    size_t length = 0;
    int c = getc(file);
    if (c == EOF) return 0;
    while (c != EOF && c != '\n') {
        int skipped = c == '\r' || (c == ' ' && length == 0);
        if (!skipped && length + 1 < room) {
            line[length] = c < 32 || c == 127 ? '?' : (char)c;
            length++;
        } else if (!skipped) {
            line[room - 2] = '?';
        }
        c = getc(file);
    }
    while (length > 0 && line[length - 1] == ' ') length--;
    line[length] = 0;
    return 1;
}

/* A variable without a name of its own is called x and its number. */
static void read_names(const char *folder) {
    FILE *file = open_file(folder, "names.txt");
    for (unsigned i = 0; i < PLANNER_MOST_VARIABLES; i++) {
        int named = file && read_line(file, names[i], NAME_SIZE) && names[i][0];
        if (!named) snprintf(names[i], NAME_SIZE, "x%u", i + 1);
    }
    if (file) fclose(file);
}

/* A clause without words of its own has its number alone. */
static void read_clauses(const char *folder) {
    FILE *file = open_file(folder, "clauses.txt");
    for (unsigned i = 0; i < PLANNER_MOST_CLAUSES; i++) {
        int named = file && read_line(file, clauses[i], CLAUSE_SIZE);
        if (!named) clauses[i][0] = 0;
    }
    if (file) fclose(file);
}

static uint32_t two_bytes(const uint8_t *bytes) { return (uint32_t)bytes[0] | (uint32_t)bytes[1] << 8; }

/* walk.bin is one field: tag 16, length 9, then noise, tries, flips and mode; or length 12, and behind these the
 * heuristic and its walk chance. */
static planner_loaded read_walk(size_t length, planner_settings *settings) {
    planner_loaded answer = {PLANNER_ACCEPTED, 0};
    size_t body = length < 3 ? 0 : two_bytes(walk_file + 1);
    if (length < 3) {
        answer.refusal = PLANNER_CUT_SHORT;
    } else if (walk_file[0] != 16) {
        answer.refusal = PLANNER_WRONG_TAG;
    } else if (body != 9 && body != 12) {
        answer.refusal = PLANNER_WRONG_LENGTH;
    } else if (length < 3 + body) {
        answer.refusal = PLANNER_CUT_SHORT;
    } else if (length > 3 + body) {
        answer.refusal = PLANNER_BYTES_AFTER_END;
        answer.offset = 3 + body;
    }
    if (answer.refusal) return answer;
    *settings = planner_settings_of(two_bytes(walk_file + 3), two_bytes(walk_file + 5), planner_word(walk_file + 7),
                                    walk_file[11]);
    if (body == 12) {
        settings->heuristic = walk_file[12];
        settings->chance = two_bytes(walk_file + 13);
    }
    if (settings->noise > 1000) {
        answer.refusal = PLANNER_WRONG_NOISE;
    } else if (settings->tries < 1 || settings->tries > 1000) {
        answer.refusal = PLANNER_WRONG_TRIES;
    } else if (settings->flips < 1 || settings->flips > 1000000) {
        answer.refusal = PLANNER_WRONG_FLIPS;
    } else if (settings->mode > 1) {
        answer.refusal = PLANNER_WRONG_MODE;
    } else if (settings->heuristic > 1) {
        answer.refusal = PLANNER_WRONG_HEURISTIC;
    } else if (settings->chance > 1000) {
        answer.refusal = PLANNER_WRONG_CHANCE;
    }
    return answer;
}

static int refuse(const char *what, uint32_t refusal, size_t offset) {
    printf("%s is refused (%u): %s", what, (unsigned)refusal, planner_refusal_text(refusal));
    if (refusal <= PLANNER_BYTES_AFTER_END || refusal == PLANNER_WRONG_LOCK) printf(", at byte %zu", offset);
    printf(".\n");
    return 1;
}

/* ---- what is shown */

/* A state's cost and how many clauses it does not meet. */
static void show_standing_in(const planner_plan *in, const planner_state *of) {
    unsigned unmet = planner_state_unmet(of);
    printf("cost %lld, ", (long long)planner_state_cost(of, in));
    if (unmet) {
        printf("%u of %u clauses not met.\n", unmet, (unsigned)planner_plan_clauses(in));
    } else {
        printf("every clause met.\n");
    }
}

static void show_standing(const planner_state *of) { show_standing_in(&plan, of); }

/* What is shown behind a site's name: nobody but the mapper may change a locked one. */
static const char *locked(unsigned variable) {
    return planner_plan_lock(&plan, variable) == PLANNER_FREE ? "" : " (locked)";
}

static void show_chosen(void) {
    unsigned variables = planner_plan_variables(&plan), chosen = 0;
    for (unsigned i = 0; i < variables; i++) {
        if (state.assignment[i]) {
            printf("%5u  %s%s\n", i + 1, names[i], locked(i + 1));
            chosen++;
        }
    }
    printf("%u of %u chosen: ", chosen, variables);
    show_standing(&state);
}

static void show_all(void) {
    unsigned variables = planner_plan_variables(&plan);
    for (unsigned i = 0; i < variables; i++) {
        printf("%5u  %-3s  %s%s\n", i + 1, state.assignment[i] ? "yes" : "no", names[i], locked(i + 1));
    }
}

/* A clause's number, what there is to say of it, and its words. */
static void show_clause(unsigned clause, const char *what) {
    const char *words = clauses[clause - 1];
    printf("%5u  %s%s%s\n", clause, what, words[0] ? ": " : "", words);
}

static void show_unmet(void) {
    unsigned count = planner_plan_clauses(&plan);
    for (unsigned clause = 1; clause <= count; clause++) {
        if (!planner_state_meets(&state, clause)) show_clause(clause, "not met");
    }
    printf("As it stands: ");
    show_standing(&state);
}

/* The clauses that are met in one of the two states and not in the other. */
static void show_changes(const planner_state *before, const planner_state *after) {
    unsigned count = planner_plan_clauses(&plan);
    for (unsigned clause = 1; clause <= count; clause++) {
        int met_before = planner_state_meets(before, clause), met_after = planner_state_meets(after, clause);
        if (met_before && !met_after) show_clause(clause, "no longer met");
        if (!met_before && met_after) show_clause(clause, "now met");
    }
}

/* ---- the planner's calls */

/* Searches with the first so many bytes of the list. Where nothing is found the sites that are locked at yes stay
 * chosen, and no other. */
static planner_searched search_part(planner_settings settings, size_t length) {
    memset(&state, 0, sizeof state);
    for (unsigned i = 0; i < planner_plan_variables(&plan); i++) {
        state.assignment[i] = planner_plan_lock(&plan, i + 1) == PLANNER_LOCKED_AT_1;
    }
    return planner_plan_search(&plan, settings, numbers, length, &state, &work);
}

/* A search cannot be asked how far it is. So that the crew sees something early, a long list is searched with its first
 * sixteenth and its first quarter before the whole: what these find is what the whole finds first. */
static planner_searched search_list(planner_settings settings, size_t length) {
    size_t count = length / 4;
    for (size_t part = 16; part > 1 && count >= LONG_LIST; part /= 4) {
        planner_searched found = search_part(settings, count / part * 4);
        int is_short = found.ending == PLANNER_SHORT_FOUND || found.ending == PLANNER_SHORT_NONE;
        if (!is_short) return found;
        printf("With %zu of %zu numbers: ", count / part, count);
        if (found.finds) {
            printf("cost %lld so far.\n", (long long)found.cost);
        } else {
            printf("nothing so far.\n");
        }
        fflush(stdout);
    }
    return search_part(settings, length);
}

/* Searches and opens what was found. */
static int search(planner_settings settings, size_t length) {
    planner_searched found = search_list(settings, length);
    if (found.refusal) return refuse("The search", found.refusal, 0);
    planner_opened opened = planner_state_open(&state, &plan);
    if (opened.refusal) return refuse("The opening", opened.refusal, 0);
    printf("%s.\n", planner_ending_text(found.ending));
    if (found.finds) printf("Cost %lld. ", (long long)found.cost);
    printf("%zu found, %zu flips, %zu of %zu numbers used.\n", found.finds, found.flips, found.used, length / 4);
    show_chosen();
    return 0;
}

/* A count that is cut stands for every number above the largest that can be given out. */
static void show_count(const char *what, uint32_t count, uint32_t cut) {
    if (cut) {
        printf("%s more than 4,294,967,295", what);
    } else {
        printf("%s %u", what, (unsigned)count);
    }
}

/* What a flip would do: it is made on a copy. That of a locked site is refused, as it is in earnest. */
static void show_flip(uint32_t variable) {
    planner_counted counted = planner_state_counts(&state, &plan, variable);
    if (counted.refusal) {
        refuse("This", counted.refusal, 0);
        return;
    }
    trial = state;
    planner_flipped flipped = planner_state_flip(&trial, &plan, variable);
    if (flipped.refusal) {
        refuse("The flip", flipped.refusal, 0);
        return;
    }
    int chosen = state.assignment[variable - 1];
    printf("%s is %s. %s it: ", names[variable - 1], chosen ? "chosen" : "not chosen", chosen ? "Without" : "With");
    show_standing(&trial);
    show_changes(&state, &trial);
    show_count("Of the plan's full expansion this would spoil", counted.break_count, counted.break_cut);
    show_count(" and mend", counted.make_count, counted.make_cut);
    printf(".\n");
}

static void flip(uint32_t variable) {
    trial = state;
    planner_flipped flipped = planner_state_flip(&state, &plan, variable);
    if (flipped.refusal) {
        refuse("The flip", flipped.refusal, 0);
        return;
    }
    printf("%s is %s: ", names[variable - 1], state.assignment[variable - 1] ? "now chosen" : "no longer chosen");
    show_standing(&state);
    show_changes(&trial, &state);
}

/* ---- a festival: a folder with numbers.bin, a subfolder for each race, and races.txt, a line for each race: its stake
 * and the name of its subfolder */

static planner_plan race_plans[PLANNER_MOST_RACES];
static planner_state race_states[PLANNER_MOST_RACES];
static planner_race races[PLANNER_MOST_RACES + 1];
static char race_folders[PLANNER_MOST_RACES + 1][LINE_SIZE];

/* How many races there are, 0 for a single plan; and which of them the commands are for. */
static size_t race_count, race_shown;

/* The races of races.txt, one more than there may be at most. */
static size_t read_races(FILE *file) {
    char line[LINE_SIZE];
    size_t count = 0;
    while (count <= PLANNER_MOST_RACES && read_line(file, line, sizeof line)) {
        size_t digits = strspn(line, "0123456789"), stake = 0;
        for (size_t i = 0; i < digits && stake <= 100; i++) stake = 10 * stake + (size_t)(line[i] - '0');
        races[count].stake = stake;
        snprintf(race_folders[count], LINE_SIZE, "%s", line + digits + strspn(line + digits, " "));
        count++;
    }
    return count;
}

/* Reads one race's plan and settings; 1 where a file is refused. */
static int read_race(const char *folder, size_t i) {
    char path[4096];
    size_t plan_length, walk_length;
    snprintf(path, sizeof path, "%s/%s", folder, race_folders[i]);
    int fits = read_file(path, "plan.bin", plan_file, &plan_length);
    fits &= read_file(path, "walk.bin", walk_file, &walk_length);
    if (!fits) return refuse(race_folders[i], PLANNER_FILE_TOO_LARGE, 0);
    planner_loaded loaded = planner_plan_load(&race_plans[i], plan_file, plan_length);
    if (loaded.refusal) return refuse(race_folders[i], loaded.refusal, loaded.offset);
    planner_loaded walk = read_walk(walk_length, &races[i].settings);
    if (walk.refusal) return refuse(race_folders[i], walk.refusal, walk.offset);
    races[i].plan = &race_plans[i];
    races[i].state = &race_states[i];
    return 0;
}

/* The plan, the state and the words of one race are those that commands are for. */
static void take_race(const char *folder, size_t i) {
    char path[4096];
    snprintf(path, sizeof path, "%s/%s", folder, race_folders[i]);
    read_names(path);
    read_clauses(path);
    plan = race_plans[i];
    state = race_states[i];
    race_shown = i;
}

static void show_race(const char *folder, size_t i) {
    const planner_searched *found = &races[i].answer;
    printf("%s: numbers %zu to %zu. ", race_folders[i], races[i].first, races[i].first + races[i].length);
    planner_opened opened = planner_state_open(&race_states[i], &race_plans[i]);
    take_race(folder, i);
    if (found->refusal || opened.refusal) {
        refuse("The search", found->refusal ? found->refusal : opened.refusal, 0);
        return;
    }
    printf("%s.\n", planner_ending_text(found->ending));
    if (found->finds) printf("Cost %lld. ", (long long)found->cost);
    printf("%zu found, %zu flips, %zu of %zu numbers used.\n", found->finds, found->flips, found->used, races[i].length);
    show_chosen();
}

/* Plans every race. Where nothing is found the sites that are locked at yes stay chosen, and no other. */
static int search_races(const char *folder, size_t count, size_t numbers_length) {
    for (size_t i = 0; i < count && i < PLANNER_MOST_RACES; i++) {
        memset(&race_states[i], 0, sizeof race_states[i]);
        for (unsigned k = 0; k < planner_plan_variables(&race_plans[i]); k++) {
            race_states[i].assignment[k] = planner_plan_lock(&race_plans[i], k + 1) == PLANNER_LOCKED_AT_1;
        }
    }
    uint32_t refusal = planner_plan_races(races, count, numbers, numbers_length, &work);
    if (refusal) return refuse("The festival", refusal, 0);
    for (size_t i = 0; i < count; i++) show_race(folder, i);
    take_race(folder, 0);
    printf("Commands are for %s; race NAME takes another.\n", race_folders[0]);
    return 0;
}

/* Every race with its number, cost and unmet clauses. */
static void show_races(void) {
    race_states[race_shown] = state;
    for (size_t i = 0; i < race_count; i++) {
        printf("%5zu  %s: ", i + 1, race_folders[i]);
        show_standing_in(&race_plans[i], &race_states[i]);
    }
}

/* Another race, by its number or by the name of its subfolder. */
static void change_race(const char *folder, const char *words) {
    size_t i = 0;
    char number[24];
    for (; i < race_count; i++) {
        snprintf(number, sizeof number, "%zu", i + 1);
        if (strcmp(words, number) == 0 || strcmp(words, race_folders[i]) == 0) break;
    }
    if (i == race_count) {
        printf("No race is called '%s'.\n", words);
        return;
    }
    race_states[race_shown] = state;
    take_race(folder, i);
    printf("%s.\n", race_folders[i]);
    show_chosen();
}

/* ---- commands */

/* A variable by its number, or else by its name; whether there is one so called. A number without room stands for the
 * largest, which no plan has; 0 is in no plan either. */
static int find_variable(const char *words, uint32_t *variable) {
    uint64_t number = 0;
    size_t digits = strspn(words, "0123456789");
    for (size_t i = 0; i < digits && number < UINT32_MAX; i++) number = 10 * number + (uint64_t)(words[i] - '0');
    if (digits > 0 && words[digits] == 0) {
        *variable = number < UINT32_MAX ? (uint32_t)number : UINT32_MAX;
        return 1;
    }
    for (uint32_t i = 0; i < planner_plan_variables(&plan); i++) {
        if (strcmp(words, names[i]) == 0) {
            *variable = i + 1;
            return 1;
        }
    }
    return 0;
}

static void show_help(void) {
    printf("show             what is chosen\n");
    printf("all              every site, chosen or not, and which are locked\n");
    printf("unmet            the clauses that are not met\n");
    printf("try SITE         what turning a site over would do\n");
    printf("flip SITE        turn it over\n");
    printf("search           from the files, again\n");
    printf("races            every race of a festival\n");
    printf("race NAME        take another race, by number or name\n");
    printf("quit\n");
    printf("SITE is a number or a name.\n");
}

/* A command with a site after it. */
static void turn(const char *command, const char *words) {
    uint32_t variable;
    if (!find_variable(words, &variable)) {
        printf("No site is called '%s'.\n", words);
    } else if (strcmp(command, "try") == 0) {
        show_flip(variable);
    } else {
        flip(variable);
    }
}

/* What was read, for commands that need it again. */
typedef struct {
    const char *folder;
    planner_settings settings;
    size_t numbers_length;
} session;

/* A command that is for a single plan or for a festival, as the folder has it. */
static void search_again(const session *of) {
    if (race_count) {
        search_races(of->folder, race_count, of->numbers_length);
    } else {
        search(of->settings, of->numbers_length);
    }
}

/* A command about the races of a festival. */
static void about_races(const session *of, const char *command, const char *words) {
    if (!race_count) {
        printf("This is no festival.\n");
    } else if (strcmp(command, "races") == 0) {
        show_races();
    } else {
        change_race(of->folder, words);
    }
}

static void run_command(const session *of, const char *command, const char *words) {
    if (strcmp(command, "show") == 0) {
        show_chosen();
    } else if (strcmp(command, "all") == 0) {
        show_all();
    } else if (strcmp(command, "unmet") == 0) {
        show_unmet();
    } else if (strcmp(command, "search") == 0) {
        search_again(of);
    } else if (strcmp(command, "races") == 0 || strcmp(command, "race") == 0) {
        about_races(of, command, words);
    } else if (strcmp(command, "help") == 0) {
        show_help();
    } else if (strcmp(command, "try") == 0 || strcmp(command, "flip") == 0) {
        turn(command, words);
    } else if (command[0]) {
        printf("No command is called '%s'; try help.\n", command);
    }
}

static void run_commands(const session *of) {
    char line[LINE_SIZE];
    fflush(stdout);
    while (read_line(stdin, line, sizeof line)) {
        char *words = line + strcspn(line, " ");
        if (*words) {
            *words = 0;
            words++;
        }
        words += strspn(words, " ");
        if (strcmp(line, "quit") == 0) return;
        run_command(of, line, words);
        fflush(stdout);
    }
}

/* Plans every race of a festival from its one list of numbers. */
static int run_festival(const char *folder, FILE *list) {
    session of = {folder, planner_settings_of(0, 0, 0, 0), 0};
    size_t count = read_races(list);
    fclose(list);
    if (!read_file(folder, "numbers.bin", numbers, &of.numbers_length)) {
        return refuse("numbers.bin", PLANNER_FILE_TOO_LARGE, 0);
    }
    if (of.numbers_length % 4 != 0) return refuse("numbers.bin", PLANNER_CUT_NUMBER, 0);
    for (size_t i = 0; i < count && i < PLANNER_MOST_RACES; i++) {
        if (read_race(folder, i)) return 1;
    }
    if (search_races(folder, count, of.numbers_length)) return 1;
    race_count = count;
    run_commands(&of);
    return 0;
}

/* Plans one folder and shows it. */
static int run_plan(const char *folder) {
    session of = {folder, planner_settings_of(0, 0, 0, 0), 0};
    size_t plan_length, walk_length;
    int fits = read_file(folder, "plan.bin", plan_file, &plan_length);
    fits &= read_file(folder, "walk.bin", walk_file, &walk_length);
    fits &= read_file(folder, "numbers.bin", numbers, &of.numbers_length);
    if (!fits) return refuse("One of the files", PLANNER_FILE_TOO_LARGE, 0);

    planner_loaded loaded = planner_plan_load(&plan, plan_file, plan_length);
    if (loaded.refusal) return refuse("plan.bin", loaded.refusal, loaded.offset);
    planner_loaded walk = read_walk(walk_length, &of.settings);
    if (walk.refusal) return refuse("walk.bin", walk.refusal, walk.offset);
    if (of.numbers_length % 4 != 0) return refuse("numbers.bin", PLANNER_CUT_NUMBER, 0);

    read_names(folder);
    read_clauses(folder);
    if (search(of.settings, of.numbers_length)) return 1;
    run_commands(&of);
    return 0;
}

int main(int count, char **arguments) {
    const char *folder = count > 1 ? arguments[1] : ".";
    FILE *festival = open_file(folder, "races.txt");
    return festival ? run_festival(folder, festival) : run_plan(folder);
}
