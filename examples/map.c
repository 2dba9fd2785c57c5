/* From the mapper's two lists to the codes of the sites chosen: reads sites.csv, zones.csv and numbers.bin of a folder
 * (the first argument, or the current one), makes the plan, searches, and prints what it costs and a code a line.
 * What is wrong in a row is told in words with list and row. */
#include "mapper.h"
#include "planner.h"
#include <stdio.h>

static uint8_t sites[PLANNER_INPUT_SIZE], zones[PLANNER_INPUT_SIZE], numbers[PLANNER_INPUT_SIZE];
static uint8_t file[PLANNER_PLAN_SIZE];
static planner_plan plan;
static planner_state state;
static planner_work work;

/* Reads a file of the folder; whether it could be read and fits. */
static int read_file(const char *folder, const char *name, uint8_t *bytes, size_t *length) {
    char path[4096];
    int fits;
    FILE *f;
    *length = 0;
    if (snprintf(path, sizeof path, "%s/%s", folder, name) >= (int)sizeof path) return 0;
    f = fopen(path, "rb");
    if (f) {
        *length = fread(bytes, 1, PLANNER_INPUT_SIZE, f);
        fits = !ferror(f) && fgetc(f) == EOF;
        fclose(f);
        if (fits) return 1;
    }
    printf("%s cannot be read, or has more than 65,536 bytes.\n", name);
    return 0;
}

/* Prints a row's first field without its quotes, and answers where the next row begins. The list was accepted, so that
 * quotes come in pairs and every row but the last ends in CRLF. */
static size_t print_code(size_t at, size_t length, int shown) {
    int quoted = sites[at] == '"', first = 1;
    for (at += (size_t)quoted; at < length; at++) {
        if (quoted && sites[at] == '"') {
            quoted = at + 1 < length && sites[at + 1] == '"';
            if (!quoted) continue;
            at++;
        } else if (!quoted && sites[at] == ',') {
            first = 0;
            if (at + 1 < length && sites[at + 1] == '"') quoted = 1, at++;
            continue;
        } else if (!quoted && sites[at] == '\r') {
            at += 2;
            break;
        }
        if (first && shown) putchar(sites[at]);
    }
    if (shown) putchar('\n');
    return at;
}

static int refuse_lists(planner_mapped mapped) {
    static const char *const lists[] = {"", "sites.csv", "zones.csv"};
    const char *text = planner_mapped_text(mapped.refusal);
    unsigned number = mapped.refusal;
    if (mapped.list) printf("%s, row %zu: %s (%u).\n", lists[mapped.list], mapped.row, text, number);
    else printf("The lists are refused (%u): %s.\n", number, text);
    return 1;
}

int main(int count, char **words) {
    const char *folder = count > 1 ? words[1] : ".";
    size_t site_bytes, zone_bytes, number_bytes, at = 0;
    planner_mapped mapped;
    planner_loaded loaded;
    planner_settings settings;
    planner_searched found;
    uint32_t site;

    if (!read_file(folder, "sites.csv", sites, &site_bytes) || !read_file(folder, "zones.csv", zones, &zone_bytes)
        || !read_file(folder, "numbers.bin", numbers, &number_bytes))
        return 1;
    mapped = planner_map_csv(sites, site_bytes, zones, zone_bytes, file, sizeof file);
    if (mapped.refusal) return refuse_lists(mapped);
    loaded = planner_plan_load(&plan, file, mapped.length);
    if (loaded.refusal) return 1; /* never: an accepted pair of lists has a plan that loads */
    settings = planner_settings_of(400, 3, 300, PLANNER_LBS);
    found = planner_plan_search(&plan, settings, numbers, number_bytes, &state, &work);
    printf("%s\n", planner_ending_text(found.ending));
    if (found.finds == 0) return 0;
    printf("%lld metres\n", (long long)found.cost);
    for (site = 0; site < planner_plan_variables(&plan); site++) {
        at = print_code(at, site_bytes, state.assignment[site]);
    }
    return 0;
}
