/* The proved calls as the desk tool makes them. The tool is written in Rust; here the header's inline functions lend
 * the buffers, so that their sizes and the layout of the answers stand in the header alone. A room holds the buffers of
 * one plan. An answer is a row of numbers, its refusal first. */
#include "mapper.h"
#include "planner.h"

#include <string.h>

typedef struct {
    planner_plan plan;
    planner_state state;
    planner_work work;
    planner_scratch scratch;
} desk_room;

size_t desk_room_size(void);
void desk_load(desk_room *room, const uint8_t *file, size_t length, int64_t *answer);
void desk_search(desk_room *room, const uint32_t *settings, const uint8_t *numbers, size_t length, int64_t *answer,
                 uint8_t *assignment);
void desk_runs(desk_room *room, const uint32_t *settings, const uint32_t *from, uint32_t runs, uint32_t count,
               int64_t *answer);
void desk_squeeze(uint8_t *file, size_t length, uint32_t *old, int64_t *answer);
void desk_write_opb(const desk_room *room, char *text, size_t length, int64_t *answer);
void desk_races(desk_room *const *rooms, const uint64_t *stakes, const uint32_t *settings, size_t count,
                const uint8_t *numbers, size_t length, int64_t *answers, uint8_t *assignments, int64_t *refusal);
void desk_map(const uint8_t *sites, size_t sites_length, const uint8_t *zones, size_t zones_length, uint8_t *plan,
              size_t plan_length, int64_t *answer);

/* Rust lends so many bytes for a room. */
size_t desk_room_size(void) { return sizeof(desk_room); }

/* Noise, tries, flips, mode, heuristic and walk chance. */
static planner_settings settings_of(const uint32_t *row) {
    planner_settings settings = planner_settings_of(row[0], row[1], row[2], row[3]);
    settings.heuristic = row[4];
    settings.chance = row[5];
    return settings;
}

static void put_searched(planner_searched found, int64_t *answer) {
    answer[0] = found.refusal;
    answer[1] = found.ending;
    answer[2] = found.cost;
    answer[3] = (int64_t)found.finds;
    answer[4] = (int64_t)found.flips;
    answer[5] = (int64_t)found.used;
}

/* Refusal, offset. */
void desk_load(desk_room *room, const uint8_t *file, size_t length, int64_t *answer) {
    planner_loaded loaded = planner_plan_load(&room->plan, file, length);
    answer[0] = loaded.refusal;
    answer[1] = (int64_t)loaded.offset;
}

/* Refusal, ending, cost, finds, flips, numbers used; and the assignment, 512 bytes. */
void desk_search(desk_room *room, const uint32_t *settings, const uint8_t *numbers, size_t length, int64_t *answer,
                 uint8_t *assignment) {
    memset(&room->state, 0, sizeof room->state);
    put_searched(
        planner_plan_search(&room->plan, settings_of(settings), numbers, length, &room->state, &room->work), answer);
    memcpy(assignment, room->state.assignment, PLANNER_ASSIGNMENT_SIZE);
}

/* Refusal, whether some run found an assignment, then the three fractions, each top and bottom: share, flips, cost. The
 * state is x, y, z, w, v and the counter. */
void desk_runs(desk_room *room, const uint32_t *settings, const uint32_t *from, uint32_t runs, uint32_t count,
               int64_t *answer) {
    planner_xorwow state = {from[0], from[1], from[2], from[3], from[4], from[5]};
    planner_figures figures =
        planner_plan_runs(&room->plan, settings_of(settings), state, runs, count, &room->scratch, &room->work);
    answer[0] = figures.refusal;
    answer[1] = figures.found;
    answer[2] = (int64_t)figures.share_top;
    answer[3] = (int64_t)figures.share_bottom;
    answer[4] = (int64_t)figures.flips_top;
    answer[5] = (int64_t)figures.flips_bottom;
    answer[6] = figures.cost_top;
    answer[7] = (int64_t)figures.cost_bottom;
}

/* Refusal, offset, length, constant; and the 512 old numbers. */
void desk_squeeze(uint8_t *file, size_t length, uint32_t *old, int64_t *answer) {
    planner_list list = {{0}};
    planner_squeezed squeezed = planner_file_squeeze(file, length, &list);
    answer[0] = squeezed.refusal;
    answer[1] = (int64_t)squeezed.offset;
    answer[2] = (int64_t)squeezed.length;
    answer[3] = squeezed.constant;
    for (uint32_t i = 0; i < PLANNER_MOST_VARIABLES; i++) old[i] = planner_list_old(&list, i + 1);
}

/* Refusal, length. */
void desk_write_opb(const desk_room *room, char *text, size_t length, int64_t *answer) {
    planner_written written = planner_plan_write_opb(&room->plan, text, length);
    answer[0] = written.refusal;
    answer[1] = (int64_t)written.length;
}

/* Of each of the races, 8 at most, a search's six numbers, then its first place and its length in the list; and 512
 * bytes of its assignment. The work buffers are those of the first room. */
void desk_races(desk_room *const *rooms, const uint64_t *stakes, const uint32_t *settings, size_t count,
                const uint8_t *numbers, size_t length, int64_t *answers, uint8_t *assignments, int64_t *refusal) {
    planner_race races[PLANNER_MOST_RACES];
    memset(races, 0, sizeof races);
    for (size_t i = 0; i < count && i < PLANNER_MOST_RACES; i++) {
        memset(&rooms[i]->state, 0, sizeof rooms[i]->state);
        races[i].stake = stakes[i];
        races[i].plan = &rooms[i]->plan;
        races[i].settings = settings_of(settings + 6 * i);
        races[i].state = &rooms[i]->state;
    }
    *refusal = planner_plan_races(races, count, numbers, length, &rooms[0]->work);
    for (size_t i = 0; i < count && i < PLANNER_MOST_RACES; i++) {
        put_searched(races[i].answer, answers + 8 * i);
        answers[8 * i + 6] = (int64_t)races[i].first;
        answers[8 * i + 7] = (int64_t)races[i].length;
        memcpy(assignments + PLANNER_ASSIGNMENT_SIZE * i, rooms[i]->state.assignment, PLANNER_ASSIGNMENT_SIZE);
    }
}

/* Refusal, list, row, length. */
void desk_map(const uint8_t *sites, size_t sites_length, const uint8_t *zones, size_t zones_length, uint8_t *plan,
              size_t plan_length, int64_t *answer) {
    planner_mapped mapped = planner_map_csv(sites, sites_length, zones, zones_length, plan, plan_length);
    answer[0] = mapped.refusal;
    answer[1] = mapped.list;
    answer[2] = (int64_t)mapped.row;
    answer[3] = (int64_t)mapped.length;
}
