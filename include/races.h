/* A list of numbers split among the races of a festival by their stakes, without a search: what planner_races of
 * planner.h does first. The call stands in an archive of its own, libraces.a.
 *
 *     planner_share_of races[2] = {{.stake = 3}, {.stake = 1}};
 *     uint32_t refusal = planner_share(races, 2, 4000);    // 0; the first gets 3,000 numbers from place 0, the second 1,000
 *
 * Each race gets the whole part of numbers times stake over all stakes, and what remains goes one each to the first
 * races. The parts follow one another. This is proved for a list of any length (docs/CLAIMS.md, docs/requests/T-10.md).
 *
 * The call may be made with anything at all, returns, allocates nothing and keeps no pointer. Where it refuses, it
 * changes nothing; else it writes first and length of each record. NULL is fine where the count is 0. x86-64 Linux, C99
 * and C++11.
 */
#ifndef PLANNER_RACES_H
#define PLANNER_RACES_H

#include <stddef.h>
#include <stdint.h>

#ifdef __cplusplus
extern "C" {
#endif

/* A race: its stake, 1 to 100, is the caller's; its first place, from 0, and its length are written. */
typedef struct {
    size_t stake, first, length;
} planner_share_of;

/* 61 for no race or more than 8, 62 for a stake, in this order; else 0. */
uint32_t planner_share(planner_share_of *races, size_t count, size_t numbers);

#ifdef __cplusplus
}
#endif

#endif
