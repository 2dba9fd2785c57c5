/* From the mapper's two lists to a plan file, which planner.h's calls load and search.
 *
 *     planner_mapped mapped = planner_map_csv(sites, sites_length, zones, zones_length, file, sizeof file);
 *     if (mapped.refusal) puts(planner_mapped_text(mapped.refusal));    // with mapped.list and mapped.row
 *     else planner_plan_load(&plan, file, mapped.length);
 *
 * The lists are CSV by RFC 4180's grammar without header lines: fields are divided by commas, rows end in CRLF, the
 * last one may lack it. A field may stand in quotes, and has to where it holds a comma, CR, LF or quote; a quote in it
 * is written twice. Values are compared, counted and read without their quotes.
 *
 *     sites: code, carry metres, zone            31,120,crossing
 *     zones: zone, least, most, yes or no        crossing,2,4,yes
 *
 * A code or zone has 1 to 16 bytes, a number 1 to 7 digits. Metres are 0 to 1,000,000, least and most 0 to 512. The
 * plan has a variable for each site in the list's order, the metres for its objective, and a clause for each zone:
 * between least and most of its sites, or, with yes, none of them. Its solutions are the choices of sites that obey the
 * zone list; this is proved, as is everything said here of the call (docs/CLAIMS.md, docs/requests/T-07.md).
 *
 * The call may be made with anything at all, returns, allocates nothing and keeps no pointer. Where it refuses, it
 * changes no byte; else it writes the first mapped.length bytes of the plan buffer and no other. The lists are read
 * only. No byte of the plan buffer is lent twice. NULL is fine where a length is 0. x86-64 Linux, C99 and C++11.
 */
#ifndef PLANNER_MAPPER_H
#define PLANNER_MAPPER_H

#include <stddef.h>
#include <stdint.h>

#ifdef __cplusplus
extern "C" {
#endif

/* The bytes that the plan buffer has at least: the largest plan file. */
#define PLANNER_PLAN_SIZE 54446

/* Why two lists are turned away, in the order in which it is tried: 21, then 51 to 53 row by row, the site list before
 * the zone list, then 54, 55 and 4. The numbers 4 and 21 are those of planner.h. */
enum planner_map_refusal {
    PLANNER_MAP_TOO_LARGE = 4,
    PLANNER_MAP_BUFFER_TOO_SMALL = 21,
    PLANNER_MALFORMED_ROW = 51,
    PLANNER_NUMBER_OUT_OF_RANGE = 52,
    PLANNER_REPEATED_NAME = 53,
    PLANNER_UNLISTED_ZONE = 54,
    PLANNER_ZONE_WITHOUT_SITES = 55
};

/* The list of a refusal. */
enum planner_map_list { PLANNER_NO_LIST = 0, PLANNER_SITES = 1, PLANNER_ZONES = 2 };

/* A refusal's number, with the list and the row, from 1, that is at fault (0 and 0 for 4 and 21) and length 0; or
 * refusal, list and row 0, and how many bytes the plan file has. */
typedef struct {
    uint32_t refusal;
    uint32_t list;
    size_t row;
    size_t length;
} planner_mapped;

planner_mapped planner_map_csv(const uint8_t *sites, size_t sites_length, const uint8_t *zones, size_t zones_length,
                               uint8_t *plan, size_t plan_length);

/* The words of a refusal. */
static inline const char *planner_mapped_text(uint32_t refusal) {
    switch (refusal) {
    case 0: return "accepted";
    case PLANNER_MAP_TOO_LARGE: return "there is no site, or there are more than 512";
    case PLANNER_MAP_BUFFER_TOO_SMALL: return "a buffer is too small";
    case PLANNER_MALFORMED_ROW: return "the row is malformed";
    case PLANNER_NUMBER_OUT_OF_RANGE: return "a number is out of its range";
    case PLANNER_REPEATED_NAME: return "an earlier row has this code or zone";
    case PLANNER_UNLISTED_ZONE: return "the zone list does not have this zone";
    case PLANNER_ZONE_WITHOUT_SITES: return "no site lies in this zone";
    default: return "unknown refusal";
    }
}

#ifdef __cplusplus
}
#endif

#endif
