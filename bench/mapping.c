/* How long the call from two lists to a plan file takes: 512 sites in 512 zones, in short rows and in the longest.
 *     mapping ROUNDS */
#define _POSIX_C_SOURCE 199309L
#include "../include/mapper.h"
#include <stdio.h>
#include <stdlib.h>
#include <time.h>

#define LIMIT 512

static char sites[LIMIT * 100], zones[LIMIT * 100];
static uint8_t plan[PLANNER_PLAN_SIZE];

/* The processor's time: other programs do not count. */
static double now(void) {
    struct timespec t;
    clock_gettime(CLOCK_PROCESS_CPUTIME_ID, &t);
    return (double)t.tv_sec + (double)t.tv_nsec / 1e9;
}

/* A name: some bytes, or 16 of which 8 are quotes. Such a one stands in quotes, and each quote in it is written twice. */
static int name(char *to, const char *kind, int number, int longest) {
    if (longest) return sprintf(to, "\"%s%s%d\"", kind, "\"\"\"\"\"\"\"\"\"\"\"\"\"\"\"\"", 1000000 + number);
    return sprintf(to, "%s%d", kind, number);
}

static void lists(int longest, size_t *site_bytes, size_t *zone_bytes) {
    char *s = sites, *z = zones;
    for (int i = 0; i < LIMIT; i++) {
        s += name(s, "s", i, longest);
        s += sprintf(s, ",%07d,", i * 100);
        s += name(s, "z", LIMIT - 1 - i, longest);
        s += sprintf(s, "\r\n");
        z += name(z, "z", i, longest);
        z += sprintf(z, ",0,1,yes\r\n");
    }
    *site_bytes = (size_t)(s - sites);
    *zone_bytes = (size_t)(z - zones);
}

static void run(const char *what, int longest, int rounds) {
    size_t site_bytes, zone_bytes;
    double best = 1e9;
    lists(longest, &site_bytes, &zone_bytes);
    for (int round = 0; round < rounds; round++) {
        double begun = now(), taken;
        planner_mapped mapped = planner_map_csv((const uint8_t *)sites, site_bytes, (const uint8_t *)zones, zone_bytes,
                                                plan, sizeof plan);
        taken = now() - begun;
        if (mapped.refusal || mapped.length != 8 + 6 * (LIMIT - 1) + LIMIT * (3 + 2 * 18) + 3) {
            printf("%s: refusal %u, list %u, row %zu, length %zu\n", what, (unsigned)mapped.refusal,
                   (unsigned)mapped.list, mapped.row, mapped.length);
            exit(1);
        }
        if (taken < best) best = taken;
    }
    printf("| %s | %zu | %zu | %.0f |\n", what, site_bytes, zone_bytes, best * 1e3);
}

int main(int count, char **words) {
    int rounds = count > 1 ? atoi(words[1]) : 9;
    puts("| 512 sites in 512 zones | bytes of sites | bytes of zones | proved, ms |\n|---|---|---|---|");
    run("short names", 0, rounds);
    run("names of 16 bytes, of which 8 are quotes", 1, rounds);
    return 0;
}
