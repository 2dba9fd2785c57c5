// The squeeze of each plan file named, with no variable locked, with each sixteenth one and with each fourth one: what
// it takes for each byte of the file.
//     squeeze ROUNDS PLAN...     the best of so many rounds
#include "../include/planner.h"

#include <stdio.h>
#include <stdlib.h>
#include <string.h>
#include <time.h>

enum { HEAD = 3, COUNT = 2, LOCK = 3, OBJECTIVE_AT = HEAD + COUNT, LOCKS = 6, TIMES = 20, WAYS = 3 };
static const uint32_t ways[WAYS] = {0, 16, 4};

static uint8_t plan[PLANNER_INPUT_SIZE], file[PLANNER_INPUT_SIZE], buffer[PLANNER_INPUT_SIZE];
static planner_list old;

static double now(void) {
    struct timespec t;
    clock_gettime(CLOCK_MONOTONIC, &t);
    return (double)t.tv_sec + (double)t.tv_nsec / 1e9;
}

static uint32_t half(const uint8_t *bytes) { return bytes[0] | (uint32_t)bytes[1] << 8; }

static void put_half(uint8_t *bytes, uint32_t n) {
    bytes[0] = (uint8_t)n;
    bytes[1] = (uint8_t)(n >> 8);
}

// The plan's file with each so many-th variable locked, a third of them at 1; 0 locks none. Returns its length.
static size_t locked(size_t length, uint32_t every) {
    size_t front = OBJECTIVE_AT + HEAD + half(plan + OBJECTIVE_AT + 1), at = front + HEAD;
    memcpy(file, plan, front);
    file[front] = LOCKS;
    for (uint32_t variable = every; every && variable <= half(plan + HEAD); variable += every) {
        put_half(file + at, variable);
        file[at + 2] = variable / every % 3 == 0;
        at += LOCK;
    }
    put_half(file + front + 1, (uint32_t)(at - front - HEAD));
    memcpy(file + at, plan + front, length - front);
    return at + length - front;
}

// Microseconds a squeeze with the copy of the file before it, the best of some rounds.
static double best(size_t length, long rounds, planner_squeezed *squeezed) {
    double least = 1e9;
    for (long round = 0; round < rounds; round++) {
        double begin = now();
        for (int i = 0; i < TIMES; i++) {
            memcpy(buffer, file, length);
            *squeezed = planner_file_squeeze(buffer, length, &old);
        }
        double taken = (now() - begin) / TIMES * 1e6;
        if (taken < least) least = taken;
    }
    return least;
}

int main(int count, char **names) {
    if (count < 3) {
        printf("usage: squeeze ROUNDS PLAN...\n");
        return 2;
    }
    long rounds = strtol(names[1], NULL, 10);
    printf("| plan | locked | bytes | bytes left | µs | ns a byte |\n|---|---|---|---|---|---|\n");
    for (int i = 2; i < count; i++) {
        FILE *f = fopen(names[i], "rb");
        size_t read = f ? fread(plan, 1, sizeof plan, f) : 0;
        if (f) fclose(f);
        const char *slash = strrchr(names[i], '/');
        const char *name = slash ? slash + 1 : names[i];
        for (int way = 0; way < WAYS; way++) {
            planner_squeezed squeezed = {0};
            size_t length = locked(read, ways[way]);
            double taken = best(length, rounds, &squeezed);
            uint32_t locks = ways[way] ? half(plan + HEAD) / ways[way] : 0;
            if (squeezed.refusal && squeezed.refusal != PLANNER_CLAUSE_LOST) {
                printf("%s is refused: %u\n", names[i], (unsigned)squeezed.refusal);
                return 1;
            }
            printf("| %.*s | %u | %zu | ", (int)strcspn(name, "."), name, (unsigned)locks, length);
            if (squeezed.refusal) {
                printf("refused %u", (unsigned)squeezed.refusal);
            } else {
                printf("%zu", squeezed.length);
            }
            printf(" | %.1f | %.2f |\n", taken, taken * 1e3 / (double)length);
        }
    }
    return 0;
}
