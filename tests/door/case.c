/* 01's whole case through the C header: insert 1024 -> 7, then read it, in a table of sizes 3 1 3 1. */
#include <stdio.h>
#include "slettogar.h"

static uint32_t slots[9], lock_words[8], lane_records[14], path[15];

#define TABLE 3, 1, 3, 1, slots, 9, lock_words, 8, lane_records, 14, path, 15

/* Steps lane 0 to its end, or to a refusal. */
static SgStepped finish(const char *name, uint32_t *steps) {
    SgStepped got;
    *steps = 0;
    do {
        got = sg_step(TABLE, 0, 0);
        *steps += 1;
    } while (got.number == SG_ACCEPTED && got.end == SG_GOES_ON && *steps < 100);
    printf("%s: number %u, end %u, value %u after %u steps\n", name, got.number, got.end, got.value, *steps);
    return got;
}

int main(void) {
    uint32_t steps;
    int good = sg_lane_numbers() == 14;
    SgOpened opened = sg_open(TABLE);
    printf("lane numbers %u; open: number %u, index %u\n", sg_lane_numbers(), opened.number, opened.index);
    good &= opened.number == SG_ACCEPTED && opened.index == 0;
    good &= sg_start_insert(TABLE, 0, 1024, 7) == SG_ACCEPTED;
    SgStepped got = finish("insert", &steps);
    good &= got.end == SG_INSERT_YES && steps == 13;
    good &= sg_start_read(TABLE, 0, 1024) == SG_ACCEPTED;
    got = finish("read", &steps);
    good &= got.end == SG_READ && got.value == 7 && steps == 5;
    printf("row 0 col 0: mark %u, key %u, value %u\n", slots[0], slots[1], slots[2]);
    good &= slots[0] == 1 && slots[1] == 1024 && slots[2] == 7;
    good &= sg_start_delete(TABLE, 1, 1024) == SG_NO_SUCH_LANE;
    got = sg_step(TABLE, 0, 0);
    good &= got.number == SG_LANE_IDLE && got.end == 0 && got.value == 0;
    puts(good ? "as 01 says" : "not what 01 says");
    return !good;
}
