/* A sample order planned, judged and drawn, a log laid beside it, and the order added up, from C.
 *     cc -Iinclude examples/first.c target/staticlib/libknellgable.a -o first && ./first samples/p2.order */
#include "knellgable.h"
#include <stdio.h>

int main(int count, char **words)
{
    static uint8_t order[1601], plan[KNELLGABLE_PLAN_ROOM];
    FILE *file = count == 2 ? fopen(words[1], "rb") : NULL;
    if (!file) {
        fprintf(stderr, "use: first ORDER\n");
        return 2;
    }
    size_t order_bytes = fread(order, 1, sizeof order, file);
    fclose(file);

    knellgable_planned planned = knellgable_plan(order, order_bytes, plan, sizeof plan);
    printf("planned %u: %zu classes, %zu slots\n", planned.number, planned.classes, planned.slots);
    size_t plan_bytes = 32 * (planned.classes + planned.slots);

    printf("judged %u\n", knellgable_judge(order, order_bytes, plan, plan_bytes).number);

    knellgable_drawn drawn = knellgable_point(order, order_bytes, plan, plan_bytes, 0, 0);
    printf("dose 0 at 0: %u grams, state %u, fan %u\n", drawn.amount, drawn.state, drawn.fan);

    uint32_t tick = KNELLGABLE_WEEK - 1;
    for (int step = 0; step < 2; step++) {
        drawn = knellgable_advance(order, order_bytes, plan, plan_bytes, 0, &tick);
        printf("pen at %u: answer %u, %u grams, state %u\n", tick, drawn.number, drawn.amount, drawn.state);
    }

    /* The log of bay 1: its counter at 4,294,967,290 and after 2 seconds at 4, then a missing reading. */
    static const uint8_t log[3 * 32] = {
        [0] = 0x4D, [1] = 1, [2] = 1, [8] = 0xFA, [9] = 0xFF, [10] = 0xFF, [11] = 0xFF,
        [32] = 0x4D, [33] = 1, [34] = 1, [36] = 2, [40] = 4,
        [64] = 0x4D, [66] = 1, [68] = 3,
    };
    knellgable_laid laid = knellgable_log(order, order_bytes, plan, plan_bytes, 0, log, sizeof log);
    printf("log: answer %u, metered %llu/1024 grams, risen %llu/1024, seconds unknown %u\n", laid.number, (unsigned long long)laid.metered,
        (unsigned long long)laid.risen, laid.unknown);

    /* A stream of this order alone, which begins with its F. */
    knellgable_added_up season = knellgable_season(order, order_bytes);
    printf("season: answer %u, %u accepted, %llu grams, %llu fan-seconds, first class %llu/%llu\n", season.number, season.accepted,
        (unsigned long long)season.grams, (unsigned long long)season.seconds, (unsigned long long)season.weight, (unsigned long long)season.time);
    return 0;
}
