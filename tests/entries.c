/* entries ORDER PLAN DOSE: every entry point asked from C, for the order's own plan and for the one given, each slice in memory of its own
 * length. Exits 1 where two answers don't agree. */
#include "knellgable.h"
#include <stdio.h>
#include <stdlib.h>
#include <string.h>

struct bytes {
    uint8_t *at;
    size_t count;
};

/* A whole file of up to 1 MiB, in memory that ends where it ends. */
static struct bytes read_file(const char *name)
{
    static uint8_t room[1 << 20];
    FILE *from = fopen(name, "rb");
    if (!from) {
        fprintf(stderr, "entries: can't read %s\n", name);
        exit(2);
    }
    struct bytes file = {NULL, fread(room, 1, sizeof room, from)};
    fclose(from);
    file.at = malloc(file.count);
    if (file.count > 0)
        memcpy(file.at, room, file.count);
    return file;
}

/* The bay of a dose, 0 without one. */
static unsigned bay_of(struct bytes order, size_t dose)
{
    for (size_t at = 0; at + 32 <= order.count; at += 32)
        if (order.at[at] == 0x44 && dose-- == 0)
            return order.at[at + 2] + 256u * order.at[at + 3];
    return 0;
}

/* A log of two counters with 3 pulses between them, up to the week's end: refused as its first point is, or the line's rise from point to point. */
static int laid(struct bytes order, struct bytes plan, size_t dose, uint32_t tick)
{
    const uint32_t ticks[2] = {tick, KNELLGABLE_WEEK}, counters[2] = {UINT32_MAX, 2};
    knellgable_drawn points[2];
    unsigned bay = bay_of(order, dose);
    struct bytes log = {calloc(2, 32), 64};
    for (int i = 0; i < 2; i++) {
        uint8_t *record = log.at + 32 * i;
        record[0] = 0x4D;
        record[1] = 1;
        record[2] = bay % 256;
        record[3] = bay / 256;
        for (int byte = 0; byte < 4; byte++) {
            record[4 + byte] = ticks[i] >> 8 * byte;
            record[8 + byte] = counters[i] >> 8 * byte;
        }
        points[i] = knellgable_point(order.at, order.count, plan.at, plan.count, dose, ticks[i]);
    }
    knellgable_laid laid = knellgable_log(order.at, order.count, plan.at, plan.count, dose, log.at, log.count);
    free(log.at);
    uint64_t metered = laid.number == 0 ? 3 * 1024 : 0, risen = 1024ull * (points[1].amount - points[0].amount);
    return laid.number == points[0].number && laid.place == points[0].place && laid.metered == metered && laid.risen == risen && laid.unknown == 0;
}

static uint32_t number_at(const uint8_t *at)
{
    return at[0] | at[1] << 8 | at[2] << 16 | (uint32_t)at[3] << 24;
}

/* Any bytes as a stream: refused with no figures, or every F of it counted. */
static int counted(struct bytes stream)
{
    knellgable_added_up season = knellgable_season(stream.at, stream.count);
    int fits = stream.count % 32 == 0 && stream.count <= KNELLGABLE_STREAM_ROOM && (stream.count == 0 || stream.at[0] == 0x46);
    uint32_t begun = 0, orders = season.accepted;
    for (size_t at = 0; at < stream.count; at += 32)
        begun += stream.at[at] == 0x46;
    for (int i = 0; i < KNELLGABLE_ORDER_NUMBERS; i++)
        orders += season.refused[i];
    return season.number == (fits ? 0 : 16) && season.place == 0 && orders == (fits ? begun : 0) && (fits || season.time == 0);
}

/* An accepted order with its F put first, twice in a stream: twice the grams and fan time of its plan's classes, and the first of them. */
static int added_up(struct bytes order, struct bytes plan)
{
    struct bytes stream = {malloc(2 * order.count), 2 * order.count};
    uint64_t grams = 0, seconds = 0, weight = plan.count > 0 ? number_at(plan.at + 4) : 0, time = plan.count > 0 ? number_at(plan.at + 8) : 1;
    for (size_t at = 0, next = 32; at < order.count; at += 32) {
        size_t to = order.at[at] == 0x46 ? 0 : next;
        memcpy(stream.at + to, order.at + at, 32);
        next += to > 0 ? 32 : 0;
    }
    memcpy(stream.at + order.count, stream.at, order.count);
    for (size_t at = 0; at < plan.count && plan.at[at] == 0x43; at += 32) {
        grams += number_at(plan.at + at + 4);
        seconds += number_at(plan.at + at + 8);
    }
    knellgable_added_up season = knellgable_season(stream.at, stream.count);
    free(stream.at);
    return season.accepted == 2 && season.grams == 2 * grams && season.seconds == 2 * seconds && season.weight == weight && season.time == time;
}

/* Judged, drawn, walked and laid: one refusal for all, or a point that the pen comes to as well. */
static int asked(struct bytes order, struct bytes plan, size_t dose)
{
    knellgable_judged judged = knellgable_judge(order.at, order.count, plan.at, plan.count);
    for (uint32_t at = 0; at < KNELLGABLE_WEEK; at += 100799) {
        uint32_t tick = at;
        knellgable_drawn moved = knellgable_advance(order.at, order.count, plan.at, plan.count, dose, &tick);
        knellgable_drawn point = knellgable_point(order.at, order.count, plan.at, plan.count, dose, at + 1);
        if (judged.number != 0 && (point.number != judged.number || point.place != judged.place || tick != at))
            return 1;
        if (moved.number != point.number || moved.amount != point.amount || moved.state != point.state || moved.fan != point.fan)
            return 1;
        if (!laid(order, plan, dose, at))
            return 1;
    }
    return 0;
}

int main(int count, char **words)
{
    if (count != 4) {
        fprintf(stderr, "use: entries ORDER PLAN DOSE\n");
        return 2;
    }
    struct bytes order = read_file(words[1]), given = read_file(words[2]), own = {malloc(KNELLGABLE_PLAN_ROOM), 0};
    size_t dose = strtoul(words[3], NULL, 10);
    knellgable_planned planned = knellgable_plan(order.at, order.count, own.at, KNELLGABLE_PLAN_ROOM);
    own.count = 32 * (planned.classes + planned.slots);
    int wrong = planned.number == 0 && (knellgable_judge(order.at, order.count, own.at, own.count).number != 0 || !added_up(order, own));
    wrong |= asked(order, own, dose) | asked(order, given, dose) | !counted(order) | !counted(given);
    free(order.at);
    free(given.at);
    free(own.at);
    return wrong;
}
