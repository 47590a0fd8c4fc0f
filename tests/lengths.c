/* Lengths of 0 with null pointers, of an order, of a plan, of a log and of a stream, and the longest stream. Exits 1 at the first answer that is not
 * the header's. */
#include "knellgable.h"
#include <stdio.h>
#include <string.h>

static int wrong(const char *what, uint32_t number)
{
    fprintf(stderr, "lengths: %s answers %u\n", what, number);
    return 1;
}

int main(void)
{
    static const uint8_t fans[32] = {0x46, 1, [4] = 1, [8] = 1};
    static const uint8_t dose[64] = {0x46, 1, [4] = 1, [8] = 1, [32] = 0x44, [34] = 1, [40] = 1, [44] = 1};
    static uint8_t room[KNELLGABLE_PLAN_ROOM], stream[KNELLGABLE_STREAM_ROOM + sizeof fans];
    uint32_t number, tick = 7;
    if ((number = knellgable_plan(NULL, 0, room, sizeof room).number) != 6)
        return wrong("planning no bytes", number);
    if ((number = knellgable_plan(NULL, 0, NULL, 0).number) != 1)
        return wrong("planning into no bytes", number);
    if ((number = knellgable_plan(fans, sizeof fans, room, sizeof room).number) != 0)
        return wrong("planning no doses", number);
    if ((number = knellgable_judge(NULL, 0, NULL, 0).number) != 6)
        return wrong("judging for no bytes", number);
    if ((number = knellgable_judge(fans, sizeof fans, NULL, 0).number) != 0)
        return wrong("judging an empty plan", number);
    if ((number = knellgable_point(fans, sizeof fans, NULL, 0, 0, 0).number) != 11)
        return wrong("drawing in an empty plan", number);
    if ((number = knellgable_advance(NULL, 0, NULL, 0, 0, &tick).number) != 6 || tick != 7)
        return wrong("a pen for no bytes", number);
    if ((number = knellgable_advance(fans, sizeof fans, NULL, 0, 0, &tick).number) != 11 || tick != 7)
        return wrong("a pen in an empty plan", number);
    if ((number = knellgable_log(NULL, 0, NULL, 0, 0, NULL, 0).number) != 6)
        return wrong("a log for no bytes", number);
    if ((number = knellgable_log(fans, sizeof fans, NULL, 0, 0, NULL, 0).number) != 11)
        return wrong("a log in an empty plan", number);
    knellgable_planned planned = knellgable_plan(dose, sizeof dose, room, sizeof room);
    if ((number = knellgable_log(dose, sizeof dose, room, 32 * (planned.classes + planned.slots), 0, NULL, 0).number) != 0)
        return wrong("a log of no bytes", number);
    knellgable_added_up season = knellgable_season(NULL, 0);
    if (season.number != 0 || season.accepted != 0 || season.weight != 0 || season.time != 1)
        return wrong("a season of no bytes", season.number);
    for (size_t at = 0; at < sizeof stream; at += sizeof fans)
        memcpy(stream + at, fans, sizeof fans);
    season = knellgable_season(stream, KNELLGABLE_STREAM_ROOM);
    if (season.number != 0 || season.accepted != KNELLGABLE_STREAM_ROOM / sizeof fans)
        return wrong("the longest season", season.number);
    if ((number = knellgable_season(stream, sizeof stream).number) != 16)
        return wrong("a season too long by a record", number);
    return 0;
}
