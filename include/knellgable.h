/* Knellgable: CO2 doses planned, judged, drawn, held against a meter's log and added up over a season, every number proved.
 *
 * The six functions of libknellgable.a. An order is any bytes, and so are a plan, a log and a stream: the caller checks nothing beforehand, and every
 * call gets one answer. Each function reads only the bytes it is lent, keeps none of them, allocates nothing and holds no state: calls on different
 * memory may run at the same time. A call takes under 64 KiB of stack (measured, not proved: docs/BENCHMARKS.md).
 *
 * What the caller answers for: so many bytes as the length says may be read at each pointer, and written at a planning's `plan`; a length of 0
 * may come with any pointer, also a null one. A planning's `plan` and its `order` must not overlap. A pen's `tick` must point to a number that
 * may be read and written, and overlap neither `order` nor `plan`.
 *
 * Records are 32 bytes, numbers least significant byte first, bytes not named zero:
 *   F 0x46  1 fans; 2 rule; 4-7 top grams; 8-11 top seconds
 *   D 0x44  2-3 bay; 4-7 release; 8-11 deadline; 12-15 grams
 *   C 0x43  1 class number; 2-3 doses in it; 4-7 W; 8-11 P
 *   S 0x53  1 fan; 2-3 dose; 4-7 start tick; 8-11 start part; 12-15 end tick; 16-19 end part; 20-23 W; 24-27 P; 28 class number
 *   M 0x4D  1 form; 2-3 bay; 4-7 tick, up to 604,800; 8-11 value
 * An order is one F and up to 24 D; a plan is C records by number, then S records by interval, fan, start. A tick is one second, a part is
 * 1/W of it. The rate of a class is W grams in P seconds of fan time.
 *
 * The rule, 0 or 1, says how long valves rest, wherever the F stands among the doses: by 0 windows of one bay may touch; by 1 the later release is at
 * least 300 ticks after the earlier deadline. Windows of different bays need no rest, and only 8 asks for it.
 *
 * A log is up to 4,096 M records of one bay, their ticks rising. Form 0 is a missing reading, its value 0; form 1 a counter of grams, which runs
 * from 4,294,967,295 on to 0; form 2 a mean flow in grams per second, the bits of a 32-bit IEEE 754 float that is a multiple of 1/1024 from 0 to
 * 1,000, minus zero read as zero. A stretch between neighbouring records is known if both have the same form and neither is missing.
 *
 * A stream is up to 2,048 records of orders that each begin with their F: it is cut at every record whose kind is F, and each of these with the
 * records behind it, up to the next, is an order of its own. So an order with a D before its F can't stand in a stream.
 *
 * The number that comes back is 0, or the first of these that holds, in this sequence:
 *    1  plan buffer under 47,392 bytes (planning only)
 *    2  order length no multiple of 32, or over 1,600
 *    3  kind in an order neither F nor D              } record by record,
 *    4  a byte that must be zero isn't                } 3 before 4
 *    5  a field out of range                          } before 5
 *   15  a trial bay, 900 to 999 (planning only)       } before 15
 *    6  F records not exactly one
 *    7  more than 24 doses
 *    8  two doses of one bay with overlapping windows, or with less than their rest between them
 *    9  the first class is above the top rate: no plan within that rate exists
 *   10  plan bytes don't stand for the order (judging, drawing and a log)
 *   11  no such dose (drawing and a log)
 *   12  tick over 604,800, or pen already at or past 604,800 (drawing)
 *   13  log length no multiple of 32, or over 131,072; a record's kind, form, tick or value isn't as above, its bay isn't the dose's, or a byte
 *       that must be zero isn't
 *   14  a tick of the log is not above the one before; only where no record is 13
 *   16  stream length no multiple of 32, or over 65,536, or its first record isn't an F (a season, which comes back with no other: those of its
 *       orders are counted)
 * place is the record's index for 3, 4, 5 and 15, that of the first D which overlaps an earlier one of its bay, or is too near it, for 8, that of
 * the first such record of the log for 13 (0 for its length) and 14, else 0. With 9 come the doses of the first class as a set (bit i for
 * dose i), their weight W, which is their grams together, and their fan time P: they show that no plan exists. Fields not meant are 0.
 */
#ifndef KNELLGABLE_H
#define KNELLGABLE_H

#include <stddef.h>
#include <stdint.h>

#ifdef __cplusplus
extern "C" {
#endif

/* The least plan buffer that planning takes: 24 classes and 1,457 slots. */
#define KNELLGABLE_PLAN_ROOM 47392
/* The last tick that is drawn or logged. */
#define KNELLGABLE_WEEK 604800
/* The longest log: 4,096 records. */
#define KNELLGABLE_LOG_ROOM 131072
/* The longest stream: 2,048 records. */
#define KNELLGABLE_STREAM_ROOM 65536
/* Numbers by which an order of a stream may be refused are below this. */
#define KNELLGABLE_ORDER_NUMBERS 10

/* States of a point. */
#define KNELLGABLE_FINISHED 0 /* at or past the deadline */
#define KNELLGABLE_SHUT 1     /* before the release; also with every refusal */
#define KNELLGABLE_IDLE 2     /* inside the window, and without a fan in the whole second from the tick on */
#define KNELLGABLE_DOSING 3   /* fed in that second, or in a part of it */

typedef struct {
    uint32_t number;
    size_t place;
    uint64_t set, weight, time;
    size_t classes, slots; /* C and S records written */
} knellgable_planned;

typedef struct {
    uint32_t number;
    size_t place;
    uint64_t set, weight, time;
} knellgable_judged;

typedef struct {
    uint32_t number;
    size_t place;
    uint64_t set, weight, time;
    uint32_t amount; /* whole grams up to the tick */
    uint32_t state;  /* one of the four above */
    uint32_t fan;    /* of Dosing, from 1: the first to feed it in that second; else 0 */
} knellgable_drawn;

typedef struct {
    uint32_t number;
    size_t place;
    uint64_t set, weight, time;
    uint64_t metered; /* in the known stretches, in 1/1024 gram */
    uint64_t risen;   /* by the dose's line in the same stretches, in 1/1024 gram */
    uint32_t unknown; /* seconds of the other stretches */
} knellgable_laid;

typedef struct {
    uint32_t number;
    size_t place;
    uint32_t accepted;                          /* orders */
    uint32_t refused[KNELLGABLE_ORDER_NUMBERS]; /* orders, at the number of their refusal: 2, 3, 4, 5, 7, 8 or 9 */
    uint64_t grams, seconds;                    /* of the accepted orders: of their doses, and of fan time */
    uint64_t weight, time;                      /* W and P of the greatest first class among them; 0 and 1 if there is none */
} knellgable_added_up;

/* Plans an order into the lent buffer. 0: the buffer begins with `classes` C records and `slots` S records, and every byte behind them is as
 * it was. The classes are the order's: again and again, among the doses left, the largest set with the greatest grams per second of fan time
 * open to it. The slots deliver each dose exactly and inside its window, no fan and no dose is in two of them at one moment, and the plan
 * stands. Which of the valid shares are laid into slots is the one thing left open. Refused: no byte changes. */
knellgable_planned knellgable_plan(const uint8_t *order, size_t order_bytes, uint8_t *plan, size_t plan_bytes);

/* Judges plan bytes of any length, whoever made them. 0 exactly if the order is accepted and the plan stands for it: the C records are the
 * order's classes; each slot names a dose of its class, that class's W and P and an existing fan, and lies inside the dose's window and one
 * interval; slots are in order; no two slots of a fan or of a dose overlap; each dose's slots total its grams. */
knellgable_judged knellgable_judge(const uint8_t *order, size_t order_bytes, const uint8_t *plan, size_t plan_bytes);

/* Draws a dose at a tick, in any plan that stands. 0: the amount is behind the exact one by less than a gram and never ahead; over h seconds
 * it rises by less than h x rate + 1 gram, and not at all where the dose has no slot time; it is zero up to the release, and all the grams
 * from the deadline on. Inside its window a dose is Dosing if a slot of it starts before tick + 1 and ends after the tick, which is exactly
 * where its exact amount grows in that second; the fan is that of the earliest such slot. Else it is Idle, and gains nothing in that second: it
 * waits, and only while every fan runs, each at that dose's rate or above. */
knellgable_drawn knellgable_point(const uint8_t *order, size_t order_bytes, const uint8_t *plan, size_t plan_bytes, size_t dose, uint32_t tick);

/* Moves a pen, a dose and a lent tick, on by one tick and draws the dose there. 12 comes of the tick before it moves. Refused: the tick stays. */
knellgable_drawn knellgable_advance(const uint8_t *order, size_t order_bytes, const uint8_t *plan, size_t plan_bytes, size_t dose, uint32_t *tick);

/* Lays the log of a dose's bay beside the dose's line, in any plan that stands. 0: `metered` is what the meter counted in the known stretches, a
 * flow held until the next record; `risen` what the drawn amount rose by in the same stretches, never more than 1,024 x the dose's grams; `unknown`
 * the seconds of the others, for which no figure is made. Seconds before the first record and after the last belong to no stretch; under two
 * records all three are 0. More than one turn of the counter between records can't be seen. A log that goes on from another's last record: their
 * figures add up. */
knellgable_laid knellgable_log(const uint8_t *order, size_t order_bytes, const uint8_t *plan, size_t plan_bytes, size_t dose, const uint8_t *log,
                               size_t log_bytes);

/* Adds up a stream of orders. Each is read exactly as judging reads it alone, trial bays too: it is accepted, or refused by 2, 3, 4, 5, 7, 8 or 9.
 * 0: `accepted` and the counts in `refused` come together to the number of F records. The rest is over accepted orders only: the `grams` of their
 * doses; the `seconds` that the slots of any plans take which stand for them, and these are the P of all their classes; and W and P, unreduced, of
 * the first class with the greatest rate, by exact products, the earliest of equals. A stream of no bytes has no orders. Where two streams that
 * begin with F are put together, and that is not too long, counts, grams and seconds add up, and the greater of their greatest first classes is
 * the greatest, the earlier one if they are equal. Refused: every figure is 0, `time` too. */
knellgable_added_up knellgable_season(const uint8_t *stream, size_t stream_bytes);

#ifdef __cplusplus
}
#endif

#endif
