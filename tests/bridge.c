/* The library on a processor that is not x86-64. The kit's archive is x86-64's alone, so that a server of that kind, linked with it, is emulated
 * and answers the calls; the other side is the six functions for this processor, which hand each call over by a pair of pipes. One server serves
 * one thread. The server lends the library what it is sent between canaries, and ends if a byte changes that may not.
 *
 * With -DSERVER it is the server; else it takes EMULATOR and SERVED, the paths of the two programs that are run. */
#define _GNU_SOURCE
#include <fcntl.h>
#include <spawn.h>
#include <stdbool.h>
#include <stdio.h>
#include <stdlib.h>
#include <string.h>
#include <unistd.h>

#include "knellgable.h"

enum function { PLAN, JUDGE, POINT, ADVANCE, LOG, SEASON };

/* What is asked; the bytes of the order, or the stream, the plan and the log follow. Both processors lay structs out alike. */
typedef struct {
    uint64_t function, order, plan, log, dose;
    uint32_t tick;
} asked;

/* What comes back; the plan follows. */
typedef struct {
    union {
        knellgable_planned planned;
        knellgable_judged judged;
        knellgable_drawn drawn;
        knellgable_laid laid;
        knellgable_added_up added_up;
    } is;
    uint32_t tick;
} answered;

static void fail(const char *what) {
    fprintf(stderr, "bridge: %s\n", what);
    exit(1);
}

static bool get(int from, void *to, size_t count) {
    for (uint8_t *at = to; count > 0;) {
        ssize_t got = read(from, at, count);
        if (got <= 0)
            return false;
        at += got;
        count -= (size_t)got;
    }
    return true;
}

static void put(int to, const void *from, size_t count) {
    for (const uint8_t *at = from; count > 0;) {
        ssize_t gone = write(to, at, count);
        if (gone <= 0)
            fail("the other side is gone");
        at += gone;
        count -= (size_t)gone;
    }
}

#ifdef SERVER
enum { GUARD = 64, CANARY = 0xA5 };

/* Some bytes as they were sent, and lent between canaries. */
typedef struct {
    size_t count;
    uint8_t *sent, *lent;
} bytes;

static bytes receive(size_t count) {
    bytes b = {count, malloc(count + 1), malloc(count + 2 * GUARD)};
    if (!b.sent || !b.lent || !get(0, b.sent, count))
        fail("nothing follows");
    memset(b.lent, CANARY, count + 2 * GUARD);
    b.lent = memcpy(b.lent + GUARD, b.sent, count);
    return b;
}

static void give_back(bytes b, bool may_change) {
    for (size_t i = 0; i < GUARD; i++)
        if (b.lent[b.count + i] != CANARY || b.lent[(ptrdiff_t)i - GUARD] != CANARY)
            fail("a byte beyond those lent has changed");
    if (!may_change && memcmp(b.lent, b.sent, b.count))
        fail("a byte that was lent for reading has changed");
    free(b.sent);
    free(b.lent - GUARD);
}

int main(void) {
    asked a;
    while (get(0, &a, sizeof a)) {
        bytes order = receive(a.order), plan = receive(a.plan), log = receive(a.log);
        answered r = {.tick = a.tick};
        if (a.function == PLAN)
            r.is.planned = knellgable_plan(order.lent, a.order, plan.lent, a.plan);
        else if (a.function == JUDGE)
            r.is.judged = knellgable_judge(order.lent, a.order, plan.lent, a.plan);
        else if (a.function == POINT)
            r.is.drawn = knellgable_point(order.lent, a.order, plan.lent, a.plan, a.dose, a.tick);
        else if (a.function == ADVANCE)
            r.is.drawn = knellgable_advance(order.lent, a.order, plan.lent, a.plan, a.dose, &r.tick);
        else if (a.function == LOG)
            r.is.laid = knellgable_log(order.lent, a.order, plan.lent, a.plan, a.dose, log.lent, a.log);
        else
            r.is.added_up = knellgable_season(order.lent, a.order);
        put(1, &r, sizeof r);
        if (a.function == PLAN)
            put(1, plan.lent, a.plan);
        give_back(order, false);
        give_back(plan, a.function == PLAN);
        give_back(log, false);
    }
    return 0;
}
#else
static _Thread_local int to_server, from_server; /* 0 before the thread's first call */

static void start(void) {
    int down[2], up[2];
    pid_t server;
    posix_spawn_file_actions_t ends;
    char *const words[] = {EMULATOR, SERVED, NULL};
    if (pipe2(down, O_CLOEXEC) || pipe2(up, O_CLOEXEC) || posix_spawn_file_actions_init(&ends) || posix_spawn_file_actions_adddup2(&ends, down[0], 0) ||
        posix_spawn_file_actions_adddup2(&ends, up[1], 1) || posix_spawn(&server, EMULATOR, &ends, NULL, words, environ))
        fail("the emulator can't be started");
    posix_spawn_file_actions_destroy(&ends);
    close(down[0]);
    close(up[1]);
    to_server = down[1];
    from_server = up[0];
}

static answered ask(asked a, const uint8_t *order, const uint8_t *plan, const uint8_t *log) {
    answered r;
    if (to_server == 0)
        start();
    put(to_server, &a, sizeof a);
    put(to_server, order, a.order);
    put(to_server, plan, a.plan);
    put(to_server, log, a.log);
    if (!get(from_server, &r, sizeof r))
        fail("no answer");
    return r;
}

knellgable_planned knellgable_plan(const uint8_t *order, size_t order_bytes, uint8_t *plan, size_t plan_bytes) {
    answered r = ask((asked){.function = PLAN, .order = order_bytes, .plan = plan_bytes}, order, plan, NULL);
    if (!get(from_server, plan, plan_bytes))
        fail("no plan");
    return r.is.planned;
}

knellgable_judged knellgable_judge(const uint8_t *order, size_t order_bytes, const uint8_t *plan, size_t plan_bytes) {
    return ask((asked){.function = JUDGE, .order = order_bytes, .plan = plan_bytes}, order, plan, NULL).is.judged;
}

knellgable_drawn knellgable_point(const uint8_t *order, size_t order_bytes, const uint8_t *plan, size_t plan_bytes, size_t dose, uint32_t tick) {
    return ask((asked){POINT, order_bytes, plan_bytes, 0, dose, tick}, order, plan, NULL).is.drawn;
}

knellgable_drawn knellgable_advance(const uint8_t *order, size_t order_bytes, const uint8_t *plan, size_t plan_bytes, size_t dose, uint32_t *tick) {
    answered r = ask((asked){ADVANCE, order_bytes, plan_bytes, 0, dose, *tick}, order, plan, NULL);
    *tick = r.tick;
    return r.is.drawn;
}

knellgable_laid knellgable_log(const uint8_t *order, size_t order_bytes, const uint8_t *plan, size_t plan_bytes, size_t dose, const uint8_t *log,
                               size_t log_bytes) {
    return ask((asked){LOG, order_bytes, plan_bytes, log_bytes, dose, 0}, order, plan, log).is.laid;
}

knellgable_added_up knellgable_season(const uint8_t *stream, size_t stream_bytes) {
    return ask((asked){.function = SEASON, .order = stream_bytes}, stream, NULL, NULL).is.added_up;
}
#endif
