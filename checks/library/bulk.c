/* A megabyte in messages of 65,535 bytes over a channel, at 20 datagrams a second of at most 1,200 bytes: how many bytes a second come, by
   the round trip and the loss. The network is a queue in memory, and a turn is a twentieth of a second. bulk [LOST]; it ends with 1 where
   something is wrong. bulk message N and bulk hand N, for a profiler: N times a message of 1,000 bytes, or its 44 pieces by hand. */
#include "tribes.h"
#include <stdio.h>
#include <stdlib.h>
#include <string.h>

enum { MESSAGES = 16, TURNS_A_SECOND = 20, MOST_DELAY = 20 };
typedef struct { uint8_t bytes[TRIBES_MAX_DATAGRAM]; size_t count; } datagram;

static tribes_end server, client;
static tribes_channel out, in;
static uint8_t message[TRIBES_MAX_MESSAGE], place[TRIBES_MAX_MESSAGE];
static uint64_t dice = 88172645463325252;
static uint32_t draw(uint32_t below) {
    dice ^= dice << 13;
    dice ^= dice >> 7;
    dice ^= dice << 17;
    return (uint32_t)(dice >> 20) % below;
}
static void wants(int right, const char *what) {
    if (right) return;
    printf("%s\n", what);
    exit(1);
}

static void made(void) {
    const tribes_field field = {0, 1, 1};
    const tribes_kind kind = {1, 1};
    const uint8_t none = 0;
    const uint32_t no_length = 0;
    tribes_reason why;
    tribes_config config = {0, 16777215, TRIBES_MAX_DATAGRAM, 3, 1};
    wants(!tribes_server(&server, &config, &kind, 1, &field, 1, &none, 0, &no_length, 0, &why), "server");
    wants(!tribes_client(&client, &config, &kind, 1, &field, 1, &why), "client");
    wants(!tribes_channel_open(&out, 2850, TRIBES_MAX_MESSAGE, &why), "open");
    wants(!tribes_channel_open(&in, 2850, TRIBES_MAX_MESSAGE, &why), "open");
}
static void freed(void) {
    tribes_channel_free(&out);
    tribes_channel_free(&in);
    tribes_free(&server);
    tribes_free(&client);
}

/* posts the next message, if there is room for it; each has other bytes */
static void post(uint32_t *posted) {
    if (*posted == MESSAGES) return;
    memset(message, (int)*posted, sizeof message);
    *posted += tribes_post_message(&server, &out, 1, message, sizeof message, 1) == 0;
}
static uint32_t take(uint32_t taken) {
    uint32_t kind;
    size_t count;
    while (tribes_message(&client, &in, place, sizeof place, &kind, &count) > 0) {
        wants(count == sizeof place && place[0] == taken && !memcmp(place, place + 1, count - 1), "a message");
        taken++;
    }
    return taken;
}

static void run(uint32_t delay, uint32_t lost) {
    static datagram down[MOST_DELAY], up[MOST_DELAY];
    static tribes_ask asks[TRIBES_MAX_ASKS];
    const int64_t none = 0;
    uint32_t posted = 0, taken = 0, turn = 0, moves, kind;
    size_t count;
    made();
    for (; taken < MESSAGES; turn++) {
        datagram *d = &down[turn % delay], *u = &up[turn % delay];
        wants(turn < 100000, "turns");
        if (turn >= delay && d->count) tribes_arrive(&client, d->bytes, d->count, 0, &moves);
        taken = take(taken);
        if (turn >= delay && u->count) tribes_arrive(&server, u->bytes, u->count, 0, &moves);
        wants(tribes_message(&server, &out, place, sizeof place, &kind, &count) == 0, "the way back");
        post(&posted);
        wants(tribes_plan(&server, asks, TRIBES_MAX_ASKS, &count) >= 0, "plan");
        wants(tribes_pack(&server, &none, 0, d->bytes, sizeof d->bytes, &d->count) >= 0, "pack");
        wants(tribes_pack(&client, &none, 0, u->bytes, sizeof u->bytes, &u->count) >= 0, "pack");
        if (draw(100) < lost) d->count = 0;
        if (draw(100) < lost) u->count = 0;
    }
    printf("round trip %u ms, %u of 100 lost: %.0f bytes a second\n", 2 * delay * 1000 / TURNS_A_SECOND, lost,
           (double)MESSAGES * TRIBES_MAX_MESSAGE * TURNS_A_SECOND / turn);
    freed();
}

/* a thousand bytes so often, each time over a new pair of ends: in one message, or by hand in 44 events */
static void cost(uint32_t times, int by_hand) {
    for (uint32_t k = 0; k < times; k++) {
        uint32_t number;
        made();
        if (by_hand) for (int i = 0; i < 44; i++) tribes_post(&server, message, i < 43 ? 24 : 11, 1, &number);
        else tribes_post_message(&server, &out, 1, message, 1000, 1);
        freed();
    }
}

int main(int argc, char **argv) {
    if (argc > 2) {
        cost((uint32_t)atoi(argv[2]), !strcmp(argv[1], "hand"));
        return 0;
    }
    uint32_t lost = argc > 1 ? (uint32_t)atoi(argv[1]) : 5;
    for (uint32_t delay = 1; delay <= 8; delay *= 2) run(delay, lost);
    return 0;
}
