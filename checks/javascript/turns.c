/* Nanoseconds a turn of both ends together, the least of rounds of 500 turns: 64 objects of four fields of which 16 change three, a packet each
   way, every tenth lost, a move each turn and an event each twentieth: turns TURNS. turns.mjs does the same through the WebAssembly module. */
#include "tribes.h"
#include <stdio.h>
#include <stdlib.h>
#include <time.h>

enum { OBJECTS = 64, MOVING = 16, ROUND = 500 };

static double now(void) {
    struct timespec at;
    clock_gettime(CLOCK_MONOTONIC, &at);
    return (double)at.tv_sec * 1e9 + (double)at.tv_nsec;
}

static const tribes_field fields[] = {{0, 1023, 10}, {0, 1023, 10}, {0, 255, 8}, {0, 100, 7}};
static const tribes_kind kinds[] = {{4, 8}};
static const tribes_config config = {0, 10000000, 1200, 3, 22};

int main(int argc, char **argv) {
    const uint32_t turns = argc > 1 ? (uint32_t)atoi(argv[1]) : 20000, length = 4;
    tribes_reason why;
    tribes_end server = {0, NULL}, client = {0, NULL};
    static tribes_ask asks[TRIBES_MAX_ASKS];
    static int64_t values[TRIBES_MAX_ASKS];
    uint8_t bytes[TRIBES_MAX_DATAGRAM], event[TRIBES_MAX_EVENT];
    uint32_t n[OBJECTS], listed, sum = 0;
    size_t count, total = 0;
    int64_t none = 0;
    if (tribes_server(&server, &config, kinds, 1, fields, 4, (const uint8_t *)"tank", 4, &length, 1, &why) < 0) return 1;
    if (tribes_client(&client, &config, kinds, 1, fields, 4, &why) < 0) return 1;
    for (uint32_t k = 0; k < OBJECTS; k++) {
        tribes_object object = {0, 0, k % 4, k == 0};
        if (tribes_show(&server, &object, &n[k]) < 0) return 1;
    }
    double from = now(), least = 1e18;
    for (uint32_t turn = 1; turn <= turns; turn++) {
        for (uint32_t k = 0; k < MOVING; k++) tribes_changed(&server, n[(k * 4 + turn) % OBJECTS], 7);
        if (turn % 20 == 0) tribes_post(&server, (const uint8_t *)"an event", 8, 1, &listed);
        tribes_plan(&server, asks, TRIBES_MAX_ASKS, &count);
        for (size_t k = 0; k < count; k++) values[k] = (turn * 3 + asks[k].n * 5 + asks[k].field) % 100;
        tribes_pack(&server, values, count, bytes, sizeof bytes, &count);
        total += count;
        if (turn % 10 && tribes_arrive(&client, bytes, count, 0, &listed) == 0)
            while (tribes_event(&client, event, sizeof event, &count) > 0) sum += event[0];
        tribes_sample(&client, turn % 1000, &listed);
        tribes_pack(&client, &none, 0, bytes, sizeof bytes, &count);
        total += count;
        if (turn % 10 != 5 && tribes_arrive(&server, bytes, count, TRIBES_MAX_MOVES, &listed) == 0) {
            uint64_t moves[TRIBES_MAX_MOVES];
            tribes_moves(&server, moves, TRIBES_MAX_MOVES, &listed);
            for (uint32_t k = 0; k < listed; k++) sum += (uint32_t)moves[k];
        }
        if (turn % ROUND == 0) {
            double to = now();
            if (to - from < least) least = to - from;
            from = to;
        }
    }
    printf("%.0f ns a turn, %zu bytes, %u\n", least / ROUND, total, sum);
    tribes_free(&server);
    tribes_free(&client);
    return 0;
}
