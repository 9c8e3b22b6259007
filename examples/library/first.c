/* Two ends, an object and an event, in C: docs/library.md, "The same ten lines". The datagrams go from hand to hand, and no network loses
   any. It prints what the client was shown. */
#include "tribes.h"
#include <stdio.h>

static const tribes_config config = {0, 1000000, 600, 3, 22};
static const tribes_field fields[] = {{0, 65535, 16}, {0, 100, 7}};
static const tribes_kind kinds[] = {{2, 8}};
static const int64_t tank[] = {1200, 80};

int main(void) {
    tribes_end server = {0}, client = {0};
    tribes_reason why;
    uint32_t n, slot, moves, length = 4;
    size_t count;
    uint8_t bytes[TRIBES_MAX_DATAGRAM];
    int64_t values[TRIBES_MAX_ASKS];
    tribes_ask asks[TRIBES_MAX_ASKS];
    tribes_copied copied;

    tribes_server(&server, &config, kinds, 1, fields, 2, (const uint8_t *)"tank", 4, &length, 1, &why);
    tribes_client(&client, &config, kinds, 1, fields, 2, &why);
    tribes_show(&server, &(tribes_object){0, 0, 0, 1}, &n);
    tribes_post(&server, (const uint8_t *)"welcome", 7, 1, &n);
    for (int turn = 0; turn < 3; turn++) {
        tribes_plan(&server, asks, TRIBES_MAX_ASKS, &count);
        for (size_t k = 0; k < count; k++) values[k] = tank[asks[k].field];
        tribes_pack(&server, values, count, bytes, sizeof bytes, &count);
        tribes_arrive(&client, bytes, count, 0, &moves);
        while (tribes_event(&client, bytes, sizeof bytes, &count) > 0) printf("event %.*s\n", (int)count, (char *)bytes);
        tribes_pack(&client, values, 0, bytes, sizeof bytes, &count);
        tribes_arrive(&server, bytes, count, TRIBES_MAX_MOVES, &moves);
    }
    for (uint32_t from = 0; tribes_next_copy(&client, from, &slot) == 1; from = slot + 1)
        if (tribes_copy(&client, slot, &copied, values, TRIBES_MAX_FIELDS) == 0) printf("copy %d %d\n", (int)values[0], (int)values[1]);
    tribes_free(&server);
    tribes_free(&client);
}
