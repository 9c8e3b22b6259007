/* A name and a chat line of 120 bytes over a channel, from a client to its server, in one process. It prints both. */
#include "tribes.h"
#include <stdio.h>
#include <string.h>

int main(void) {
    tribes_config config = {0, 1000000, 600, 3, 1};
    tribes_kind kind = {1, 1};
    tribes_field field = {0, 1, 1};
    tribes_end server = {0}, client = {0};
    tribes_channel to_server = {0}, from_client = {0};
    tribes_reason why;
    static tribes_ask asks[TRIBES_MAX_ASKS];
    uint8_t bytes[TRIBES_MAX_DATAGRAM] = {0}, message[1000];
    uint32_t none = 0, moves, kind_of;
    int64_t value = 0;
    size_t count;
    char line[121];
    for (int k = 0; k < 120; k++) line[k] = "the flag is in the north tower, "[k % 32];
    line[120] = 0;
    if (tribes_server(&server, &config, &kind, 1, &field, 1, bytes, 0, &none, 0, &why)) return 1;
    if (tribes_client(&client, &config, &kind, 1, &field, 1, &why)) return 1;
    tribes_channel_open(&to_server, 64, 1000, &why);
    tribes_channel_open(&from_client, 64, 1000, &why);
    tribes_post_message(&client, &to_server, 0, (const uint8_t *)"Ada", 3, 1);
    int32_t code = tribes_post_message(&client, &to_server, 1, (const uint8_t *)line, 120, 1);
    if (code < 0) printf("%s\n", tribes_text(code));
    for (int turn = 0; turn < 3; turn++) {
        tribes_pack(&client, &value, 0, bytes, sizeof bytes, &count);
        tribes_arrive(&server, bytes, count, 0, &moves);
        while (tribes_message(&server, &from_client, message, sizeof message, &kind_of, &count) > 0)
            printf("%s %.*s\n", kind_of ? "line" : "name", (int)count, message);
        tribes_plan(&server, asks, TRIBES_MAX_ASKS, &count);
        tribes_pack(&server, &value, 0, bytes, sizeof bytes, &count);
        tribes_arrive(&client, bytes, count, 0, &moves);
    }
    tribes_channel_free(&to_server);
    tribes_channel_free(&from_client);
    tribes_free(&server);
    tribes_free(&client);
    return 0;
}
