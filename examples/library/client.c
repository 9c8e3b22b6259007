/* A client that joins the server of server.c, and leaves with a goodbye. It prints the lamp's brightness, which its copy has at last.

       cc -O2 -Iinclude examples/library/client.c crates/tribes_link/out/libtribes.a -o client
       client PORT TURNS WORD NAME [quiet]

   With `quiet` it ends without a goodbye, and the server gives it up. */
#include "tribes.h"
#include <arpa/inet.h>
#include <stdio.h>
#include <stdlib.h>
#include <string.h>
#include <sys/random.h>
#include <sys/socket.h>
#include <time.h>

enum { LIMIT = 1000, TAG = 16, REASON = 7, WELCOME = 15 };

static const tribes_field fields[] = {{0, 65535, 16}};
static const tribes_kind kinds[] = {{1, 8}};

static tribes_config config_of(uint32_t client) { return (tribes_config){client, 1000000, 600, 3, 8}; }

static int wire;
static tribes_knock knock;
static tribes_key key = {.tag_bytes = TAG, .side = 0};
static tribes_presence presence;
static tribes_end end;

static uint64_t now(void) {
    struct timespec at;
    clock_gettime(CLOCK_MONOTONIC, &at);
    return (uint64_t)at.tv_sec * 1000 + (uint64_t)at.tv_nsec / 1000000;
}

static void put_tagged(uint8_t *bytes, size_t room, size_t count) {
    if (tribes_tag(&key, knock.nonce.low, bytes, room, count, &count) == 0) send(wire, bytes, count, 0);
}

/* what came: of the greeting until the server lets it in, and then only what carries the server's tag */
static void hear(void) {
    uint8_t bytes[TRIBES_MAX_DATAGRAM];
    uint32_t reason, moves;
    ssize_t came;
    while ((came = recv(wire, bytes, sizeof bytes, MSG_DONTWAIT)) >= 0) {
        size_t count = (size_t)came;
        if (count > 0 && bytes[0] == WELCOME && knock.reached == 2) continue; /* once more: the answer went twice */
        if (knock.reached < 2) {
            tribes_config config;
            tribes_reason why;
            tribes_knock_hear(&knock, bytes, count);
            if (knock.reached != 2) continue;
            config = config_of(knock.client);
            if (tribes_client(&end, &config, kinds, 1, fields, 1, &why) < 0) exit(1);
            tribes_presence_start(&presence, LIMIT, now());
        } else if (tribes_verify(&key, knock.nonce.low, bytes, count, &count) == 0 &&
                   tribes_presence_came(&presence, bytes, count, now(), &reason) == 0)
            tribes_arrive(&end, bytes, count, 0, &moves);
    }
}

static void tell(const char *name) {
    uint8_t bytes[TRIBES_MAX_DATAGRAM + TAG];
    int64_t none = 0;
    uint32_t number;
    size_t count;
    tribes_greeting greeting = {0};
    if (knock.reached == 2) {
        tribes_sample(&end, 1, &number);
        if (tribes_pack(&end, &none, 0, bytes, TRIBES_MAX_DATAGRAM, &count) > 0) put_tagged(bytes, sizeof bytes, count);
    } else if (tribes_knock_write(&knock, (const uint8_t *)name, strlen(name), &greeting) == 0 && greeting.count > 0)
        send(wire, greeting.bytes, greeting.count, 0);
}

int main(int argc, char **argv) {
    if (argc < 5) return 2;
    static const char *reasons[] = {"", "another version", "another protocol", "full", "the token is refused"};
    struct sockaddr_in to = {.sin_family = AF_INET, .sin_port = htons((uint16_t)atoi(argv[1])), .sin_addr.s_addr = htonl(INADDR_LOOPBACK)};
    tribes_config config = config_of(0);
    tribes_digest protocol;
    tribes_reason why;
    int quiet = argc > 5;
    memcpy(key.key, "the key of ada, of 32 bytes ....", 32);
    memcpy(key.key + 11, argv[4], 3);
    if (tribes_protocol(&config, kinds, 1, fields, 1, (const uint8_t *)argv[3], strlen(argv[3]), &protocol, &why) < 0) return 1;
    memcpy(knock.protocol, protocol.bytes, 32);
    if (getrandom(&knock.nonce, sizeof knock.nonce, 0) != sizeof knock.nonce) return 1;
    wire = socket(AF_INET, SOCK_DGRAM, 0);
    if (connect(wire, (struct sockaddr *)&to, sizeof to)) return 1;
    for (int turn = 0; turn < atoi(argv[2]) && knock.reached != 3; turn++) {
        tell(argv[4]);
        nanosleep(&(struct timespec){0, 20000000}, NULL);
        hear();
        if (knock.reached == 2 && !tribes_presence_alive(&presence, now())) break;
    }
    int64_t values[TRIBES_MAX_FIELDS] = {-1};
    tribes_copied copied;
    uint32_t slot;
    if (knock.reached == 3) printf("refused: %s\n", reasons[knock.reason]);
    else if (knock.reached != 2) printf("no answer\n");
    else if (!tribes_presence_alive(&presence, now())) printf("the server is gone\n");
    else {
        if (tribes_control(&end, &slot) == 1) tribes_copy(&end, slot, &copied, values, TRIBES_MAX_FIELDS);
        printf("client %u, the lamp is at %s, %llu refused\n", knock.client, values[0] > 0 ? "some brightness" : "none", (unsigned long long)key.refused);
        tribes_greeting goodbye;
        if (!quiet) tribes_presence_leave(&presence, REASON);
        while (tribes_presence_say(&presence, &goodbye) == 1) put_tagged(goodbye.bytes, sizeof goodbye.bytes, goodbye.count);
    }
    tribes_free(&end);
    return 0;
}
