/* A server over UDP that players join, and whose datagrams nobody else can forge: docs/joining.md, in C. Its twin is client.c.

       cc -O2 -Iinclude examples/library/server.c crates/tribes_link/out/libtribes.a -o server
       server PORT SECONDS WORD
   Two players have keys, which a game's own service would hand out over its own secure channel. WORD is the game's name and version: a client
   with another one, or with other kinds, is refused. Each turn the lamp is one brighter, and each player is told. */
#include "tribes.h"
#include <arpa/inet.h>
#include <stdio.h>
#include <stdlib.h>
#include <string.h>
#include <sys/random.h>
#include <sys/socket.h>
#include <time.h>

enum { SEATS = 2, LIMIT = 1000, TAG = 16, HELLO = 3, ANSWER = 11, TOKEN_AT = 34 };

static const char *names[] = {"ada", "bob"};
static const uint8_t keys[][32] = {"the key of ada, of 32 bytes ....", "the key of bob, of 32 bytes ...."};
static const tribes_field fields[] = {{0, 65535, 16}};
static const tribes_kind kinds[] = {{1, 8}};
static tribes_config config_of(uint32_t client) { return (tribes_config){client, 1000000, 600, 3, 8}; }

/* who has a client, and the number of his joining */
typedef struct {
    tribes_end end;
    tribes_key key;
    tribes_presence presence;
    struct sockaddr_in at;
    uint64_t number;
    const char *name;
    uint32_t lamp;
} seat;
static seat seats[SEATS];
static tribes_door door;
static int wire, brightness;

static uint64_t now(void) {
    struct timespec at;
    clock_gettime(CLOCK_MONOTONIC, &at);
    return (uint64_t)at.tv_sec * 1000 + (uint64_t)at.tv_nsec / 1000000;
}

static void put(const struct sockaddr_in *to, const uint8_t *bytes, size_t count) {
    if (count > 0) sendto(wire, bytes, count, 0, (const struct sockaddr *)to, sizeof *to);
}
static tribes_address address_of(const struct sockaddr_in *at) {
    /* as IPv6 writes one of IPv4 */
    tribes_address address = {{[10] = 255, [11] = 255}, ntohs(at->sin_port)};
    memcpy(address.bytes + 12, &at->sin_addr, 4);
    return address;
}

/* what is sent to a seat ends in its tag */
static void put_tagged(seat *s, uint8_t *bytes, size_t room, size_t count) {
    if (tribes_tag(&s->key, s->number, bytes, room, count, &count) == 0) put(&s->at, bytes, count);
}

static void empty(uint32_t client, const char *how) {
    seat *s = &seats[client];
    printf("%s %s, %llu refused\n", s->name, how, (unsigned long long)s->key.refused);
    tribes_free(&s->end);
    tribes_door_leave(&door, client);
    *s = (seat){0};
}

/* a right answer came: its token is a name, and who has it is given a free client */
static void decide(const struct sockaddr_in *from, const uint8_t *bytes, size_t count, tribes_greeting *reply) {
    uint32_t client = 0, known = 0;
    while (client < SEATS && seats[client].name) client++;
    while (known < 2 && (count - TOKEN_AT != strlen(names[known]) || memcmp(bytes + TOKEN_AT, names[known], count - TOKEN_AT))) known++;
    seat *s = &seats[client];
    const tribes_config config = config_of(client);
    const uint32_t length = 4;
    tribes_reason why;
    if (known == 2 || client == SEATS || tribes_server(&s->end, &config, kinds, 1, fields, 1, (const uint8_t *)"lamp", 4, &length, 1, &why) < 0) {
        tribes_door_refuse(&door, reply);
        return;
    }
    tribes_door_accept(&door, client, reply);
    tribes_show(&s->end, &(tribes_object){0, 0, 0, 1}, &s->lamp);
    s->key = (tribes_key){.tag_bytes = TAG, .side = 1};
    memcpy(s->key.key, keys[known], 32);
    memcpy(&s->number, bytes + 2, 8); /* of the nonce, which the client chose for this joining */
    s->at = *from;
    s->name = names[known];
    tribes_presence_start(&s->presence, LIMIT, now());
    printf("%s is client %u\n", s->name, client);
}

/* a datagram of a seat: its tag is looked at first */
static void take(uint32_t client, const uint8_t *bytes, size_t count) {
    seat *s = &seats[client];
    uint32_t reason, moves;
    if (tribes_verify(&s->key, s->number, bytes, count, &count) < 0) return;
    if (tribes_presence_came(&s->presence, bytes, count, now(), &reason) == 1) empty(client, "left");
    else tribes_arrive(&s->end, bytes, count, TRIBES_MAX_MOVES, &moves);
}

static void hear(void) {
    uint8_t bytes[TRIBES_MAX_DATAGRAM];
    struct sockaddr_in from;
    socklen_t size = sizeof from;
    ssize_t count;
    while ((count = recvfrom(wire, bytes, sizeof bytes, MSG_DONTWAIT, (struct sockaddr *)&from, &size)) >= 0) {
        tribes_address address = address_of(&from);
        tribes_greeting reply = {0};
        uint32_t number, client = 0;
        if (count == 0) continue;
        while (client < SEATS && memcmp(&seats[client].at, &from, sizeof from)) client++;
        if (bytes[0] != HELLO && bytes[0] != ANSWER) {
            if (client < SEATS) take(client, bytes, (size_t)count);
        } else if (tribes_door_hear(&door, &address, bytes, (size_t)count, &reply, &number) == 3) decide(&from, bytes, (size_t)count, &reply);
        put(&from, reply.bytes, reply.count);
    }
}

static void tell(uint32_t client) {
    seat *s = &seats[client];
    static tribes_ask asks[TRIBES_MAX_ASKS];
    int64_t values[] = {brightness};
    uint8_t bytes[TRIBES_MAX_DATAGRAM + TAG];
    size_t count;
    tribes_changed(&s->end, s->lamp, 1);
    if (tribes_plan(&s->end, asks, TRIBES_MAX_ASKS, &count) < 0) return;
    if (tribes_pack(&s->end, values, count, bytes, TRIBES_MAX_DATAGRAM, &count) > 0) put_tagged(s, bytes, sizeof bytes, count);
}

int main(int argc, char **argv) {
    if (argc != 4) return 2;
    tribes_terms terms = {.seats = SEATS};
    tribes_config config = config_of(0);
    tribes_digest protocol;
    tribes_reason why;
    struct sockaddr_in at = {.sin_family = AF_INET, .sin_port = htons((uint16_t)atoi(argv[1])), .sin_addr.s_addr = htonl(INADDR_LOOPBACK)};
    if (tribes_protocol(&config, kinds, 1, fields, 1, (const uint8_t *)argv[3], strlen(argv[3]), &protocol, &why) < 0) return 1;
    memcpy(terms.protocol, protocol.bytes, 32);
    if (getrandom(terms.secret, 32, 0) != 32 || tribes_door_open(&door, &terms) < 0) return 1;
    if ((wire = socket(AF_INET, SOCK_DGRAM, 0)) < 0 || bind(wire, (struct sockaddr *)&at, sizeof at)) return 1;
    for (uint64_t start = now(); now() < start + (uint64_t)atoi(argv[2]) * 1000; brightness = brightness < 65535 ? brightness + 1 : 0) {
        hear();
        for (uint32_t c = 0; c < SEATS; c++) {
            if (seats[c].name && !tribes_presence_alive(&seats[c].presence, now())) empty(c, "is gone");
            if (seats[c].name) tell(c);
        }
        nanosleep(&(struct timespec){0, 20000000}, NULL);
    }
    return tribes_door_free(&door);
}
