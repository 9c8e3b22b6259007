/* Small reliable messages through both ends in one process: the library and ENet, side by side, taken in turns in one run.
   Both: messages of BYTES bytes, BURST a turn at the most, all acknowledged in the same turn or the next.
     tribes: datagrams handed over in memory, and over UDP loopback sockets, each read until it has no more, as ENet does
     enet:   UDP loopback, its own sockets (it has no other way)
   against_enet [messages] [rounds] */
#define _GNU_SOURCE
#include "tribes.h"
#include <arpa/inet.h>
#include <enet/enet.h>
#include <stdio.h>
#include <stdlib.h>
#include <string.h>
#include <sys/socket.h>
#include <time.h>
#include <unistd.h>

static double cpu(void) {
    struct timespec t;
    clock_gettime(CLOCK_PROCESS_CPUTIME_ID, &t);
    return (double)t.tv_sec + (double)t.tv_nsec * 1e-9;
}

static void stop(const char *what, int code) { printf("%s %d\n", what, code); exit(1); }

/* two sockets of the loopback device, each bound and connected to the other */
static void sockets(int s[2]) {
    struct sockaddr_in a[2];
    socklen_t n = sizeof a[0];
    for (int k = 0; k < 2; k++) {
        s[k] = socket(AF_INET, SOCK_DGRAM | SOCK_NONBLOCK, 0);
        memset(&a[k], 0, sizeof a[k]);
        a[k].sin_family = AF_INET;
        a[k].sin_addr.s_addr = htonl(INADDR_LOOPBACK);
        if (bind(s[k], (struct sockaddr *)&a[k], sizeof a[k]) || getsockname(s[k], (struct sockaddr *)&a[k], &n)) stop("bind", 0);
    }
    for (int k = 0; k < 2; k++) if (connect(s[k], (struct sockaddr *)&a[1 - k], sizeof a[k])) stop("connect", 0);
}

/* the next datagram that came, or none: a socket is read until it has none, as ENet does */
static size_t came(int socket, uint8_t *bytes) {
    ssize_t n = recv(socket, bytes, TRIBES_MAX_DATAGRAM, 0);
    return n < 0 ? 0 : (size_t)n;
}

typedef struct { double seconds; long messages, datagrams, bytes; } tally;

static tally tribes(long total, int burst, int length, uint32_t size, int udp) {
    tribes_field field = {0, 1, 1};
    tribes_kind kind = {1, 1};
    tribes_config config = {0, 16777215, size, 2, 10};
    tribes_end server = {0}, client = {0};
    tribes_reason why;
    uint8_t no_block = 0;
    uint32_t no_length = 0;
    int s[2] = {-1, -1};
    if (tribes_server(&server, &config, &kind, 1, &field, 1, &no_block, 0, &no_length, 0, &why)) stop("server", why.code);
    if (tribes_client(&client, &config, &kind, 1, &field, 1, &why)) stop("client", why.code);
    if (udp) sockets(s);
    static tribes_ask asks[TRIBES_MAX_ASKS];
    uint8_t bytes[TRIBES_MAX_DATAGRAM], event[TRIBES_MAX_EVENT] = {0};
    int64_t none[1] = {0};
    uint32_t number;
    size_t count;
    tally t = {0, 0, 0, 0};
    long posted = 0;
    double start = cpu();
    for (long turn = 0; t.messages < total; turn++) {
        if (turn > 100 * total) stop("too many turns", 0);
        for (int k = 0; k < burst && posted < total; k++) {
            memcpy(event, &posted, sizeof posted);
            int32_t code = tribes_post(&server, event, (size_t)length, 1, &number);
            if (code == TRIBES_EVENTS_FULL) break;
            if (code) stop("post", code);
            posted++;
        }
        if (tribes_plan(&server, asks, TRIBES_MAX_ASKS, &count) < 0) stop("plan", 0);
        int32_t code = tribes_pack(&server, none, 0, bytes, sizeof bytes, &count);
        if (code < 0) stop("pack", code);
        t.datagrams++; t.bytes += (long)count;
        if (udp && send(s[0], bytes, count, 0) < 0) stop("send", 0);
        while (udp ? (count = came(s[1], bytes)) : count) {
            if ((code = tribes_arrive(&client, bytes, count, 0, &number)) < 0) stop("arrive", code);
            count = 0;
            size_t length_of;
            while ((code = tribes_event(&client, event, sizeof event, &length_of)) > 0) {
                long got;
                memcpy(&got, event, sizeof got);
                if (got != t.messages) stop("out of order", (int)got);
                t.messages++;
            }
        }
        if ((code = tribes_pack(&client, none, 0, bytes, sizeof bytes, &count)) < 0) stop("pack", code);
        t.datagrams++; t.bytes += (long)count;
        if (udp && send(s[1], bytes, count, 0) < 0) stop("send", 0);
        while (udp ? (count = came(s[0], bytes)) : count) {
            if ((code = tribes_arrive(&server, bytes, count, 32, &number)) < 0) stop("arrive", code);
            count = 0;
        }
    }
    t.seconds = cpu() - start;
    tribes_free(&server);
    tribes_free(&client);
    if (udp) { close(s[0]); close(s[1]); }
    return t;
}

static tally enet(long total, int burst, int length) {
    ENetAddress address;
    enet_address_set_host(&address, "127.0.0.1");
    address.port = (enet_uint16)(28200 + getpid() % 1000);
    ENetHost *server = enet_host_create(&address, 16, 1, 0, 0), *client = enet_host_create(NULL, 1, 1, 0, 0);
    if (!server || !client) stop("host", 0);
    ENetPeer *to = enet_host_connect(client, &address, 1, 0), *from = NULL;
    ENetEvent event;
    if (!to) stop("peer", 0);
    for (int i = 0; i < 2000 && !from; i++) {
        while (enet_host_service(server, &event, 1) > 0) if (event.type == ENET_EVENT_TYPE_CONNECT) from = event.peer;
        while (enet_host_service(client, &event, 1) > 0) {}
    }
    if (!from) stop("no connection", 0);
    tally t = {0, 0, 0, 0};
    long posted = 0;
    char bytes[64] = {0};
    server->totalSentPackets = client->totalSentPackets = server->totalSentData = client->totalSentData = 0;
    double start = cpu();
    for (long turn = 0; t.messages < total; turn++) {
        if (turn > 100 * total) stop("too many turns", 0);
        for (int k = 0; k < burst && posted < total && posted - t.messages < 256; k++, posted++) {
            memcpy(bytes, &posted, sizeof posted);
            enet_peer_send(from, 0, enet_packet_create(bytes, (size_t)length, ENET_PACKET_FLAG_RELIABLE));
        }
        enet_host_flush(server);
        while (enet_host_service(client, &event, 0) > 0)
            if (event.type == ENET_EVENT_TYPE_RECEIVE) {
                long got;
                memcpy(&got, event.packet->data, sizeof got);
                if (got != t.messages) stop("out of order", (int)got);
                t.messages++;
                enet_packet_destroy(event.packet);
            }
        enet_host_flush(client);
        while (enet_host_service(server, &event, 0) > 0) {}
    }
    t.seconds = cpu() - start;
    t.datagrams = (long)server->totalSentPackets + (long)client->totalSentPackets;
    t.bytes = (long)server->totalSentData + (long)client->totalSentData;
    enet_host_destroy(client);
    enet_host_destroy(server);
    return t;
}

static void print(const char *name, tally t) {
    printf("  %-22s %7.0f ns a message, %9.0f messages a second, %5.2f datagrams and %5.1f bytes a message\n", name,
           t.seconds / (double)t.messages * 1e9,
           (double)t.messages / t.seconds, (double)t.datagrams / (double)t.messages, (double)t.bytes / (double)t.messages);
}
static tally least(tally a, tally b) { return a.messages && a.seconds / (double)a.messages < b.seconds / (double)b.messages ? a : b; }

int main(int argc, char **argv) {
    long total = argc > 1 ? atol(argv[1]) : 100000;
    int rounds = argc > 2 ? atoi(argv[2]) : 5, bursts[] = {1, 4, 16}, lengths[] = {8, 24};
    if (enet_initialize()) return 1;
    for (int b = 0; b < 3; b++)
        for (int l = 0; l < 2; l++) {
            tally in_memory = {0, 0, 0, 0}, by_udp = in_memory, by_enet = in_memory;
            for (int k = 0; k < rounds; k++) {
                in_memory = least(in_memory, tribes(total, bursts[b], lengths[l], 1200, 0));
                by_udp = least(by_udp, tribes(total, bursts[b], lengths[l], 1200, 1));
                by_enet = least(by_enet, enet(total, bursts[b], lengths[l]));
            }
            printf("%d messages of %d bytes a turn (the best of %d rounds of %ld, processor time of both ends)\n", bursts[b], lengths[l],
                   rounds, total);
            print("tribes, in memory", in_memory);
            print("tribes, UDP loopback", by_udp);
            print("ENet, UDP loopback", by_enet);
        }
    return 0;
}
