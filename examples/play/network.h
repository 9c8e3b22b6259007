/* A UDP socket that speaks with one server, and on the way a network that can be made bad: it loses, delays and repeats datagrams,
   both ways. Delays differ from datagram to datagram, so they also come in another order. */
#ifndef NETWORK_H
#define NETWORK_H

#include "joining.h"
#include <netinet/in.h>
#include <sys/types.h>

enum { MOST_HELD = 256, ROOM = TRIBES_MAX_DATAGRAM + TAG_ROOM + 1 }; /* one byte more, so that what is too long shows */

typedef struct { int up; int64_t due; uint64_t order; size_t count; uint8_t bytes[ROOM]; } held;

typedef struct {
    int socket;
    unsigned loss, delay, repeats; /* percent; milliseconds at most; percent */
    uint64_t dice, order;
    uint64_t sent, received;       /* bytes that went through the socket */
    int count;
    held waits[MOST_HELD];         /* what is on its way in the bad network */
} network;

/* Answers 0, or -1 where the system gives no socket (errno). */
int network_open(network *n, const struct sockaddr_in *server, uint32_t seed);
void network_send(network *n, const uint8_t *bytes, size_t count, int64_t now);
/* Sends what is due, and takes in hand what came. */
void network_go(network *n, int64_t now);
/* The next datagram that is due to the client, into ROOM bytes: its length, or -1 where there is none. */
ssize_t network_receive(network *n, uint8_t *bytes, int64_t now);

#endif
