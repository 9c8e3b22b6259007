/* The socket and the bad network on the way: network.h says what they do. */
#include "network.h"
#include <string.h>
#include <sys/socket.h>

enum { MOST_READ = 1000 }; /* datagrams taken from the socket at a time: a flood must not stop the turns */

static unsigned draw(network *n, unsigned below) {
    n->dice = n->dice * 6364136223846793005u + 1442695040888963407u;
    return (unsigned)(n->dice >> 33) % below;
}

int network_open(network *n, const struct sockaddr_in *server, uint32_t seed) {
    memset(n, 0, sizeof *n);
    n->dice = seed;
    n->socket = socket(AF_INET, SOCK_DGRAM | SOCK_NONBLOCK, 0);
    /* connected: the system passes on what comes from the server alone */
    return n->socket < 0 || connect(n->socket, (const struct sockaddr *)server, sizeof *server) ? -1 : 0;
}

/* takes a datagram in hand: it is lost, or goes on later, once or twice */
static void put(network *n, int up, const uint8_t *bytes, size_t count, int64_t now) {
    if (draw(n, 100) < n->loss) return;
    for (int times = draw(n, 100) < n->repeats ? 2 : 1; times > 0 && n->count < MOST_HELD; times--) {
        held *h = &n->waits[n->count++];
        h->up = up;
        h->due = now + draw(n, n->delay + 1);
        h->order = n->order++;
        h->count = count;
        memcpy(h->bytes, bytes, count);
    }
}

/* the place of the next datagram that is due that way, or -1 */
static int next_due(const network *n, int up, int64_t now) {
    int best = -1;
    for (int i = 0; i < n->count; i++) {
        const held *h = &n->waits[i], *b = &n->waits[best < 0 ? i : best];
        if (h->up != up || h->due > now) continue;
        if (best < 0 || h->due < b->due || (h->due == b->due && h->order < b->order)) best = i;
    }
    return best;
}

static void let_go(network *n, int place) {
    if (place != --n->count) n->waits[place] = n->waits[n->count];
}

void network_send(network *n, const uint8_t *bytes, size_t count, int64_t now) { put(n, 1, bytes, count, now); }

void network_go(network *n, int64_t now) {
    uint8_t bytes[ROOM];
    ssize_t count;
    int place;
    while ((place = next_due(n, 1, now)) >= 0) {
        const held *h = &n->waits[place];
        if (send(n->socket, h->bytes, h->count, 0) > 0) n->sent += h->count;
        let_go(n, place); /* what the system doesn't send is lost, as by any network */
    }
    for (int left = MOST_READ; left > 0 && (count = recv(n->socket, bytes, sizeof bytes, 0)) >= 0; left--) {
        n->received += (uint64_t)count;
        put(n, 0, bytes, (size_t)count, now);
    }
}

ssize_t network_receive(network *n, uint8_t *bytes, int64_t now) {
    int place = next_due(n, 0, now);
    if (place < 0) return -1;
    size_t count = n->waits[place].count;
    memcpy(bytes, n->waits[place].bytes, count);
    let_go(n, place);
    return (ssize_t)count;
}
