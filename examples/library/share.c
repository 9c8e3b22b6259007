/* Ten things that move, shared over UDP at 20 packets a second: a server and its clients, in C.

       cc -O2 -Iinclude examples/library/share.c crates/tribes_link/out/libtribes.a -o share
       share serve PORT TURNS LOSS          share join PORT NUMBER TURNS LOSS

   Thing k is driven by client k, where there is one, by moves of a throttle, a yaw and eight buttons; else it moves by itself. Each side
   throws away LOSS of 100 datagrams that it would send. In the last quarter of the server's turns nothing moves, so that with turns enough
   all have the newest places, which each prints.

   What the library does: what was lost is told again, with the newest values; events come in order, moves are taken once. What the game
   does: sockets, turns, who joins, and the world. A client says hello until it is answered; the library has no part in that. */
#include "tribes.h"
#include <arpa/inet.h>
#include <stdio.h>
#include <stdlib.h>
#include <string.h>
#include <sys/socket.h>
#include <time.h>
#include <unistd.h>

enum { THINGS = 10, MOST_CLIENTS = 10, EDGE = 65535, HELLO = 2, WELCOME = 3 };

/* ---- a move: its parts side by side, 22 bits */

enum { THROTTLE, YAW, BUTTONS, PARTS, MOVE_BITS = 22, FIRES = 1 };
static const uint32_t widths[PARTS] = {3, 11, 8};

/* ---- the game's kinds: one, a thing, with its place and its number */

static const tribes_field fields[] = {{0, EDGE, 16}, {0, EDGE, 16}, {0, THINGS - 1, 4}};
static const tribes_kind kinds[] = {{3, 8}};
static const uint8_t block[] = "thing";
static const uint32_t block_length = 5;

static tribes_config config_of(uint32_t client) { return (tribes_config){client, 1000000, 600, 3, MOVE_BITS}; }

typedef struct { int64_t place[3]; int64_t way[2]; } thing;

/* ---- sockets, turns, and the loss that is asked for */

typedef struct { int socket; unsigned loss, state; long sent, lost; } wire;

static void stop(const char *what, int32_t code) {
    fprintf(stderr, "share: %s: %s (%d)\n", what, tribes_text(code), code);
    exit(1);
}

static wire wire_at(uint16_t port, unsigned loss, unsigned seed) {
    wire w = {socket(AF_INET, SOCK_DGRAM | SOCK_NONBLOCK, 0), loss, seed, 0, 0};
    struct sockaddr_in at = {.sin_family = AF_INET, .sin_port = htons(port), .sin_addr.s_addr = htonl(INADDR_LOOPBACK)};
    if (w.socket < 0 || bind(w.socket, (struct sockaddr *)&at, sizeof at)) {
        perror("share: the port");
        exit(1);
    }
    return w;
}

static void put(wire *w, const struct sockaddr_in *to, const uint8_t *bytes, size_t count) {
    w->state = w->state * 1664525u + 1013904223u;
    w->sent++;
    if ((w->state >> 8) % 100 < w->loss) w->lost++;
    else (void)sendto(w->socket, bytes, count, 0, (const struct sockaddr *)to, sizeof *to);
}

/* the next datagram that came; -1 where none waits */
static ssize_t get(wire *w, struct sockaddr_in *from, uint8_t *bytes) {
    socklen_t size = sizeof *from;
    return recvfrom(w->socket, bytes, TRIBES_MAX_DATAGRAM, 0, (struct sockaddr *)from, &size);
}

static void sleep_until_turn(const struct timespec *start, long turn) {
    struct timespec at = *start;
    at.tv_sec += turn / 20;
    at.tv_nsec += turn % 20 * 50000000;
    if (at.tv_nsec >= 1000000000) { at.tv_nsec -= 1000000000; at.tv_sec++; }
    clock_nanosleep(CLOCK_MONOTONIC, TIMER_ABSTIME, &at, NULL);
}

static void print_things(const thing *things, const int *known) {
    for (int k = 0; k < THINGS; k++)
        if (!known || known[k]) printf("thing %d %lld %lld\n", k, (long long)things[k].place[0], (long long)things[k].place[1]);
}

/* ---- the server */

/* one client: its end, where it is, and for each thing its period */
typedef struct { tribes_end end; struct sockaddr_in at; int joined; uint32_t n[THINGS]; long events, moves, shots, lost; } seat;

static thing things[THINGS];
static seat seats[MOST_CLIENTS];

static void start_world(void) {
    for (int k = 0; k < THINGS; k++) {
        thing t = {{5000 + 5500 * k, 3000 + 6000 * k, k}, {150 + 30 * k, 400 - 35 * k}};
        things[k] = t;
    }
}

static int moved_to(int64_t *place, int64_t to) {
    *place = to < 0 ? 0 : to > EDGE ? EDGE : to;
    return *place != to;
}

/* a thing has a new place: every client's end is told which fields changed, and which client drives it is of no matter */
static void note_moved(int k) {
    for (int c = 0; c < MOST_CLIENTS; c++)
        if (seats[c].joined) {
            int32_t code = tribes_changed(&seats[c].end, seats[c].n[k], 3);
            if (code < 0) stop("changed", code);
        }
}

/* a thing goes where its yaw points, of 2,048 ways round; along a square, so that it needs no sine */
static void drive(thing *t, uint32_t throttle, uint32_t yaw) {
    static const int sides[5] = {512, 0, -512, 0, 512};
    int side = (int)yaw / 512, part = (int)yaw % 512;
    for (int axis = 0; axis < 2; axis++) {
        int from = sides[(side + 3 * axis) % 4], to = sides[(side + 3 * axis) % 4 + 1];
        moved_to(&t->place[axis], t->place[axis] + (int)throttle * 100 * (from + (to - from) * part / 512) / 512);
    }
}

static void tick(void) {
    for (int k = 0; k < THINGS; k++) {
        if (k < MOST_CLIENTS && seats[k].joined) continue; /* its client drives it */
        for (int axis = 0; axis < 2; axis++)
            if (moved_to(&things[k].place[axis], things[k].place[axis] + things[k].way[axis])) things[k].way[axis] = -things[k].way[axis];
        note_moved(k);
    }
}

/* a client says hello, again and again until the welcome reaches it */
static void welcome(wire *w, const struct sockaddr_in *from, uint32_t client) {
    seat *s = &seats[client];
    tribes_config config = config_of(client);
    tribes_reason why = {0, 0, 0};
    uint8_t answer[] = {WELCOME, (uint8_t)client};
    if (!s->joined) {
        int32_t code = tribes_server(&s->end, &config, kinds, 1, fields, 3, block, 5, &block_length, 1, &why);
        if (code < 0) stop("server", code);
        for (uint32_t k = 0; k < THINGS; k++) {
            tribes_object object = {0, 0, k % 4, k == client};
            if ((code = tribes_show(&s->end, &object, &s->n[k])) < 0) stop("show", code);
        }
        s->at = *from;
        s->joined = 1;
    }
    put(w, from, answer, sizeof answer);
}

/* a datagram of a client came to its end: events and moves are handed out before the next one */
static void take(seat *s, int k, const uint8_t *bytes, size_t count) {
    uint32_t moves;
    int32_t code = tribes_arrive(&s->end, bytes, count, TRIBES_MAX_MOVES, &moves);
    if (code < 0) return; /* old, or none of ours: nothing changed */
    uint64_t brought[TRIBES_MAX_MOVES], parts[PARTS];
    if ((code = tribes_moves(&s->end, brought, TRIBES_MAX_MOVES, &moves)) < 0) stop("moves", code);
    for (uint32_t i = 0; i < moves; i++) {
        if ((code = tribes_take_bits(widths, parts, PARTS, brought[i])) < 0) stop("a move", code);
        drive(&things[k], (uint32_t)parts[THROTTLE], (uint32_t)parts[YAW]);
        s->shots += parts[BUTTONS] & FIRES;
    }
    if (moves > 0) note_moved(k);
    s->moves += moves;
    uint8_t event[TRIBES_MAX_EVENT];
    size_t length;
    while (tribes_event(&s->end, event, sizeof event, &length) > 0) s->events++;
    tribes_judged judged[TRIBES_MAX_JUDGED];
    uint32_t verdicts;
    if ((code = tribes_verdicts(&s->end, judged, TRIBES_MAX_JUDGED, &verdicts)) < 0) stop("verdicts", code);
    for (uint32_t i = 0; i < verdicts; i++) s->lost += !judged[i].received;
}

static void hear(wire *w) {
    uint8_t bytes[TRIBES_MAX_DATAGRAM];
    struct sockaddr_in from;
    ssize_t count;
    while ((count = get(w, &from, bytes)) >= 0) {
        if (count == 2 && bytes[0] == HELLO && bytes[1] < MOST_CLIENTS) { welcome(w, &from, bytes[1]); continue; }
        for (int k = 0; k < MOST_CLIENTS; k++)
            if (seats[k].joined && seats[k].at.sin_port == from.sin_port) take(&seats[k], k, bytes, (size_t)count);
    }
}

/* the next datagram of a client's end: it says which values it wants, and is given them as they are now */
static void tell(wire *w, seat *s) {
    static tribes_ask asks[TRIBES_MAX_ASKS];
    static int64_t values[TRIBES_MAX_ASKS];
    uint8_t bytes[TRIBES_MAX_DATAGRAM];
    size_t count = 0;
    int32_t code = tribes_plan(&s->end, asks, TRIBES_MAX_ASKS, &count);
    if (code < 0) stop("plan", code);
    for (size_t i = 0; i < count; i++)
        for (int k = 0; k < THINGS; k++)
            if (s->n[k] == asks[i].n) values[i] = things[k].place[asks[i].field];
    code = tribes_pack(&s->end, values, count, bytes, sizeof bytes, &count);
    if (code < 0) stop("pack", code);
    if (code > 0) put(w, &s->at, bytes, count);
}

static void serve(wire *w, long turns) {
    struct timespec start;
    uint32_t number;
    clock_gettime(CLOCK_MONOTONIC, &start);
    start_world();
    for (long turn = 1; turn <= turns; turn++) {
        hear(w);
        if (turn <= turns - turns / 4) tick();
        for (int c = 0; c < MOST_CLIENTS; c++) {
            if (!seats[c].joined) continue;
            char text[TRIBES_MAX_EVENT];
            int length = snprintf(text, sizeof text, "turn %ld", turn);
            if (turn % 20 == 0) tribes_post(&seats[c].end, (const uint8_t *)text, (size_t)length, 1, &number);
            tell(w, &seats[c]);
        }
        sleep_until_turn(&start, turn);
    }
    print_things(things, NULL);
    for (int c = 0; c < MOST_CLIENTS; c++) {
        if (!seats[c].joined) continue;
        int settled = 0;
        for (uint32_t k = 0; k < THINGS; k++)
            for (uint32_t f = 0; f < 2; f++) settled += tribes_settled(&seats[c].end, seats[c].n[k], f) == 1;
        printf("client %d: %ld events, %ld moves, %ld shots, %ld packets told as lost, %d of 20 fields settled\n", c, seats[c].events,
               seats[c].moves, seats[c].shots, seats[c].lost, settled);
        tribes_free(&seats[c].end);
    }
}

/* ---- a client */

/* what the datagrams that came told: copies by their thing's number, and events */
static void look(tribes_end *end, thing *seen, int *known) {
    uint32_t slot = 0;
    int64_t values[TRIBES_MAX_FIELDS];
    tribes_copied copied;
    memset(known, 0, THINGS * sizeof *known);
    for (uint32_t from = 0; tribes_next_copy(end, from, &slot) == 1; from = slot + 1) {
        if (tribes_copy(end, slot, &copied, values, TRIBES_MAX_FIELDS) < 0 || values[2] < 0 || values[2] >= THINGS) continue;
        memcpy(seen[values[2]].place, values, sizeof seen[0].place);
        known[values[2]] = 1;
    }
}

static long listen_to(wire *w, tribes_end *end, int *welcomed) {
    uint8_t bytes[TRIBES_MAX_DATAGRAM], event[TRIBES_MAX_EVENT];
    struct sockaddr_in from;
    uint32_t moves;
    size_t length;
    ssize_t count;
    long events = 0;
    while ((count = get(w, &from, bytes)) >= 0) {
        *welcomed |= count == 2 && bytes[0] == WELCOME;
        if (tribes_arrive(end, bytes, (size_t)count, 0, &moves) < 0) continue; /* old, or a welcome: nothing changed */
        while (tribes_event(end, event, sizeof event, &length) > 0) events++;
    }
    return events;
}

static void join(wire *w, uint16_t port, uint32_t number, long turns) {
    struct sockaddr_in to = {.sin_family = AF_INET, .sin_port = htons(port), .sin_addr.s_addr = htonl(INADDR_LOOPBACK)};
    tribes_config config = config_of(number);
    tribes_end end = {0, NULL};
    tribes_reason why = {0, 0, 0};
    struct timespec start;
    thing seen[THINGS];
    int known[THINGS], welcomed = 0;
    long events = 0, sampled = 0;
    uint8_t hello[] = {HELLO, (uint8_t)number}, bytes[TRIBES_MAX_DATAGRAM];
    int32_t code = tribes_client(&end, &config, kinds, 1, fields, 3, &why);
    if (code < 0) stop("client", code);
    clock_gettime(CLOCK_MONOTONIC, &start);
    for (long turn = 1; turn <= turns; turn++) {
        int64_t none = 0;
        uint32_t made;
        size_t count;
        events += listen_to(w, &end, &welcomed);
        if (!welcomed) put(w, &to, hello, sizeof hello);
        uint64_t parts[PARTS] = {3, (uint64_t)turn * 16 % 2048, turn % 40 == 0 ? FIRES : 0}, move;
        if ((code = tribes_put_bits(widths, parts, PARTS, &move)) < 0) stop("a move", code);
        if (welcomed && turn <= turns / 2) sampled += tribes_sample(&end, move, &made) == 0;
        if (welcomed && turn % 20 == 0) tribes_post(&end, hello, sizeof hello, 1, &made);
        code = welcomed ? tribes_pack(&end, &none, 0, bytes, sizeof bytes, &count) : 0;
        if (code < 0) stop("pack", code);
        if (code > 0) put(w, &to, bytes, count);
        sleep_until_turn(&start, turn);
    }
    events += listen_to(w, &end, &welcomed);
    look(&end, seen, known);
    print_things(seen, known);
    tribes_count counts;
    if ((code = tribes_counts(&end, &counts)) < 0) stop("counts", code);
    printf("client %u: %ld events, %ld moves, of which %u are accepted\n", number, events, sampled, counts.accepted);
    tribes_free(&end);
}

int main(int argc, char **argv) {
    int serves = argc == 5 && !strcmp(argv[1], "serve"), joins = argc == 6 && !strcmp(argv[1], "join");
    if (!serves && !joins) {
        fprintf(stderr, "share serve PORT TURNS LOSS | share join PORT NUMBER TURNS LOSS\n");
        return 2;
    }
    if (tribes_version() != TRIBES_VERSION) stop("the library is of another version", -1);
    wire w = wire_at(serves ? (uint16_t)atoi(argv[2]) : 0, (unsigned)atoi(argv[argc - 1]), 7u + (unsigned)atoi(argv[3]));
    if (serves) serve(&w, atol(argv[3]));
    else join(&w, (uint16_t)atoi(argv[2]), (uint32_t)atoi(argv[3]), atol(argv[4]));
    printf("%ld of %ld datagrams thrown away\n", w.lost, w.sent);
    close(w.socket);
    return 0;
}
