/* Joining, in C: players say hello, answer, speak under their keys, leave and come back, over losses; and somebody forges, replays, spoofs and
   reflects datagrams: joining SEED [STEPS]. Its twin is joining.rs, which prints the same.

   It ends with 1 where a datagram is taken that no honest end tagged, or one twice; where somebody gets a client who heard no challenge; or where more
   bytes go to an address than came from it before a right answer did. */
#include "tribes.h"
#include <stdio.h>
#include <stdlib.h>
#include <string.h>

enum { PLAYERS = 4, ADDRESSES = 6, SEATS = 3, HELLO = 3, ANSWER = 11, LOST = 25, LIMIT = 3000, PLACE = 700, MOST = 8000 };

/* who joins: a knock, and once it was let in a key, an end and who is there */
typedef struct { tribes_knock knock; tribes_key key; tribes_end end; tribes_presence presence; uint8_t turn; } player;
/* who has a client */
typedef struct { tribes_key key; tribes_end end; tribes_presence presence; uint64_t number; int who; } seat;
/* what an honest end sent: whose, which way, whether it is a data packet, and whether it was taken */
typedef struct { int who, up, data, taken; size_t count; uint8_t bytes[PLACE]; } sent;

static const tribes_config config = {0, 1000000, 600, 3, 8};
static const tribes_field fields[] = {{0, 65535, 16}};
static const tribes_kind kinds[] = {{1, 8}};
static player players[PLAYERS];
static seat seats[SEATS];
static sent all[MOST];
static tribes_door door;
static uint32_t state, lamp;
static uint64_t now, came[ADDRESSES], went[ADDRESSES];
static long count_all, joined, forged, again, left, gone;
static int answered[ADDRESSES], heard[ADDRESSES], turns[PLAYERS];

static uint32_t draw(uint32_t below) {
    state = state * 1664525u + 1013904223u;
    return (state >> 8) % below;
}

static void stop(const char *what) {
    printf("%s\n", what);
    exit(1);
}

static tribes_address address_of(int at) {
    tribes_address address = {{[10] = 255, [11] = 255, [12] = 10, [15] = (uint8_t)at}, (uint16_t)(4000 + at)};
    return address;
}

/* a token is good once, and its key with it: the player's number, and how often he began */
static void key_of(int who, int turn, uint32_t side, tribes_key *key) {
    *key = (tribes_key){.tag_bytes = who % 2 ? 8 : 16, .side = side};
    memset(key->key, who + 1, 32);
    key->key[0] = (uint8_t)turn;
}

static void begin(int who) {
    static const tribes_kind others[] = {{1, 9}};
    tribes_digest number;
    tribes_reason why;
    player *p = &players[who];
    uint8_t turn = (uint8_t)(p->turn + 1);
    tribes_free(&p->end);
    *p = (player){.turn = turn};
    key_of(who, turn, 0, &p->key);
    p->knock.nonce.low = draw(1 << 24);
    p->knock.nonce.high = draw(1 << 24);
    /* now and then a player has other kinds */
    if (tribes_protocol(&config, draw(10) ? kinds : others, 1, fields, 1, (const uint8_t *)"lamp 1", 6, &number, &why) < 0) stop("protocol");
    memcpy(p->knock.protocol, number.bytes, 32);
}

static void empty(int k, long *counter) {
    ++*counter;
    tribes_free(&seats[k].end);
    tribes_door_leave(&door, (uint32_t)k);
    seats[k] = (seat){.who = -1};
}

static void keep(int who, int up, int data, const uint8_t *bytes, size_t count) {
    sent *it = &all[count_all++ % MOST];
    *it = (sent){who, up, data, 0, count, {0}};
    memcpy(it->bytes, bytes, count);
}

/* that an honest end sent it, and not what was taken before */
static void must_be_honest(int who, int up, const uint8_t *bytes, size_t count, int32_t code) {
    for (long k = 0; k < count_all && k < MOST; k++) {
        sent *it = &all[k];
        if (it->who != who || it->up != up || it->count != count || memcmp(it->bytes, bytes, count)) continue;
        if (code >= 0 && it->data && it->taken) stop("taken twice");
        it->taken |= code >= 0;
        again += code < 0;
        return;
    }
    stop("a forged datagram is taken");
}

/* a datagram is sent to a player */
static void down(int who, const uint8_t *bytes, size_t count) {
    player *p = &players[who];
    uint32_t reason = 0, moves = 0;
    size_t length = 0;
    tribes_reason why;
    if (p->knock.reached != 2) {
        tribes_knock_hear(&p->knock, bytes, count);
        heard[who] |= p->knock.reached > 0;
        printf("knock %d %u\n", who, p->knock.reached);
        if (p->knock.reached == 3) printf("refused %d\n", p->knock.reason);
        if (p->knock.reached != 2) return;
        if (tribes_client(&p->end, &config, kinds, 1, fields, 1, &why) < 0) stop("client");
        tribes_presence_start(&p->presence, LIMIT, now);
        return;
    }
    int32_t code = tribes_verify(&p->key, p->knock.nonce.low, bytes, count, &length);
    printf("down %d %d %llu\n", who, code, (unsigned long long)p->key.refused);
    forged += code < 0;
    if (code < 0 || tribes_presence_came(&p->presence, bytes, length, now, &reason) == 1) return;
    must_be_honest(who, 0, bytes, count, tribes_arrive(&p->end, bytes, length, 0, &moves));
}

/* a right answer came: the game takes it or not */
static void decide(int at, const uint8_t *bytes, size_t count, tribes_greeting *reply) {
    int k = 0;
    tribes_reason why;
    uint32_t length = 4;
    while (k < SEATS && seats[k].who >= 0) k++;
    if (!heard[at]) stop("a client for who heard no challenge");
    if (k == SEATS || count != 36 || bytes[34] != at || bytes[35] <= turns[at] || draw(6) == 0) {
        if (tribes_door_refuse(&door, reply) < 0) stop("refuse");
        return;
    }
    if (tribes_door_accept(&door, (uint32_t)k, reply) < 0) stop("accept");
    if (tribes_server(&seats[k].end, &config, kinds, 1, fields, 1, (const uint8_t *)"lamp", 4, &length, 1, &why) < 0) stop("server");
    for (int c = 0; c < SEATS; c++)
        if (seats[c].who == at) empty(c, &gone);
    seats[k].who = at;
    turns[at] = bytes[35];
    key_of(at, bytes[35], 1, &seats[k].key);
    memcpy(&seats[k].number, bytes + 2, 8);
    tribes_presence_start(&seats[k].presence, LIMIT, now);
    if (tribes_show(&seats[k].end, &(tribes_object){0, 0, 0, 1}, &lamp) < 0) stop("show");
    joined++;
}

static void take(int k, const uint8_t *bytes, size_t count) {
    seat *s = &seats[k];
    uint32_t reason = 0, moves = 0;
    size_t length = 0;
    int32_t code = tribes_verify(&s->key, s->number, bytes, count, &length);
    printf("up %d %d %llu\n", k, code, (unsigned long long)s->key.refused);
    forged += code < 0;
    if (code < 0) return;
    int32_t goodbye = tribes_presence_came(&s->presence, bytes, length, now, &reason);
    must_be_honest(s->who, 1, bytes, count, goodbye == 1 ? 0 : tribes_arrive(&s->end, bytes, length, 32, &moves));
    if (goodbye == 1) empty(k, &left);
}

/* a datagram comes to the server from an address */
static void up(int at, const uint8_t *bytes, size_t count) {
    tribes_address from = address_of(at);
    tribes_greeting reply = {0};
    uint32_t number = 0;
    came[at] += count;
    for (int k = 0; k < SEATS; k++)
        if (seats[k].who == at && count > 0 && bytes[0] != HELLO && bytes[0] != ANSWER) {
            take(k, bytes, count);
            return;
        }
    int32_t code = tribes_door_hear(&door, &from, bytes, count, &reply, &number);
    answered[at] |= code == 3 || code == 4 || (code == 2 && number == 3);
    if (code == 3) decide(at, bytes, count, &reply);
    went[at] += reply.count;
    printf("door %d %d %u %u\n", at, code, number, reply.count);
    if (!answered[at] && went[at] > came[at]) stop("more than came");
    if (reply.count > 0 && at < PLAYERS && draw(100) >= LOST) down(at, reply.bytes, reply.count);
}

/* the packet of an end, with its tag, on its way */
static void speak(tribes_end *end, const tribes_key *key, uint64_t number, int who, int is_up) {
    static tribes_ask asks[TRIBES_MAX_ASKS];
    static int64_t values[TRIBES_MAX_ASKS];
    uint8_t bytes[PLACE] = {0};
    size_t count = 0;
    uint32_t n;
    if (is_up) tribes_sample(end, draw(256), &n);
    else if (tribes_changed(end, lamp, 1) < 0 || tribes_plan(end, asks, TRIBES_MAX_ASKS, &count) < 0) stop("plan");
    for (size_t k = 0; k < count; k++) values[k] = draw(65536);
    int32_t code = tribes_pack(end, values, count, bytes, 600, &count);
    if (code <= 0 || tribes_tag(key, number, bytes, PLACE, count, &count) < 0) stop("pack");
    keep(who, is_up, code == 2, bytes, count);
    if (draw(100) < LOST) return;
    if (is_up) up(who, bytes, count);
    else down(who, bytes, count);
}

static void tell(int who) {
    player *p = &players[who];
    tribes_greeting greeting = {0};
    uint8_t token[] = {(uint8_t)who, p->turn};
    if (p->knock.reached == 2) {
        speak(&p->end, &p->key, p->knock.nonce.low, who, 1);
    } else if (p->knock.reached == 3) {
        begin(who);
    } else if (tribes_knock_write(&p->knock, token, sizeof token, &greeting) == 0 && greeting.count > 0) {
        keep(who, 1, 0, greeting.bytes, greeting.count);
        if (draw(100) >= LOST) up(who, greeting.bytes, greeting.count);
    }
}

static void leave(int who) {
    player *p = &players[who];
    tribes_greeting goodbye = {0};
    size_t count;
    if (p->knock.reached != 2) return;
    tribes_presence_leave(&p->presence, (uint16_t)draw(65536));
    for (int said = 0; tribes_presence_say(&p->presence, &goodbye) == 1; said++) {
        if (said == 3 || tribes_tag(&p->key, p->knock.nonce.low, goodbye.bytes, 290, goodbye.count, &count) < 0) stop("goodbye");
        keep(who, 1, 0, goodbye.bytes, count);
        if (draw(100) >= LOST) up(who, goodbye.bytes, count);
    }
    begin(who);
}

/* what somebody made up, from any address */
static void forge(void) {
    static const uint8_t firsts[] = {0, 1, 3, 7, 11, 15, 19, 23};
    uint8_t bytes[64];
    size_t count = draw(64);
    for (size_t k = 0; k < sizeof bytes; k++) bytes[k] = (uint8_t)draw(256);
    bytes[0] = firsts[draw(8)];
    if (draw(4)) bytes[1] = 1;
    int at = (int)draw(ADDRESSES);
    if (draw(2)) up(at, bytes, count);
    else if (at < PLAYERS) down(at, bytes, count);
}

/* what was sent once, again: from its address or another one, the way that it went or back, as it was or with another byte */
static void replay(void) {
    if (count_all == 0) return;
    sent it = all[draw((uint32_t)(count_all < MOST ? count_all : MOST))];
    int at = draw(2) ? it.who : (int)draw(ADDRESSES), goes_up = draw(3) ? it.up : !it.up;
    uint32_t place = draw(2) ? draw((uint32_t)it.count) : PLACE;
    if (place < PLACE) it.bytes[place] ^= (uint8_t)(1 + draw(255));
    if (goes_up) up(at, it.bytes, it.count);
    else if (at < PLAYERS) down(at, it.bytes, it.count);
}

static void step(void) {
    uint32_t what = draw(20), who = draw(PLAYERS), k = draw(SEATS);
    now += draw(40);
    if (what < 8) tell((int)who);
    else if (what < 12) { if (seats[k].who >= 0) speak(&seats[k].end, &seats[k].key, seats[k].number, seats[k].who, 0); }
    else if (what < 15) forge();
    else if (what < 19) replay();
    else if (draw(4) == 0) leave((int)who);
    else if (draw(4) == 0) {
        tribes_secret secret = {{(uint8_t)draw(256)}};
        secret.bytes[1] = (uint8_t)draw(256);
        tribes_door_renew(&door, &secret);
    }
    for (int c = 0; c < SEATS; c++)
        if (seats[c].who >= 0 && !tribes_presence_alive(&seats[c].presence, now)) empty(c, &gone);
}

/* how a link goes and how much it may carry, by times that now and then go back */
static void measure(long steps) {
    tribes_quality quality = {0};
    tribes_meter meter = {0};
    tribes_rate rate = {0};
    tribes_bounds bounds = {1000, 20000, 300, 1200}, none = {0, 1, 1, 1};
    uint64_t at = 5000, wait = 0;
    if (tribes_quality_open(&quality) < 0 || tribes_quality_open(&quality) != TRIBES_HAS_QUALITY) stop("quality");
    printf("%d %d\n", tribes_rate_start(&rate, &none, at), tribes_rate_start(&rate, &bounds, at));
    for (; steps > 0; steps--) {
        tribes_trip trip = {0};
        tribes_traffic traffic = {0};
        uint32_t bytes = 0, size = draw(1400), received = draw(5);
        uint64_t told = draw(50) ? at : at - draw(2000);
        at += draw(60);
        int32_t sent = draw(2) ? tribes_quality_sent(&quality, told) : tribes_quality_judged(&quality, received, told);
        int32_t metered = tribes_meter_went(&meter, size, told);
        int32_t rated = received ? tribes_rate_came(&rate, told) : tribes_rate_lost(&rate, 100, told);
        int32_t waits = tribes_rate_wait(&rate, size, at, &wait), allowed = tribes_rate_allowed(&rate, at, &bytes);
        if (bytes >= size && tribes_rate_went(&rate, size, at) < 0) stop("went");
        if (tribes_quality_told(&quality, &trip) < 0 || tribes_meter_told(&meter, at, &traffic) < 0) stop("told");
        printf("%d %d %d %d %d: %llu %u %u\n", sent, metered, rated, waits, allowed, (unsigned long long)wait, bytes, rate.rate);
        printf("trip %u %llu %llu %llu, %u of %u\n", trip.known, (unsigned long long)trip.lost, (unsigned long long)trip.eighths,
               (unsigned long long)trip.quarters, traffic.bytes, traffic.datagrams);
    }
    tribes_quality_free(&quality);
}

int main(int argc, char **argv) {
    if (argc < 2) return 2;
    tribes_terms terms = {.secret = {1, 2, 3}, .terms = {4}, .seats = SEATS};
    tribes_digest number;
    tribes_reason why;
    state = (uint32_t)atoi(argv[1]);
    if (tribes_protocol(&config, kinds, 1, fields, 1, (const uint8_t *)"lamp 1", 6, &number, &why) < 0) stop("protocol");
    memcpy(terms.protocol, number.bytes, 32);
    if (tribes_door_open(&door, &terms) < 0) stop("door");
    for (int k = 0; k < SEATS; k++) seats[k].who = -1;
    for (int who = 0; who < PLAYERS; who++) begin(who);
    long turns_of = argc > 2 ? atol(argv[2]) : 5000;
    for (long turn = 0; turn < turns_of; turn++) step();
    measure(turns_of / 5);
    for (int k = 0; k < SEATS; k++) tribes_free(&seats[k].end);
    for (int who = 0; who < PLAYERS; who++) tribes_free(&players[who].end);
    printf("%ld joined, %ld left, %ld gone, %ld forged, %ld again\n", joined, left, gone, forged, again);
    return tribes_door_free(&door);
}
