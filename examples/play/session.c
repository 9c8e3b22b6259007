/* A client of a served match: session.h says what it does. */
#include "session.h"
#include <stdlib.h>
#include <string.h>

/* the kinds' fields in order: lo, hi, bits (docs/world.md, "Kinds") */
static const tribes_field fields[] = {
    {0, EDGE, 16}, {0, EDGE, 16}, {0, 100, 7}, {0, 20, 5}, {0, 255, 8}, /* player */
    {0, EDGE, 16}, {0, EDGE, 16},                                       /* disc */
    {0, EDGE, 16}, {0, EDGE, 16}, {0, 1, 1},                            /* mine */
    {0, EDGE, 12}, {0, EDGE, 12}, {0, 100, 5},                          /* drone */
    {0, EDGE, 16}, {0, EDGE, 16}, {0, 16, 5},                           /* flag */
    {0, 16777215, 24}, {0, 255, 8}, {0, 255, 8},                        /* clock */
};
static const tribes_kind kinds[KINDS] = {{5, 8}, {2, 6}, {3, 3}, {3, 4}, {3, 5}, {3, 1}};

/* a number in bytes: the least one first */
static void put_number(uint8_t *bytes, uint32_t number, unsigned count) {
    for (unsigned i = 0; i < count; i++) bytes[i] = (uint8_t)(number >> 8 * i);
}

int session_start(session *s, const struct sockaddr_in *server, const tribes_key *key, uint32_t seed, int64_t now) {
    memset(s, 0, sizeof *s);
    s->heard = now;
    if (joining_start(&s->joining, key, kinds, KINDS, fields, sizeof fields / sizeof *fields)) return -1;
    return network_open(&s->net, server, seed);
}

/* What comes before the welcome. It makes the client's end. */
static void hear(session *s, const uint8_t *bytes, size_t count, int64_t now) {
    tribes_config config;
    tribes_reason why;
    if (!joining_hears(&s->joining, bytes, count, &config)) return;
    if (tribes_client(&s->end, &config, kinds, KINDS, fields, sizeof fields / sizeof *fields, &why) < 0) return; /* out of its ranges */
    if (drawn_open(&s->others, now) < 0) { /* no memory: the next welcome may find some */
        tribes_free(&s->end);
        return;
    }
    s->config = config;
    s->welcomed = 1;
    tribes_counts(&s->end, &s->counts);
    s->places = s->counts.event_places;
    s->heard = now;
    uint8_t head[11] = "TND1";
    head[4] = (uint8_t)config.client;
    head[5] = (uint8_t)config.version;
    put_number(head + 6, config.life, 3);
    put_number(head + 9, config.size, 2);
    if (s->demo) fwrite(head, 1, sizeof head, s->demo);
}

static void record(const session *s, const uint8_t *bytes, size_t count) {
    uint8_t length[2];
    put_number(length, (uint32_t)count, 2);
    if (s->demo) fwrite(length, 1, 2, s->demo), fwrite(bytes, 1, count, s->demo);
}

static void note(history *h, int lost) {
    h->lost = h->lost << 1 | (unsigned)lost;
    if (h->count < 64) h->count++;
}

int session_percent(const history *h) {
    uint64_t all = h->count == 64 ? ~UINT64_C(0) : (UINT64_C(1) << h->count) - 1;
    return h->count ? 100 * __builtin_popcountll(h->lost & all) / h->count : 0;
}

/* which of the own packets came: for the round trip, the loss upwards, and what the server knows of this client */
static void note_verdicts(session *s, int64_t now) {
    tribes_judged judged[TRIBES_MAX_JUDGED];
    uint32_t count;
    if (tribes_verdicts(&s->end, judged, TRIBES_MAX_JUDGED, &count) < 0) return;
    for (uint32_t i = 0; i < count; i++) {
        note(&s->up, !judged[i].received);
        if (!judged[i].received) continue;
        s->known = judged[i].number;
        int64_t took = now - s->sent_at[s->known % 64];
        s->round_trip = s->round_trip ? (7 * s->round_trip + took) / 8 : took;
    }
}

/* which fields have new values: the next packet of this client is the first that tells the server so */
static void note_changes(session *s) {
    tribes_change changes[TRIBES_MAX_CHANGES];
    uint32_t count;
    if (tribes_changes(&s->end, changes, TRIBES_MAX_CHANGES, &count) < 0) return;
    for (uint32_t i = 0; i < count; i++)
        for (uint32_t f = 0; f < MOST_FIELDS; f++)
            if (changes[i].what == 1 || changes[i].fields >> f & 1) s->tells[changes[i].slot][f] = s->counts.sent + 1;
}

static said *next_line(session *s) {
    said *line = &s->last[s->lines++ % KEPT_LINES];
    memset(line, 0, sizeof *line);
    return line;
}

static void hand_out_events(session *s) {
    uint8_t bytes[TRIBES_MAX_EVENT];
    size_t count;
    for (; tribes_event(&s->end, bytes, sizeof bytes, &count) > 0; s->events++) {
        char *text = next_line(s)->text;
        for (size_t i = 0; i < count; i++) text[i] = bytes[i] >= ' ' && bytes[i] <= '~' ? (char)bytes[i] : '?';
    }
}

static void take(session *s, const uint8_t *bytes, size_t count, int64_t now) {
    uint32_t moves, before = s->counts.taken;
    if (count < 1 || count > TRIBES_MAX_DATAGRAM) return;
    int32_t code = tribes_arrive(&s->end, bytes, count, 0, &moves);
    if (code == TRIBES_BITS_KIND) return; /* none of a connection: a welcome or a challenge again */
    if (code < 0) {                       /* late, repeated or none of ours: nothing changed */
        s->refused++;
        return;
    }
    s->heard = now;
    s->taken++;
    record(s, bytes, count);
    note_verdicts(s, now);
    if (tribes_counts(&s->end, &s->counts) < 0 || s->counts.taken == before) return; /* a ping: no packet is new */
    /* packets that were passed over are lost, for they are never taken any more */
    for (uint32_t i = before + 1; i < s->counts.taken && i <= before + 64; i++) note(&s->down, 1);
    note(&s->down, 0);
    note_changes(s);
    drawn_took(&s->others, &s->end, s->counts.taken, now);
    hand_out_events(s);
    copy own;
    standing base;
    int has = session_own(s, &own) && own.kind == PLAYER;
    if (has) base = (standing){own.values[X], own.values[Y], own.values[AMMO]};
    uint64_t pending[TRIBES_MAX_MOVES];
    if (tribes_pending(&s->end, pending, TRIBES_MAX_MOVES, &moves) < 0) return;
    predict_told(&s->own, has ? &base : NULL, pending, moves);
}

void session_listen(session *s, int64_t now) {
    uint8_t bytes[ROOM];
    ssize_t count;
    network_go(&s->net, now);
    while ((count = network_receive(&s->net, bytes, now)) >= 0) {
        size_t carried = (size_t)count;
        if (!joining_opens(&s->joining, bytes, &carried)) continue; /* it has not its tag: nobody reads it */
        if (s->welcomed) take(s, bytes, carried, now);
        else hear(s, bytes, carried, now);
    }
}

void session_turn(session *s, const tribes_step *move, int64_t now) {
    uint8_t bytes[TRIBES_MAX_DATAGRAM], place[TRIBES_MAX_DATAGRAM + TAG_ROOM];
    int64_t none = 0;
    uint32_t number;
    size_t count;
    if (!s->welcomed) {
        size_t said = joining_says(&s->joining, s->turns, place);
        if (said) network_send(&s->net, place, said, now);
    } else {
        /* Who stands still needs no move, and the server works off those that wait there after a bad time. An offset fades by moves. */
        int rests = !move->dx && !move->dy && !move->fire && !s->own.right && !s->own.down;
        uint64_t bits = tribes_move_of_step(move->dx, move->dy, move->fire, move->act);
        if (!rests && tribes_sample(&s->end, bits, &number) >= 0) predict_sampled(&s->own, bits);
        int32_t made = tribes_pack(&s->end, &none, 0, bytes, sizeof bytes, &count);
        size_t carried = made > 0 ? joining_carry(&s->joining, bytes, count, place) : 0;
        if (carried) network_send(&s->net, place, carried, now);
        if (tribes_counts(&s->end, &s->counts) == 0 && made == 2) s->sent_at[s->counts.sent % 64] = now;
    }
    network_go(&s->net, now);
    if (++s->turns % (1000 / TURN) == 0) {
        s->sent_then = (unsigned)(s->net.sent - s->sent), s->received_then = (unsigned)(s->net.received - s->received);
        s->sent = s->net.sent, s->received = s->net.received;
    }
}

void session_say(session *s, const char *words) {
    if (!s->welcomed) return;
    said *line = next_line(s);
    snprintf(line->text, sizeof line->text, "%u: %s", s->config.client, words);
    line->is_own = 1;
    line->was_refused = tribes_post(&s->end, (const uint8_t *)line->text, strlen(line->text), 1, &line->number) < 0;
    if (!line->was_refused) s->posted = line->number + 1;
    tribes_counts(&s->end, &s->counts);
}

int session_came(const session *s, const said *line) {
    uint32_t wait = s->places - s->counts.event_places;
    return !line->was_refused && line->number < s->posted - wait;
}

int session_copy(session *s, uint32_t from, copy *c) {
    tribes_copied copied;
    if (!s->welcomed || tribes_next_copy(&s->end, from, &c->slot) != 1) return 0;
    if (tribes_copy(&s->end, c->slot, &copied, c->values, TRIBES_MAX_FIELDS) < 0) return 0;
    c->kind = copied.kind;
    c->block = copied.block;
    return 1;
}

int session_drawn(session *s, uint32_t from, copy *c) {
    for (c->slot = from; s->welcomed && c->slot < TRIBES_MAX_SLOTS; c->slot++)
        if (drawn_in(&s->others, c->slot, &c->kind, &c->block, c->values)) return 1;
    return 0;
}

void session_frame(session *s, int64_t now) {
    if (s->welcomed) drawn_read(&s->others, now);
}

int session_own(session *s, copy *c) {
    uint32_t slot;
    return s->welcomed && tribes_control(&s->end, &slot) == 1 && session_copy(s, slot, c) && c->slot == slot;
}

int session_settled(const session *s, uint32_t slot, uint32_t field) { return s->known >= s->tells[slot][field]; }

void session_end(session *s) {
    uint8_t end[2] = {0, 0};
    if (s->demo && s->welcomed) fwrite(end, 1, 2, s->demo);
    drawn_close(&s->others);
    if (s->welcomed) tribes_free(&s->end);
}
