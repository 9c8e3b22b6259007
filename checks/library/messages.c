/* Messages of any length through the library: messages SEED [TURNS]. In each version two ends in memory, each with a channel, post messages
   and short events of random lengths over a network that loses, repeats and delays datagrams, and what one end posted is what the other
   takes out: byte for byte, in order, once, and all of it in the end. Then events that are no honest pieces come, and a model tells which
   is refused and what was whole before. Its twin messages.rs draws the same, and prints the same lines. It ends with 1 at the first thing
   that is wrong. */
#include "tribes.h"
#include <inttypes.h>
#include <stdio.h>
#include <stdlib.h>
#include <string.h>

enum { MOST_POSTED = 4000, MOST_WAITING = 4, EVENT_PLACES = 256 };

typedef struct { uint8_t bytes[TRIBES_MAX_DATAGRAM]; size_t count; } datagram;
typedef struct { datagram waits[2 * MOST_WAITING]; uint32_t count; } way;
typedef struct { uint8_t *bytes; uint32_t count, kind, guaranteed; } parcel;
/* what an end posted, and how far the other end took it out */
typedef struct { parcel all[MOST_POSTED]; uint32_t count, taken, seen_loose; } list;
typedef struct { tribes_end end; tribes_channel channel; list posted; way out; } side;

static uint64_t dice, digest;
static uint64_t draw64(void) {
    dice ^= dice << 13;
    dice ^= dice >> 7;
    dice ^= dice << 17;
    return dice;
}
static uint32_t draw(uint32_t below) { return (uint32_t)(draw64() >> 20) % below; }
static void note(uint64_t value) {
    for (int k = 0; k < 8; k++) digest = (digest ^ (value >> 8 * k & 255)) * UINT64_C(1099511628211);
}
static void is(const char *what, uint64_t found, uint64_t wanted) {
    if (found == wanted) return;
    printf("%s: %" PRIu64 ", wanted %" PRIu64 "\n", what, found, wanted);
    exit(1);
}
static void answers(const char *what, int32_t found, int32_t wanted) {
    if (found == wanted) return;
    printf("%s: %" PRId32 " (%s), wanted %" PRId32 "\n", what, found, tribes_text(found), wanted);
    exit(1);
}

static const uint32_t places = 3000;
static uint32_t longest = TRIBES_MAX_MESSAGE;
static uint8_t place[TRIBES_MAX_MESSAGE + 1];

static tribes_count counts_of(tribes_end *end) {
    tribes_count counts;
    answers("counts", tribes_counts(end, &counts), 0);
    return counts;
}
static tribes_places places_of(tribes_channel *channel) {
    tribes_places all;
    answers("places", tribes_channel_counts(channel, &all), 0);
    is("places in all", all.held + all.free, places);
    return all;
}
static void refused(const char *what, tribes_channel *channel, int32_t code, int32_t wanted, uint32_t first, uint32_t second) {
    tribes_reason why;
    answers(what, code, wanted);
    answers("why", tribes_channel_why(channel, &why), 0);
    answers(what, why.code, wanted);
    is(what, why.first, first);
    is(what, why.second, second);
}

static void made(side *server, side *client, uint32_t version) {
    const tribes_field field = {0, 1, 1};
    const tribes_kind kind = {1, 1};
    const uint8_t none = 0;
    const uint32_t no_length = 0;
    tribes_reason why;
    uint32_t number = draw(16), size = 300 + draw(901), bits = 1 + draw(64);
    tribes_config config = {number, 1000000, size, version, version < 3 ? 0 : bits};
    answers("server", tribes_server(&server->end, &config, &kind, 1, &field, 1, &none, 0, &no_length, 0, &why), 0);
    answers("client", tribes_client(&client->end, &config, &kind, 1, &field, 1, &why), 0);
}

static void opened(tribes_end *end, tribes_channel *channel) {
    tribes_reason why;
    tribes_places all;
    uint32_t kind;
    size_t count;
    answers("no channel", tribes_message(end, channel, place, longest, &kind, &count), TRIBES_NO_CHANNEL);
    answers("no channel", tribes_post_message(end, channel, 1, place, 0, 1), TRIBES_NO_CHANNEL);
    answers("no channel", tribes_channel_why(channel, &why), TRIBES_NO_CHANNEL);
    answers("no channel", tribes_channel_counts(channel, &all), TRIBES_NO_CHANNEL);
    answers("no channel", tribes_channel_free(channel), TRIBES_NO_CHANNEL);
    answers("too short", tribes_channel_open(channel, places, TRIBES_MAX_SHORT - 1, &why), TRIBES_BAD_LONGEST);
    answers("too long", tribes_channel_open(channel, places, TRIBES_MAX_MESSAGE + 1, &why), TRIBES_BAD_LONGEST);
    is("names it", why.first, TRIBES_MAX_MESSAGE + 1);
    answers("open", tribes_channel_open(channel, places, longest, &why), 0);
    answers("again", tribes_channel_open(channel, places, longest, &why), TRIBES_HAS_CHANNEL);
    refused("a place too small", channel, tribes_message(end, channel, place, longest - 1, &kind, &count), TRIBES_NO_ROOM, longest, 0);
}

/* ---- over a network */

static uint32_t pieces_of(uint32_t kind, uint32_t count) {
    return kind == 0 || count <= TRIBES_MAX_SHORT ? 1 : 2 + (count - 22) / 23;
}

static uint32_t drawn_length(void) {
    static const uint32_t edges[] = {0, 1, 21, 22, 23, 24, 25, 44, 45, 46, 67, 68};
    switch (draw(6)) {
    case 0: return edges[draw(12)];
    case 1: return draw(400);
    case 2: return draw(20) ? draw(3000) : TRIBES_MAX_MESSAGE - draw(2);
    default: return draw(120);
    }
}

/* a parcel more, or one that is refused, with what it names; nothing is changed then */
static void post(side *from, uint32_t length) {
    tribes_count before = counts_of(&from->end), after;
    tribes_places held = places_of(&from->channel), left;
    uint32_t kind = draw(3) > 0, guaranteed = draw(8) > 0;
    if (!guaranteed) length = draw(length < 30 ? TRIBES_MAX_SHORT + 2 : TRIBES_MAX_SHORT + 1);
    if (kind == 0 && guaranteed) length %= TRIBES_MAX_SHORT + 2;
    uint8_t *bytes = malloc(length + 1);
    for (uint32_t k = 0; k < length; k++) bytes[k] = (uint8_t)draw64();
    uint32_t most = kind == 0 || !guaranteed ? TRIBES_MAX_SHORT : TRIBES_MAX_MESSAGE, pieces = pieces_of(kind, length);
    int32_t code = tribes_post_message(&from->end, &from->channel, kind, bytes, length, guaranteed);
    after = counts_of(&from->end);
    left = places_of(&from->channel);
    if (length > most || (guaranteed && pieces > held.free)) {
        if (length > most) refused("too long", &from->channel, code, TRIBES_TOO_LONG, most, 0);
        else refused("no places", &from->channel, code, TRIBES_NO_PLACES, pieces, held.free);
        is("held", left.held, held.held);
        is("event places", after.event_places, before.event_places);
        free(bytes);
        return;
    }
    answers("post", code, 0);
    if (guaranteed) {
        uint32_t all = held.held + pieces, posted = all < before.event_places ? all : before.event_places;
        is("held", left.held, all - posted);
        is("event places", after.event_places, before.event_places - posted);
    } else {
        is("held", left.held, held.held);
        is("event places", after.event_places, before.event_places);
    }
    from->posted.all[from->posted.count++] = (parcel){bytes, length, kind, guaranteed};
}

/* the next datagram goes on its way, or is lost, or goes twice */
static void send(side *from, int is_server, uint32_t loss) {
    static tribes_ask asks[TRIBES_MAX_ASKS];
    const int64_t none = 0;
    datagram made;
    size_t asked = 0;
    way *to = &from->out;
    if (is_server && tribes_plan(&from->end, asks, TRIBES_MAX_ASKS, &asked) < 0) answers("plan", -1, 1);
    int32_t kind = tribes_pack(&from->end, &none, 0, made.bytes, sizeof made.bytes, &made.count);
    if (kind != 1) answers("pack", kind, 2);
    for (size_t k = 0; k < made.count; k++) note(made.bytes[k]);
    for (uint32_t copies = draw(100) < loss ? 0 : 1 + (draw(10) == 0); copies; copies--) {
        if (to->count == 2 * MOST_WAITING) break;
        uint32_t at = draw(to->count + 1);
        to->waits[to->count++] = to->waits[at];
        to->waits[at] = made;
    }
}

/* what came is the next that was posted; of what may be lost, one that was posted behind the last such that came */
static void look(list *posted, int32_t code, uint32_t kind, size_t count) {
    uint32_t guaranteed = code == 2, *at = guaranteed ? &posted->taken : &posted->seen_loose;
    for (; *at < posted->count; (*at)++) {
        parcel *p = &posted->all[*at];
        if (p->guaranteed != guaranteed) continue;
        int same = p->kind == kind && p->count == count && memcmp(p->bytes, place, count) == 0;
        if (guaranteed) is("the next parcel", (uint64_t)same, 1);
        if (!same) continue;
        note(count);
        (*at)++;
        return;
    }
    is("a parcel that was never posted", 1, 0);
}

static void take(side *at, side *other) {
    uint32_t kind;
    size_t count;
    int32_t code;
    while ((code = tribes_message(&at->end, &at->channel, place, longest, &kind, &count)) > 0) look(&other->posted, code, kind, count);
    answers("message", code, 0);
    is("events that wait", counts_of(&at->end).waiting, 0);
    tribes_places held = places_of(&at->channel);
    if (held.held) is("event places while pieces are held", counts_of(&at->end).event_places, 0);
}

static void come(side *at, side *other, uint32_t left) {
    way *from = &other->out;
    while (from->count > left) {
        datagram *came = &from->waits[--from->count];
        uint32_t moves;
        int32_t code = tribes_arrive(&at->end, came->bytes, came->count, 0, &moves);
        if (code) answers("arrive", code, TRIBES_OLD);
        take(at, other);
    }
}

static uint32_t left_of(list *posted) {
    while (posted->taken < posted->count && !posted->all[posted->taken].guaranteed) posted->taken++;
    return posted->count - posted->taken;
}

static void freed(side *it) {
    for (uint32_t k = 0; k < it->posted.count; k++) free(it->posted.all[k].bytes);
    answers("close", tribes_channel_free(&it->channel), 0);
    answers("free", tribes_free(&it->end), 0);
}

static void connection(uint32_t version, uint32_t turns) {
    static side server, client;
    uint32_t loss = draw(71), turn, bytes = 0;
    memset(&server, 0, sizeof server);
    memset(&client, 0, sizeof client);
    made(&server, &client, version);
    opened(&server.end, &server.channel);
    opened(&client.end, &client.channel);
    for (turn = 0; turn < turns || left_of(&server.posted) || left_of(&client.posted); turn++) {
        int ends = turn >= turns;
        if (turn > turns + 3000) is("turns", turn, 0);
        if (turn % 100 == 50) post(&server, TRIBES_MAX_MESSAGE + 1);
        for (uint32_t k = ends ? 0 : draw(3); k; k--) {
            uint32_t length = drawn_length();
            post(draw(2) ? &server : &client, length);
        }
        send(&client, 0, ends ? 0 : loss);
        come(&server, &client, ends ? 0 : draw(MOST_WAITING));
        send(&server, 1, ends ? 0 : loss);
        come(&client, &server, ends ? 0 : draw(MOST_WAITING));
    }
    /* all came: nothing is held, and once it is told so, nothing is on its way */
    for (int k = 0; k < 3; k++) {
        send(&client, 0, 0);
        come(&server, &client, 0);
        send(&server, 1, 0);
        come(&client, &server, 0);
    }
    is("held", places_of(&server.channel).held + places_of(&client.channel).held, 0);
    is("on their way", counts_of(&server.end).event_places + counts_of(&client.end).event_places, 2 * EVENT_PLACES);
    for (uint32_t k = 0; k < server.posted.count; k++) bytes += server.posted.all[k].count;
    for (uint32_t k = 0; k < client.posted.count; k++) bytes += client.posted.all[k].count;
    printf("version %u, %u of 100 lost: %u parcels of %u bytes, %016" PRIx64 "\n", version, loss, server.posted.count + client.posted.count, bytes, digest);
    freed(&server);
    freed(&client);
}

/* ---- pieces of no honest end */

typedef struct { uint8_t bytes[TRIBES_MAX_EVENT]; uint32_t count; } piece;
/* what was gathered of a message of `whole` bytes; 0 stands for none */
static uint8_t gathered[TRIBES_MAX_MESSAGE];
static uint32_t whole, came_bytes;

/* what a piece comes to: 1 and a parcel in `gathered`, 0, or the code of what is wrong with it */
static int32_t model(const piece *p, uint32_t guaranteed, uint32_t *kind, size_t *count) {
    const uint8_t *bytes = p->bytes + 1;
    uint32_t n = p->count - 1;
    if (p->count == 0) return TRIBES_PIECE_EMPTY;
    uint8_t form = p->bytes[0];
    if (form > 4) return TRIBES_PIECE_UNKNOWN_FORM;
    if (!guaranteed) {
        if (form >= 2) return form == 2 ? TRIBES_PIECE_NOT_ENDED : TRIBES_PIECE_NOT_BEGUN;
        *kind = form, *count = n;
        return 1;
    }
    if (whole && form < 3) return TRIBES_PIECE_NOT_ENDED;
    if (!whole && form > 2) return TRIBES_PIECE_NOT_BEGUN;
    if (form < 2) {
        if (n > longest) return TRIBES_PIECE_TOO_LONG;
        memcpy(gathered, bytes, n);
        *kind = form, *count = n;
        return 1;
    }
    if (form == 2) {
        if (n < 2) return TRIBES_PIECE_FEWER_BYTES;
        uint32_t length = bytes[0] + 256 * bytes[1];
        if (length < 24) return TRIBES_PIECE_ONE_PIECE;
        if (n < 23) return TRIBES_PIECE_FEWER_BYTES;
        if (length > longest) return TRIBES_PIECE_TOO_LONG;
        whole = length, came_bytes = 21;
        memcpy(gathered, bytes + 2, 21);
        return 0;
    }
    uint32_t left = whole - came_bytes;
    if (form == 3 && left <= 23) return TRIBES_PIECE_MORE_BYTES;
    if (form == 3 && n < 23) return TRIBES_PIECE_FEWER_BYTES;
    if (form == 4 && n > left) return TRIBES_PIECE_MORE_BYTES;
    if (form == 4 && n < left) return TRIBES_PIECE_FEWER_BYTES;
    memcpy(gathered + came_bytes, bytes, n);
    came_bytes += n;
    if (form == 3) return 0;
    *kind = 1, *count = whole;
    whole = 0;
    return 1;
}

/* mostly one that goes on with what was gathered, so that some runs are long */
static void drawn_piece(piece *p) {
    uint32_t left = whole ? whole - came_bytes : 0;
    p->count = 24;
    for (uint32_t k = 0; k < 24; k++) p->bytes[k] = (uint8_t)draw64();
    if (draw(30) == 0) {
        p->count = draw(25);
        p->bytes[0] %= 7;
    } else if (left) {
        p->bytes[0] = left > 23 ? 3 : 4;
        p->count = left > 23 ? 24 : 1 + left;
    } else {
        p->bytes[0] = (uint8_t)draw(3);
        if (p->bytes[0] < 2) p->count = 1 + draw(24);
        if (p->bytes[0] == 2) {
            uint32_t length = draw(20) ? 24 + draw(longest > 24 ? longest - 23 : 1) : draw(600);
            p->bytes[1] = (uint8_t)(length % 256);
            p->bytes[2] = (uint8_t)(length / 256);
        }
    }
}

/* events by hand at one end, and a channel at the other: the same answers as the model's, which end with the fault that it names */
static void dishonest(uint32_t run) {
    static side server, client;
    uint32_t kind, wanted_kind = 0, number, moves, parcels = 0, ends = 0;
    size_t count, wanted = 0;
    tribes_reason why;
    memset(&server, 0, sizeof server);
    memset(&client, 0, sizeof client);
    longest = draw(2) ? 200 + draw(400) : 23 + draw(100);
    whole = 0;
    made(&server, &client, 1 + run % 3);
    answers("open", tribes_channel_open(&server.channel, places, longest, &why), 0);
    while (!ends) {
        piece p;
        drawn_piece(&p);
        uint32_t guaranteed = draw(20) > 0;
        if (!guaranteed && p.count) p.bytes[0] %= 6;
        answers("a piece by hand", tribes_post(&client.end, p.bytes, p.count, guaranteed, &number), 0);
        datagram made;
        const int64_t none = 0;
        if (tribes_pack(&client.end, &none, 0, made.bytes, sizeof made.bytes, &made.count) < 0) is("pack", 1, 0);
        answers("arrive", tribes_arrive(&server.end, made.bytes, made.count, 0, &moves), 0);
        int32_t says = model(&p, guaranteed, &wanted_kind, &wanted);
        int32_t code = tribes_message(&server.end, &server.channel, place, longest, &kind, &count);
        answers("a piece", code, says == 1 ? (int32_t)(1 + guaranteed) : says);
        note((uint64_t)(uint32_t)code);
        if (says == 1) {
            is("its kind", kind, wanted_kind);
            is("its length", count, wanted);
            is("its bytes", memcmp(place, guaranteed ? gathered : p.bytes + 1, count) == 0, 1);
            parcels++;
            code = tribes_message(&server.end, &server.channel, place, longest, &kind, &count);
            answers("nothing more", code, 0);
        }
        ends = says < 0;
        static tribes_ask asks[TRIBES_MAX_ASKS];
        answers("plan", tribes_plan(&server.end, asks, TRIBES_MAX_ASKS, &count) >= 0, 1);
        int32_t packed = tribes_pack(&server.end, &none, 0, made.bytes, sizeof made.bytes, &made.count);
        if (packed != 1) answers("pack", packed, 2);
        answers("arrive", tribes_arrive(&client.end, made.bytes, made.count, 0, &moves), 0);
        if (ends) {
            /* the fault stays, and the connection goes on: what comes is popped by hand */
            answers("the fault", tribes_message(&server.end, &server.channel, place, longest, &kind, &count), says);
            answers("an event by hand", tribes_post(&client.end, (const uint8_t *)"by hand", 7, 1, &number), 0);
            if (tribes_pack(&client.end, &none, 0, made.bytes, sizeof made.bytes, &made.count) < 0) is("pack", 1, 0);
            answers("arrive", tribes_arrive(&server.end, made.bytes, made.count, 0, &moves), 0);
            answers("the fault", tribes_message(&server.end, &server.channel, place, longest, &kind, &count), says);
            answers("the event", tribes_event(&server.end, place, 24, &count), 2);
            is("its bytes", count == 7 && memcmp(place, "by hand", 7) == 0, 1);
            printf("run %u: %u parcels, then %s\n", run, parcels, tribes_text(says));
        }
    }
    longest = TRIBES_MAX_MESSAGE;
    answers("close", tribes_channel_free(&server.channel), 0);
    answers("free", tribes_free(&server.end), 0);
    answers("free", tribes_free(&client.end), 0);
}

int main(int argc, char **argv) {
    uint32_t turns = argc > 2 ? (uint32_t)atoi(argv[2]) : 400;
    dice = UINT64_C(88172645463325252) + (uint64_t)(argc > 1 ? atoi(argv[1]) : 1);
    digest = UINT64_C(14695981039346656037);
    for (uint32_t version = 1; version <= 3; version++) connection(version, turns);
    for (uint32_t run = 0; run < turns / 4; run++) dishonest(run);
    printf("%016" PRIx64 "\n", digest);
    return 0;
}
