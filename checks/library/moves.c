/* A game's own moves through the library: moves SEED [TURNS]. In each version, and in version 3 with each width, two ends in memory play
   over a network that loses, repeats and delays datagrams, and what the client samples is what the server takes: bit for bit, in order,
   once. It looks at the refusals of moves and configurations, at what the ends count, and at the helpers of tribes.h. Its twin moves.rs
   draws the same, and prints the same lines. It ends with 1 at the first thing that is wrong. */
#include "tribes.h"
#include <inttypes.h>
#include <stdio.h>
#include <stdlib.h>
#include <string.h>

enum { MOST_MOVES = 2000, MOST_WAITING = 4, MOST_PARTS = 8 };

typedef struct { uint8_t bytes[TRIBES_MAX_DATAGRAM]; size_t count; uint32_t number; } datagram;
typedef struct { datagram waits[2 * MOST_WAITING]; uint32_t count, taken; } way;

static uint64_t dice, digest;
static uint64_t draw64(void) {
    dice ^= dice << 13;
    dice ^= dice >> 7;
    dice ^= dice << 17;
    return dice;
}
static uint32_t draw(uint32_t below) { return (uint32_t)(draw64() >> 20) % below; }

static void note(uint64_t value) {
    for (int k = 0; k < 8; k++) digest = (digest ^ (value >> 8 * k & 255)) * UINT64_C(1099511628211);
}

static void is(const char *what, uint64_t found, uint64_t wanted) {
    if (found == wanted) return;
    printf("%s: %" PRIu64 ", wanted %" PRIu64 "\n", what, found, wanted);
    exit(1);
}
static void answers(const char *what, int32_t found, int32_t wanted) {
    if (found == wanted) return;
    printf("%s: %" PRId32 " (%s), wanted %" PRId32 "\n", what, found, tribes_text(found), wanted);
    exit(1);
}

/* ---- fields as numbers */

static void put_and_take(void) {
    uint32_t widths[MOST_PARTS], count = 1 + draw(MOST_PARTS), all = 0;
    uint64_t values[MOST_PARTS], found[MOST_PARTS] = {0}, bits = 77, wanted = 0;
    for (uint32_t k = 0; k < count; k++) {
        widths[k] = draw(k + 1 == count ? 65 - all : (64 - all) / 2 + 1);
        values[k] = widths[k] ? draw64() >> (64 - widths[k]) : 0;
        if (widths[k]) wanted |= values[k] << all;
        all += widths[k];
    }
    answers("put", tribes_put_bits(widths, values, count, &bits), 0);
    is("the fields side by side", bits, wanted);
    answers("take", tribes_take_bits(widths, found, count, bits), 0);
    for (uint32_t k = 0; k < count; k++) is("a field", found[k], values[k]);
    note(bits);
    if (all < 64) {
        uint64_t above = UINT64_C(1) << (all + draw(64 - all));
        answers("a bit above", tribes_take_bits(widths, found, count, bits | above), TRIBES_MOVE_TOO_WIDE);
    }
    uint32_t k = draw(count), was = widths[k];
    if (was < 64) {
        values[k] |= UINT64_C(1) << (was + draw(64 - was));
        answers("a value too wide", tribes_put_bits(widths, values, count, &bits), TRIBES_BAD_VALUES);
        values[k] = 0;
    }
    widths[k] = was + 65 - all;
    answers("too many bits", tribes_put_bits(widths, found, count, &bits), TRIBES_BAD_WIDTHS);
    answers("too many bits", tribes_take_bits(widths, found, count, 0), TRIBES_BAD_WIDTHS);
}

static void steps(void) {
    for (int32_t dx = -9; dx <= 8; dx++)
        for (int32_t dy = -9; dy <= 8; dy++)
            for (uint32_t flags = 0; flags < 4; flags++) {
                uint64_t move = tribes_move_of_step(dx, dy, 5 * (flags & 1), flags & 2);
                note(move);
                if (dx < -8 || dx > 7 || dy < -8 || dy > 7) {
                    is("no step", move, UINT64_MAX);
                    continue;
                }
                is("a step", move, (uint64_t)(dx + 8 + 16 * (dy + 8)) + 256 * flags);
                tribes_step step = tribes_step_of_move(move);
                int same = step.dx == dx && step.dy == dy && step.fire == (flags & 1) && step.act == flags >> 1;
                is("a step that comes back", (uint64_t)same, 1);
            }
}

/* ---- a connection */

static tribes_end server, client;
static uint64_t sampled[MOST_MOVES];
static uint32_t count_sampled, count_taken, width;

static tribes_count counts_of(tribes_end *end) {
    tribes_count counts;
    answers("counts", tribes_counts(end, &counts), 0);
    return counts;
}

static void configured(uint32_t version, uint32_t given) {
    const tribes_field field = {0, 1, 1};
    const tribes_kind kind = {1, 1};
    const uint8_t none = 0;
    const uint32_t no_length = 0;
    tribes_reason why;
    tribes_config config = {draw(16), 100000, width > 21 ? 43 + 4 * width : 128, version, given};
    config.size--;
    answers("a size too small", tribes_client(&client, &config, &kind, 1, &field, 1, &why), TRIBES_BAD_SIZE);
    config.size += 1;
    if (draw(2)) config.size += draw(600);
    config.move_bits = version < 3 ? 1 + draw(9) : 65 + draw(1000);
    answers("no bits of a move", tribes_client(&client, &config, &kind, 1, &field, 1, &why), TRIBES_BAD_MOVE_BITS);
    is("names them", why.first, config.move_bits);
    config.move_bits = given;
    answers("server", tribes_server(&server, &config, &kind, 1, &field, 1, &none, 0, &no_length, 0, &why), 0);
    answers("client", tribes_client(&client, &config, &kind, 1, &field, 1, &why), 0);
}

static uint64_t drawn_move(void) {
    uint64_t most = UINT64_MAX >> (64 - width);
    switch (draw(5)) {
    case 0: return 0;
    case 1: return most;
    case 2: return most ^ most >> 1;
    default: return draw64() & most;
    }
}

/* a move more, and a bit above it is refused */
static void sample(void) {
    tribes_reason why;
    uint32_t number, places = counts_of(&client).move_places;
    uint64_t move = drawn_move();
    if (width < 64) {
        answers("a bit above", tribes_sample(&client, move | UINT64_C(1) << (width + draw(64 - width)), &number), TRIBES_MOVE_TOO_WIDE);
        answers("why", tribes_why(&client, &why), 0);
        is("its width", why.first, width);
    }
    answers("sample", tribes_sample(&client, move, &number), places ? 0 : TRIBES_MOVES_FULL);
    if (!places) return;
    is("its number", number, count_sampled);
    is("a place less", counts_of(&client).move_places, places - 1);
    sampled[count_sampled++] = move;
}

/* an event more at an end, guaranteed or not, where there is a place */
static void post(tribes_end *end) {
    tribes_count before = counts_of(end), after;
    uint8_t bytes[TRIBES_MAX_EVENT] = {0};
    uint32_t number, guaranteed = draw(2), count = draw(TRIBES_MAX_EVENT + 1);
    if (!(guaranteed ? before.event_places : before.loose_places)) return;
    answers("post", tribes_post(end, bytes, count, guaranteed, &number), 0);
    after = counts_of(end);
    is("places for events", after.event_places + guaranteed, before.event_places);
    is("places for others", after.loose_places + !guaranteed, before.loose_places);
}

/* the next datagram goes on its way, or is lost, or goes twice */
static void send(tribes_end *end, way *to, uint32_t loss) {
    static tribes_ask asks[TRIBES_MAX_ASKS];
    const int64_t none = 0;
    datagram made;
    size_t asked = 0;
    if (end == &server && tribes_plan(end, asks, TRIBES_MAX_ASKS, &asked) < 0) answers("plan", -1, 1);
    int32_t kind = tribes_pack(end, &none, 0, made.bytes, sizeof made.bytes, &made.count);
    if (kind != 1) answers("pack", kind, 2);
    made.number = kind == 2 ? counts_of(end).sent : 0;
    for (size_t k = 0; k < made.count; k++) note(made.bytes[k]);
    for (uint32_t copies = draw(100) < loss ? 0 : 1 + (draw(10) == 0); copies; copies--) {
        if (to->count == 2 * MOST_WAITING) break;
        uint32_t at = draw(to->count + 1);
        to->waits[to->count++] = to->waits[at];
        to->waits[at] = made;
    }
}

static void look_at_moves(uint32_t brought) {
    uint64_t moves[TRIBES_MAX_MOVES];
    uint32_t count;
    answers("moves", tribes_moves(&server, moves, TRIBES_MAX_MOVES, &count), 0);
    is("the moves that it brought", count, brought);
    for (uint32_t k = 0; k < count; k++) {
        if (count_taken == count_sampled) is("a move that was never sampled", 1, 0);
        is("a move", moves[k], sampled[count_taken++]);
    }
}

static void look_at_pending(void) {
    uint64_t moves[TRIBES_MAX_MOVES];
    uint32_t count;
    tribes_count counts = counts_of(&client);
    answers("pending", tribes_pending(&client, moves, TRIBES_MAX_MOVES, &count), 0);
    if (counts.accepted > count_taken) is("accepted", counts.accepted, count_taken);
    is("moves", counts.moves, count_sampled);
    is("pending", count, count_sampled - counts.accepted);
    is("places", counts.move_places, TRIBES_MAX_MOVES - count);
    for (uint32_t k = 0; k < count; k++) is("a pending move", moves[k], sampled[counts.accepted + k]);
}

/* some of what waits comes to its end, in whatever order it lies there */
static void come(tribes_end *end, way *from, uint32_t left) {
    while (from->count > left) {
        datagram *came = &from->waits[--from->count];
        uint8_t event[TRIBES_MAX_EVENT];
        uint32_t brought = 0;
        size_t count;
        int32_t code = tribes_arrive(end, came->bytes, came->count, draw(TRIBES_MAX_MOVES + 1), &brought);
        if (code) answers("arrive", code, TRIBES_OLD);
        while (!code && tribes_event(end, event, sizeof event, &count) > 0) {}
        if (!code && came->number) from->taken = came->number;
        tribes_count counts = counts_of(end);
        is("the packet that was taken last", counts.taken, from->taken);
        if (end == &server && !code) look_at_moves(brought);
        if (end == &server) is("accepted", counts.accepted, count_taken);
    }
}

static void connection(uint32_t version, uint32_t bits, uint32_t given, uint32_t turns) {
    uint32_t loss = draw(71), moves;
    way up = {.count = 0}, down = {.count = 0};
    uint64_t place[TRIBES_MAX_MOVES];
    width = bits;
    count_sampled = count_taken = 0;
    configured(version, given);
    answers("pending at the server", tribes_pending(&server, place, TRIBES_MAX_MOVES, &moves), TRIBES_WRONG_END);
    answers("pending into little", tribes_pending(&client, place, TRIBES_MAX_MOVES - 1, &moves), TRIBES_NO_ROOM);
    answers("sample at the server", tribes_sample(&server, 0, &moves), TRIBES_WRONG_END);
    for (uint32_t turn = 0; turn < turns || count_taken < count_sampled || counts_of(&client).accepted < count_sampled; turn++) {
        int ends = turn >= turns;
        if (turn > turns + 1000) is("turns", turn, 0);
        for (uint32_t k = ends ? 0 : draw(4); k && count_sampled < MOST_MOVES; k--) sample();
        if (!ends && draw(3) == 0) post(draw(2) ? &server : &client);
        send(&client, &up, ends ? 0 : loss);
        come(&server, &up, ends ? 0 : draw(MOST_WAITING));
        send(&server, &down, ends ? 0 : loss);
        come(&client, &down, ends ? 0 : draw(MOST_WAITING));
        look_at_pending();
    }
    tribes_free(&server);
    tribes_free(&client);
    printf("version %u, %u bits, %u of 100 lost: %u moves, %016" PRIx64 "\n", version, bits, loss, count_taken, digest);
}

int main(int argc, char **argv) {
    uint32_t turns = argc > 2 ? (uint32_t)atoi(argv[2]) : 300;
    dice = UINT64_C(88172645463325252) + (uint64_t)(argc > 1 ? atoi(argv[1]) : 1);
    digest = UINT64_C(14695981039346656037);
    for (int k = 0; k < 1000; k++) put_and_take();
    steps();
    printf("helpers: %016" PRIx64 "\n", digest);
    for (uint32_t version = 1; version < 3; version++)
        for (uint32_t given = 0; given <= 10; given += 10) connection(version, 10, given, turns);
    for (uint32_t bits = 1; bits <= TRIBES_MAX_MOVE_BITS; bits++) connection(3, bits, bits, turns);
    return 0;
}
