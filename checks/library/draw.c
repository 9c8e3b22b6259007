/* What a client draws, over a network that loses, repeats and delays: draw LOSS SEED [TURNS]. The client's own thing is predicted by its
   pending moves, with corrections hidden, and the others are drawn by a timeline, five pictures a turn. Each value that is drawn is held
   against what the server had by the two packets around that brought it: a linear one is never outside them, a turning one on the short
   way, a stepped one the first. Nothing moves in the last quarter: then all is drawn where the server has it, and the own thing where it
   is predicted. It ends with 1 where something is wrong. draw.rs draws the same. */
#include "tribes.h"
#include <stdio.h>
#include <stdlib.h>
#include <string.h>

enum { X, HEADING, LAMP, NAME, FIELDS, THINGS = 6, DEPTH = 8, TURN = 50, FRAME = 10, EDGE = 60000, MOST = 4096, HELD = 512 };

static const tribes_field fields[] = {{0, 65535, 16}, {0, 359, 9}, {0, 7, 3}, {0, 4095, 12}};
static const tribes_kind kinds[] = {{FIELDS, 8}};
static const tribes_way ways[1][FIELDS] = {{{1, 0, 0}, {2, 0, 359}, {0, 0, 0}, {0, 0, 0}}};

static uint32_t state;
static uint32_t draw(uint32_t below) { state = state * 1664525u + 1013904223u; return (state >> 8) % below; }
static uint64_t digest = 14695981039346656037u;
static void note(uint64_t value) { digest = (digest ^ value) * 1099511628211u; }

static void must(const char *what, int32_t code) {
    if (code >= 0) return;
    printf("%s: %s (%d)\n", what, tribes_text(code), code);
    exit(1);
}

/* ---- the game: a thing, and what a move makes of its place */
typedef struct { int64_t value[FIELDS]; int speed, spin, shown; uint32_t n; } thing;
static int64_t step(int64_t x, uint64_t move) {
    x += (int64_t)move - 128;
    return x < 0 ? 0 : x > EDGE ? EDGE : x;
}

/* ---- the network */
typedef struct { uint64_t due; size_t count; uint8_t bytes[600]; } datagram;
static datagram wires[2][HELD];
static int waits[2], loss;
static void put(int way, const uint8_t *bytes, size_t count, uint64_t now) {
    if ((int)draw(100) < loss) return;
    for (int times = draw(20) ? 1 : 2; times > 0 && waits[way] < HELD; times--) {
        datagram *d = &wires[way][waits[way]++];
        d->due = now + draw(80);
        d->count = count;
        memcpy(d->bytes, bytes, count);
    }
}
static size_t get(int way, uint8_t *bytes, uint64_t now) {
    for (int k = 0; k < waits[way]; k++) {
        datagram d = wires[way][k];
        if (d.due > now) continue;
        memmove(&wires[way][k], &wires[way][k + 1], (size_t)(--waits[way] - k) * sizeof d);
        memcpy(bytes, d.bytes, d.count);
        return d.count;
    }
    return 0;
}

/* ---- the server, with what it had by each packet and what of it each packet brought */
static tribes_end server;
static thing things[THINGS];
static int64_t had[MOST][THINGS][FIELDS];
static uint32_t brought[MOST][THINGS], period[MOST][THINGS];
static int thing_of[MOST];

static void show(int k) {
    tribes_object object = {0, 0, 0, k == 0};
    must("show", tribes_show(&server, &object, &things[k].n));
    things[k].value[NAME] = things[k].n;
    thing_of[things[k].n] = k;
    things[k].shown = 1;
}

static void changed(int k, uint32_t bits) {
    if (things[k].shown) must("changed", tribes_changed(&server, things[k].n, bits));
}

static void move_things(int turn) {
    for (int k = 1; k < THINGS; k++) {
        thing *t = &things[k];
        if (turn % 10 == 0) t->speed = draw(4) ? (int)draw(601) - 300 : 0, t->spin = draw(4) ? (int)draw(51) - 25 : 0, t->value[LAMP] = draw(8);
        t->value[X] += t->value[X] + t->speed < 0 || t->value[X] + t->speed > EDGE ? 0 : t->speed;
        t->value[HEADING] = (t->value[HEADING] + 360 + t->spin) % 360;
        changed(k, (t->speed ? 1 : 0) | (t->spin ? 2 : 0) | (turn % 10 ? 0 : 4));
    }
    int k = 1 + turn / 100 % (THINGS - 1);
    if (turn % 100 == 50) must("hide", tribes_hide(&server, things[k].n)), things[k].shown = 0;
    if (turn % 100 == 60) show(k);
    if (turn % 80 == 40) things[0].value[X] = step(things[0].value[X], 128 + 127), changed(0, 1); /* it is pushed */
}

static void serve(uint64_t now) {
    static tribes_ask asks[TRIBES_MAX_ASKS];
    static int64_t values[TRIBES_MAX_ASKS];
    uint8_t bytes[600];
    size_t count, made;
    tribes_count counts;
    must("plan", tribes_plan(&server, asks, TRIBES_MAX_ASKS, &count));
    for (size_t i = 0; i < count; i++) values[i] = things[thing_of[asks[i].n]].value[asks[i].field];
    int32_t code = tribes_pack(&server, values, count, bytes, sizeof bytes, &made);
    must("pack", code);
    must("counts", tribes_counts(&server, &counts));
    for (size_t i = 0; code == 2 && i < count; i++) {
        int k = thing_of[asks[i].n];
        brought[counts.sent][k] |= 1u << asks[i].field;
        period[counts.sent][k] = asks[i].n;
        had[counts.sent][k][asks[i].field] = values[i];
    }
    if (code) put(0, bytes, made, now);
}

static void hear(const uint8_t *bytes, size_t count) {
    uint32_t moves;
    uint64_t brought_moves[TRIBES_MAX_MOVES];
    if (tribes_arrive(&server, bytes, count, TRIBES_MAX_MOVES, &moves) < 0) return;
    must("moves", tribes_moves(&server, brought_moves, TRIBES_MAX_MOVES, &moves));
    for (uint32_t i = 0; i < moves; i++) things[0].value[X] = step(things[0].value[X], brought_moves[i]);
    if (moves) changed(0, 1);
}

/* ---- the client: what docs/library.md shows */
static tribes_end end;
static tribes_timeline timeline;
static tribes_clock clock_;
static tribes_offset offset = {1000, 0};
static int64_t own, known;
static uint32_t newest, own_slot;
static uint8_t took[MOST];

/* the own thing: its copy, and on it the moves that the server is not known to have */
static int predict(int64_t *place) {
    uint64_t pending[TRIBES_MAX_MOVES];
    int64_t values[TRIBES_MAX_FIELDS];
    tribes_copied copied;
    uint32_t count;
    if (tribes_control(&end, &own_slot) != 1 || tribes_copy(&end, own_slot, &copied, values, TRIBES_MAX_FIELDS) < 0) return 0;
    must("pending", tribes_pending(&end, pending, TRIBES_MAX_MOVES, &count));
    *place = values[X];
    for (uint32_t i = 0; i < count; i++) *place = step(*place, pending[i]);
    return 1;
}

static void arrives(const uint8_t *bytes, size_t size, uint64_t now) {
    uint32_t moves;
    tribes_count counts;
    int64_t before = own;
    if (tribes_arrive(&end, bytes, size, 0, &moves) < 0) return; /* late or repeated: nothing changed */
    must("counts", tribes_counts(&end, &counts));
    if (counts.taken == newest) return; /* a ping */
    newest = counts.taken;
    must("clock", tribes_clock_came(&clock_, newest, now));
    must("timeline", tribes_timeline_take(&timeline, &end));
    took[newest] = 1;
    if (!predict(&own)) return;
    if (known) must("offset", tribes_offset_corrected(&offset, (int32_t)before, (int32_t)own));
    known = 1;
}

static void sample(uint64_t move) {
    uint32_t number;
    if (tribes_sample(&end, move, &number) < 0) return; /* 32 are on their way */
    own = step(own, move);
    must("offset", tribes_offset_faded(&offset));
}

/* ---- what is drawn, beside what the server had */
static long drawn, between, wrong;

static int is_right(int k, uint32_t n, int field, uint64_t at, int64_t value) {
    uint32_t packet = newest, later = 0;
    int kept = 0;
    for (; packet > 0; packet--) {
        if (!took[packet] || !(brought[packet][k] >> field & 1) || period[packet][k] != n) continue;
        if (packet * UINT64_C(256) <= at) break;
        later = packet;
        if (++kept == DEPTH) return value == had[later][k][field];
    }
    if (!packet) return later && value == had[later][k][field];
    int64_t a = had[packet][k][field], b = later ? had[later][k][field] : a;
    between += value != a && value != b;
    if (field == X) return a < b ? a <= value && value <= b : b <= value && value <= a;
    if (field != HEADING) return value == a;
    int64_t up = (b - a + 360) % 360;
    return 2 * up <= 360 ? (value - a + 360) % 360 <= up : (a - value + 360) % 360 <= 360 - up;
}

static void picture(uint64_t now, int last) {
    uint64_t at;
    uint32_t kind;
    static uint64_t before;
    int seen = 0;
    must("moment", tribes_clock_moment(&clock_, now, &at));
    if (at < before || (newest > 3 && at > (newest + UINT64_C(2)) * 256)) wrong++;
    before = at;
    for (uint32_t slot = 0; slot < TRIBES_MAX_SLOTS; slot++) {
        int64_t value[FIELDS];
        if (tribes_timeline_kind(&timeline, slot, at, &kind) != 1 || slot == own_slot) continue;
        for (uint32_t f = 0; f < FIELDS; f++) must("value", tribes_timeline_value(&timeline, slot, f, at, &value[f]) - 1);
        uint32_t n = (uint32_t)value[NAME];
        int k = thing_of[n];
        for (int f = 0; f < FIELDS; f++, drawn++) {
            note((uint64_t)value[f]);
            if (!is_right(k, n, f, at, value[f])) wrong++;
            if (last && value[f] != things[k].value[f]) wrong++;
        }
        seen++;
    }
    int64_t left;
    must("offset", tribes_offset_value(&offset, &left));
    note((uint64_t)(own + left));
    if (last) {
        for (int k = 1; k < THINGS; k++) seen -= things[k].shown;
        if (seen || left || own != things[0].value[X]) wrong++;
    }
}

int main(int argc, char **argv) {
    loss = argc > 1 ? atoi(argv[1]) : 30;
    state = argc > 2 ? (uint32_t)atoi(argv[2]) : 1;
    int turns = argc > 3 ? atoi(argv[3]) : 1200;
    tribes_config config = {0, 100000, 600, 3, 8};
    tribes_shape shape = {TRIBES_MAX_SLOTS, FIELDS, 0};
    tribes_pace pace = {TURN, 3, 2};
    tribes_reason why;
    uint8_t bytes[600];
    uint32_t length = 5;
    size_t count;
    int64_t none = 0;
    must("server", tribes_server(&server, &config, kinds, 1, fields, FIELDS, (const uint8_t *)"thing", 5, &length, 1, &why));
    must("client", tribes_client(&end, &config, kinds, 1, fields, FIELDS, &why));
    must("timeline", tribes_timeline_open(&timeline, &shape, ways[0], FIELDS));
    must("clock", tribes_clock_start(&clock_, &pace, 0));
    for (int k = 0; k < THINGS; k++) things[k].value[X] = 5000 * (k + 1), show(k);
    for (int frame = 0; frame < turns * TURN / FRAME; frame++) {
        uint64_t now = (uint64_t)frame * FRAME;
        int turn = frame * FRAME / TURN;
        while ((count = get(1, bytes, now))) hear(bytes, count);
        while ((count = get(0, bytes, now))) arrives(bytes, count, now);
        if (frame % (TURN / FRAME) == 0) {
            if (turn < turns * 3 / 4) {
                move_things(turn);
                if (known) sample(128 + (turn / 30 % 3 - 1) * 100);
            } else tribes_offset_faded(&offset);
            serve(now);
            int32_t code = tribes_pack(&end, &none, 0, bytes, sizeof bytes, &count);
            must("pack", code);
            if (code) put(1, bytes, count, now);
        }
        picture(now, frame + 1 == turns * TURN / FRAME);
    }
    must("free", tribes_timeline_free(&timeline) | tribes_free(&end) | tribes_free(&server));
    printf("draw %d: %ld values, %ld between two, %ld wrong, %016llx\n", loss, drawn, between, wrong, (unsigned long long)digest);
    return wrong || !between;
}
