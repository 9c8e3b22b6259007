/* Random calls at three connections, one of each version of the datagrams, from a number, and all that the library answers: calls SEED TURNS.
   calls.mjs makes the same calls through the WebAssembly module, and prints the same where the two builds do the same. The last line but
   those of the counts has how many calls were made. */
#include "tribes.h"
#include <stdio.h>
#include <stdlib.h>
#include <string.h>

enum { PAIRS = 3, PARTS = 4, KINDS = 3, FIELDS = 8, BLOCKS = 3, WAY = 64, MOST_PERIODS = 200000 };

static uint32_t state, calls;
static uint32_t drawn(void) {
    state ^= state << 13;
    state ^= state >> 17;
    return state ^= state << 5;
}
static uint32_t below(uint32_t n) { return drawn() % n; }

static const tribes_field fields[FIELDS] = {{0, 1023, 10}, {0, 1023, 10}, {0, 100, 7}, {-500, 500, 10}, {0, 65535, 12}, {0, 1, 1}, {-1000000, 1000000, 21}, {0, 15, 4}};
static const tribes_kind kinds[KINDS] = {{2, 8}, {5, 3}, {1, 1}};
static const uint32_t first_field[KINDS] = {0, 2, 7};
static const char *block_text = "a tanka minethe third of the blocks, in forty bytes";
static const uint32_t block_lengths[BLOCKS] = {6, 6, 39};
/* a connection of version 1, one of version 2 that is worn out in the run, and one of version 3 with moves of 64 bits */
static const tribes_config configs[PAIRS] = {{0, 1000000, 200, 1, 0}, {1, 2500, 600, 2, 10}, {2, 1000000, 600, 3, 64}};
static const uint32_t widths[PAIRS][PARTS] = {{4, 4, 1, 1}, {4, 4, 1, 1}, {3, 53, 0, 8}};

typedef struct { uint8_t bytes[1300]; size_t count; uint32_t due; } letter;
typedef struct { letter letters[WAY]; int count; } way;
typedef struct { tribes_end server, client; way up, down; uint32_t shown[1024]; int shown_count; uint8_t *kind_of; const uint32_t *widths; } pair;

static pair pairs[PAIRS];
static uint32_t turn, turns;

static void told(const char *what, tribes_end *end, int32_t code) {
    tribes_reason why = {0, 0, 0};
    calls++;
    printf("%s %d", what, code);
    if (code < 0 && tribes_why(end, &why) == 0) printf(" %u %u", why.first, why.second);
    printf("\n");
}

static int64_t value(const pair *p, uint32_t n, uint32_t field) {
    const tribes_field *f = &fields[first_field[p->kind_of[n]] + field];
    uint32_t x = n * 2654435761u ^ field * 40503u ^ turn * 97u;
    x ^= x >> 15;
    x *= 0x2c1b3c6du;
    x ^= x >> 12;
    return f->lo + (int64_t)(x % (uint32_t)(f->hi - f->lo + 1));
}

static void hex(const char *what, const uint8_t *bytes, size_t count) {
    printf("%s ", what);
    for (size_t k = 0; k < count; k++) printf("%02x", bytes[k]);
    printf("\n");
}

static void tell_moves(const char *what, const uint32_t *wide, const uint64_t *moves, uint32_t count) {
    for (uint32_t m = 0; m < count; m++) {
        uint64_t parts[PARTS] = {0};
        tribes_take_bits(wide, parts, PARTS, moves[m]);
        printf("%s", what);
        for (int k = 0; k < PARTS; k++) printf(" %llu", (unsigned long long)parts[k]);
        printf("\n");
    }
}

/* lost, repeated, late: by chance; and damaged, in the last fifth of the turns, since one forged datagram that is taken can end a connection */
static void put(way *w, const uint8_t *bytes, size_t count) {
    uint32_t chance = below(100), copies = chance < 20 ? 0 : chance < 27 ? 2 : 1;
    for (uint32_t k = 0; k < copies; k++) {
        uint32_t late = below(6), damage = below(40), at = below(count ? (uint32_t)count * 8 : 1);
        if (w->count == WAY) continue;
        letter *l = &w->letters[w->count++];
        memcpy(l->bytes, bytes, count);
        l->count = count;
        l->due = turn + 1 + late;
        if (damage == 0 && count && turn > turns / 5 * 4) l->bytes[at / 8] ^= (uint8_t)(1u << at % 8);
    }
}

static void look(tribes_end *end) {
    uint8_t event[TRIBES_MAX_EVENT];
    size_t count;
    int32_t code;
    while ((code = tribes_event(end, event, sizeof event, &count)) > 0) hex(code == 2 ? "event" : "loose", event, count);
    tribes_judged judged[TRIBES_MAX_JUDGED];
    uint32_t listed;
    tribes_verdicts(end, judged, TRIBES_MAX_JUDGED, &listed);
    for (uint32_t k = 0; k < listed; k++) printf("judged %u %u\n", judged[k].number, judged[k].received);
}

static void take(way *w, tribes_end *end, const pair *p, int is_server) {
    for (int k = 0; k < w->count;) {
        if (w->letters[k].due > turn) { k++; continue; }
        letter l = w->letters[k];
        memmove(&w->letters[k], &w->letters[k + 1], (size_t)(w->count - k - 1) * sizeof l);
        w->count--;
        uint32_t moves = 0, listed = 0;
        int32_t code = tribes_arrive(end, l.bytes, l.count, is_server ? below(33) : 0, &moves);
        told("arrive", end, code);
        if (code < 0) continue;
        look(end);
        if (is_server) {
            uint64_t brought[TRIBES_MAX_MOVES];
            tribes_moves(end, brought, TRIBES_MAX_MOVES, &listed);
            tell_moves("move", p->widths, brought, listed);
        } else {
            tribes_change changes[TRIBES_MAX_CHANGES];
            tribes_changes(end, changes, TRIBES_MAX_CHANGES, &listed);
            for (uint32_t m = 0; m < listed; m++) {
                printf("change %u %u %u\n", changes[m].slot, changes[m].what, changes[m].fields);
                tribes_copied copied;
                int64_t values[TRIBES_MAX_FIELDS];
                if (tribes_copy(end, changes[m].slot, &copied, values, TRIBES_MAX_FIELDS) < 0) continue;
                printf("copy %u %u", copied.kind, copied.block);
                for (uint32_t f = 0; f < copied.fields; f++) printf(" %lld", (long long)values[f]);
                printf("\n");
                uint8_t block[TRIBES_MAX_BLOCK];
                size_t count;
                if (tribes_block(end, copied.block, block, sizeof block, &count) == 0) hex("block", block, count);
            }
            uint32_t own;
            if (tribes_control(end, &own) == 1) printf("own %u\n", own);
        }
    }
}

static void act(pair *p) {
    uint32_t choice = below(12), n = p->shown_count ? p->shown[below((uint32_t)p->shown_count)] : 0, made = 0;
    if (below(50) == 0) n += 7;
    if (choice < 3) {
        tribes_object object;
        object.kind = below(KINDS + (below(20) == 0));
        object.block = below(BLOCKS + (below(20) == 0));
        object.level = below(4 + (below(20) == 0));
        object.control = below(30) == 0;
        int32_t code = tribes_show(&p->server, &object, &made);
        told("show", &p->server, code);
        if (code == 0) { printf("period %u\n", made); p->kind_of[made] = (uint8_t)object.kind; p->shown[p->shown_count++] = made; }
    } else if (choice == 3) {
        int32_t code = tribes_hide(&p->server, n);
        told("hide", &p->server, code);
        if (code == 0) for (int k = 0; k < p->shown_count; k++) if (p->shown[k] == n) { p->shown[k] = p->shown[--p->shown_count]; break; }
    } else if (choice == 4) told("near", &p->server, tribes_near(&p->server, n, below(5)));
    else if (choice < 8) told("changed", &p->server, tribes_changed(&p->server, n, below(8)));
    else if (choice == 8) {
        uint32_t field = below(6), slot = 0;
        told("settled", &p->server, tribes_settled(&p->server, n, field));
        int32_t code = tribes_slot(&p->server, n, &slot);
        told("slot", &p->server, code);
        if (code == 1) printf("at %u\n", slot);
    } else if (choice == 9) {
        uint8_t event[32];
        uint32_t length = below(26);
        for (uint32_t k = 0; k < length; k++) event[k] = (uint8_t)below(256);
        tribes_end *end = below(2) ? &p->server : &p->client;
        told("post", end, tribes_post(end, event, length, below(3) != 0, &made));
    } else {
        uint64_t parts[PARTS], move;
        for (int k = 0; k < PARTS; k++) {
            uint32_t wide = p->widths[k], high = drawn(), low = drawn();
            parts[k] = wide > 32 ? (uint64_t)(high % (1u << (wide - 32))) << 32 | low : low % (1u << wide);
            if (below(60) == 0) parts[k] += 300;
        }
        if (tribes_put_bits(p->widths, parts, PARTS, &move) < 0) printf("sample of none\n");
        else told("sample", &p->client, tribes_sample(&p->client, move, &made));
        uint64_t kept[TRIBES_MAX_MOVES];
        if (below(8) == 0 && tribes_pending(&p->client, kept, TRIBES_MAX_MOVES, &made) == 0) tell_moves("pending", p->widths, kept, made);
    }
}

static void tell(tribes_end *end, way *w, const pair *server_of) {
    static tribes_ask asks[TRIBES_MAX_ASKS];
    static int64_t values[TRIBES_MAX_ASKS];
    uint8_t bytes[TRIBES_MAX_DATAGRAM];
    size_t count = 0;
    if (server_of) {
        tribes_plan(end, asks, TRIBES_MAX_ASKS, &count);
        for (size_t k = 0; k < count; k++) values[k] = value(server_of, asks[k].n, asks[k].field);
    }
    int32_t code = tribes_pack(end, values, count, bytes, sizeof bytes, &count);
    if (code < 0) told("pack", end, code);
    if (code <= 0) return;
    hex(server_of ? "down" : "up", bytes, count);
    put(w, bytes, count);
}

static void tell_counts(const char *what, tribes_end *end) {
    tribes_count c;
    tribes_counts(end, &c);
    printf("%s %u %u %u %u %u %u %u ", what, c.sent, c.unjudged, c.taken, c.delivered, c.waiting, c.moves, c.accepted);
    printf("%u %u %u\n", c.event_places, c.loose_places, c.move_places);
}

int main(int argc, char **argv) {
    if (argc != 3) return 2;
    state = (uint32_t)strtoul(argv[1], NULL, 10) * 2654435761u | 1;
    turns = (uint32_t)strtoul(argv[2], NULL, 10);
    tribes_reason why;
    for (int k = 0; k < PAIRS; k++) {
        pairs[k].kind_of = calloc(MOST_PERIODS, 1);
        pairs[k].widths = widths[k];
        if (tribes_server(&pairs[k].server, &configs[k], kinds, KINDS, fields, FIELDS, (const uint8_t *)block_text, strlen(block_text), block_lengths, BLOCKS, &why) < 0) return 1;
        if (tribes_client(&pairs[k].client, &configs[k], kinds, KINDS, fields, FIELDS, &why) < 0) return 1;
    }
    for (turn = 1; turn <= turns; turn++)
        for (int k = 0; k < PAIRS; k++) {
            pair *p = &pairs[k];
            for (uint32_t acts = below(6); acts > 0; acts--) act(p);
            take(&p->up, &p->server, p, 1);
            take(&p->down, &p->client, p, 0);
            tell(&p->server, &p->down, p);
            tell(&p->client, &p->up, NULL);
        }
    printf("calls %u\n", calls);
    for (int k = 0; k < PAIRS; k++) {
        tell_counts("server", &pairs[k].server);
        tell_counts("client", &pairs[k].client);
        tribes_free(&pairs[k].server);
        tribes_free(&pairs[k].client);
        free(pairs[k].kind_of);
    }
    return 0;
}
