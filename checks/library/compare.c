/* A script played through the library: compare [CLIENT] < LIST reads the own list of a client, by default of client 0, and prints what the
   report says of its posts, packs, arrivals, moves and copies. The list is what crates/own_list_cli writes: the script (docs/script.md,
   "The script") without the lines of other clients. The world is not the library's: in place of `scan`, and after `tick`, shows, changes and
   values are told by lines that begin with '@':
     @show KIND BLOCK LEVEL CONTROL    @hide N    @near N LEVEL    @set N FIELD VALUE    @changed N FIELD (told by the next pack) */
#include "tribes.h"
#include <stdio.h>
#include <stdlib.h>
#include <string.h>

enum { MOST = 4096, PERIODS = 1024 };

typedef struct { uint8_t bytes[MOST][TRIBES_MAX_DATAGRAM]; size_t counts[MOST]; uint32_t sent; } way;

static way down, up;
static tribes_end server, client;
static tribes_config config = {0, 0, 0, 1, 10};
static int64_t world[PERIODS][TRIBES_MAX_FIELDS];
static uint32_t changes[PERIODS], shown, taken, accepted, sampled, delivered;
static uint8_t blocks[TRIBES_MAX_BLOCKS * TRIBES_MAX_BLOCK];
static uint32_t lengths[TRIBES_MAX_BLOCKS], block_count, block_bytes;

/* the kinds of the match's world (docs/world.md) */
static const tribes_field fields[] = {
    {0, 65535, 16}, {0, 65535, 16}, {0, 100, 7}, {0, 20, 5}, {0, 255, 8}, {0, 65535, 16}, {0, 65535, 16}, {0, 65535, 16}, {0, 65535, 16},
    {0, 1, 1}, {0, 65535, 12}, {0, 65535, 12}, {0, 100, 5}, {0, 65535, 16}, {0, 65535, 16}, {0, 16, 5}, {0, 16777215, 24}, {0, 255, 8},
    {0, 255, 8}};
static const tribes_kind kinds[] = {{5, 8}, {2, 6}, {3, 3}, {3, 4}, {3, 5}, {3, 1}};
static const char *kind_words[] = {"player", "disc", "mine", "drone", "flag", "clock"};

static void print_hex(const uint8_t *bytes, size_t count) {
    if (!count) printf("-");
    for (size_t k = 0; k < count; k++) printf("%02x", bytes[k]);
}

static size_t read_hex(const char *text, uint8_t *bytes) {
    size_t count = strcmp(text, "-") ? strlen(text) / 2 : 0;
    for (size_t k = 0; k < count; k++) {
        unsigned byte = 0;
        sscanf(text + 2 * k, "%2x", &byte);
        bytes[k] = (uint8_t)byte;
    }
    return count;
}

/* the last refusal of an end, as a report tells it */
static void print_refusal(tribes_end *end) {
    static const char *bits[] = {"Short",      "Padding",     "KindBits",  "OpBits",  "CountBits",
                                 "LengthBits", "UnknownKind", "EmptyMask", "ZeroSeq", "UnknownSlot"};
    static const char *ghost[] = {"Twice", "Unknown", "Taken", "KindDiffers", "BlockMissing"};
    tribes_reason why;
    tribes_why(end, &why);
    int32_t code = why.code;
    if (code <= TRIBES_BITS_SHORT && code >= TRIBES_BITS_UNKNOWN_SLOT) printf("bits %u %s\n", why.first, bits[TRIBES_BITS_SHORT - code]);
    else if (code == TRIBES_WRONG_CLIENT) printf("client %u\n", why.first);
    else if (code == TRIBES_OLD) printf("old %u %u\n", why.first, why.second);
    else if (code == TRIBES_ACK_AHEAD) printf("ackahead %u %u\n", why.first, why.second);
    else if (code == TRIBES_MOVE_GAP) printf("movegap %u %u\n", why.first, why.second);
    else if (code == TRIBES_MOVE_AHEAD) printf("moveahead %u %u\n", why.first, why.second);
    else if (code == TRIBES_BLOCK_DIFFERS) printf("block %u\n", why.first);
    else if (code == TRIBES_EVENT_AHEAD) printf("eventahead %u %u\n", why.first, why.second);
    else if (code <= TRIBES_GHOST_TWICE && code >= TRIBES_GHOST_BLOCK) printf("ghost %u %s\n", why.first, ghost[TRIBES_GHOST_TWICE - code]);
    else if (code == TRIBES_EVENTS_WORN || code == TRIBES_MOVES_WORN) printf("worn %u\n", why.first);
    else if (code == TRIBES_EVENTS_FULL || code == TRIBES_MOVES_FULL) printf("full %u %u\n", why.first, why.second);
    else printf("%s %u %u\n", tribes_text(code), why.first, why.second);
}

static void post(const char *word, tribes_end *end, char class, const char *hex) {
    uint8_t bytes[4096];
    uint32_t number;
    int32_t code = tribes_post(end, bytes, read_hex(hex, bytes), class == 'g', &number);
    printf("%s %u ", word, config.client);
    if (code) print_refusal(end);
    else if (class == 'g') printf("g %u\n", number);
    else printf("u\n");
}

/* what was written since the last pack is told, and asked for, by a pack that may send a data packet */
static size_t plan(int64_t *values) {
    static tribes_ask asks[TRIBES_MAX_ASKS];
    size_t count = 0;
    if (tribes_plan(&server, asks, TRIBES_MAX_ASKS, &count) != 1) return 0;
    for (uint32_t n = 0; n < shown; n++)
        if (changes[n] && tribes_changed(&server, n, changes[n]) == 0) changes[n] = 0;
    if (tribes_plan(&server, asks, TRIBES_MAX_ASKS, &count) != 1) return 0;
    for (size_t k = 0; k < count; k++) values[k] = world[asks[k].n][asks[k].field];
    return count;
}

static void pack(const char *word, tribes_end *end, way *to) {
    static int64_t values[TRIBES_MAX_ASKS];
    size_t count = end == &server ? plan(values) : 0;
    int32_t made = tribes_pack(end, values, count, to->bytes[to->sent], TRIBES_MAX_DATAGRAM, &to->counts[to->sent]);
    printf("%s %u ", word, config.client);
    if (made < 0) print_refusal(end);
    else if (!made) printf("worn %u\n", config.life);
    else {
        printf("%u %s ", to->sent, made == 2 ? "data" : "ping");
        print_hex(to->bytes[to->sent], to->counts[to->sent]);
        printf("\n");
        to->sent++;
    }
}

/* bytes come to an end: what it answers, with the events that it hands out */
static void arrive(tribes_end *end, const uint8_t *bytes, size_t count) {
    uint8_t event[TRIBES_MAX_EVENT];
    uint32_t moves;
    int32_t class;
    if (tribes_arrive(end, bytes, count, TRIBES_MAX_MOVES - (accepted - taken), &moves)) {
        print_refusal(end);
        return;
    }
    printf("ok");
    if (end == &server) printf(" %u", moves);
    accepted += end == &server ? moves : 0;
    while ((class = tribes_event(end, event, sizeof event, &count)) > 0) {
        printf(" %c:", class == 2 ? 'g' : 'u');
        print_hex(event, count);
        delivered += end == &client && class == 2;
    }
    printf("\n");
}

static void bring(const char *word, tribes_end *end, const way *from, uint32_t k) {
    printf("%s %u %u ", word, config.client, k);
    if (k >= from->sent) printf("notsent %u\n", from->sent);
    else arrive(end, from->bytes[k], from->counts[k]);
}

static void print_copy(uint32_t slot) {
    tribes_copied copied;
    int64_t values[TRIBES_MAX_FIELDS];
    uint32_t n, at = 0;
    if (tribes_copy(&client, slot, &copied, values, TRIBES_MAX_FIELDS)) return;
    printf(" | %u %s %u", slot, kind_words[copied.kind], copied.block);
    for (n = 0; n < shown && !(tribes_slot(&server, n, &at) == 1 && at == slot); n++) {}
    for (uint32_t f = 0; f < copied.fields; f++) {
        int settled = n < shown && !(changes[n] >> f & 1) && tribes_settled(&server, n, f) == 1;
        printf(" %lld%s", (long long)values[f], settled ? "s" : "");
    }
}

static void show(void) {
    uint32_t slot, ghosts = 0;
    for (uint32_t from = 0; tribes_next_copy(&client, from, &slot) == 1; from = slot + 1) ghosts++;
    printf("show %u events %u sampled %u accepted %u taken %u control ", config.client, delivered, sampled, accepted, taken);
    if (tribes_control(&client, &slot) == 1) printf("%u", slot);
    else printf("-");
    printf(" ghosts %u", ghosts);
    for (uint32_t from = 0; tribes_next_copy(&client, from, &slot) == 1; from = slot + 1) print_copy(slot);
    printf("\n");
}

static void move(uint64_t bits) {
    uint32_t number;
    int32_t code = tribes_sample(&client, bits, &number);
    printf("move %u ", config.client);
    if (code) print_refusal(&client);
    else printf("%u\n", number);
    sampled += code == 0;
}

static void begin(void) {
    tribes_reason why = {0, 0, 0};
    if (tribes_server(&server, &config, kinds, 6, fields, 19, blocks, block_bytes, lengths, block_count, &why) ||
        tribes_client(&client, &config, kinds, 6, fields, 19, &why)) {
        printf("no ends: %s\n", tribes_text(why.code));
        exit(1);
    }
}

/* a line of the own list, which begins with '@' */
static void tell(const char *line) {
    unsigned a = 0, b = 0, c = 0, d = 0;
    long long v = 0;
    int32_t code = 0;
    if (sscanf(line, "@show %u %u %u %u", &a, &b, &c, &d) == 4) {
        tribes_object object = {a, b, c, d};
        code = tribes_show(&server, &object, &shown);
        shown++;
    } else if (sscanf(line, "@hide %u", &a) == 1) code = tribes_hide(&server, a);
    else if (sscanf(line, "@near %u %u", &a, &b) == 2) code = tribes_near(&server, a, b);
    else if (sscanf(line, "@set %u %u %lld", &a, &b, &v) == 3 && a < PERIODS && b < TRIBES_MAX_FIELDS) world[a][b] = v;
    else if (sscanf(line, "@changed %u %u", &a, &b) == 2 && a < PERIODS && b < 32) changes[a] |= 1u << b;
    if (code < 0) printf("%s: %s\n", line, tribes_text(code));
}

/* a line in front of `go` */
static void prepare(const char *line) {
    unsigned a = 0, b = 0, life = 0, size = 0;
    char text[128] = "";
    if (sscanf(line, "tribes %u", &config.version) == 1) return;
    if (sscanf(line, "match %u %u %u %u", &a, &b, &life, &size) == 4) {
        config.life = life;
        config.size = size;
    } else if (sscanf(line, "block %127s", text) == 1 && block_count < TRIBES_MAX_BLOCKS) {
        lengths[block_count] = (uint32_t)read_hex(text, blocks + block_bytes);
        block_bytes += lengths[block_count++];
    } else if (!strcmp(line, "go")) begin();
}

static void play(const char *line) {
    static char hex[8192];
    static uint8_t bytes[4096];
    unsigned a = 0, k = 0, fire = 0, act = 0;
    int dx = 0, dy = 0;
    char class = 0;
    hex[0] = 0;
    if (line[0] == '@') tell(line);
    else if (sscanf(line, "post %u %c %8191s", &a, &class, hex) >= 2) post("post", &server, class, hex);
    else if (sscanf(line, "cpost %u %c %8191s", &a, &class, hex) >= 2) post("cpost", &client, class, hex);
    else if (sscanf(line, "pack %u", &a) == 1) pack("pack", &server, &down);
    else if (sscanf(line, "cpack %u", &a) == 1) pack("cpack", &client, &up);
    else if (sscanf(line, "down %u %u", &a, &k) == 2) bring("down", &client, &down, k);
    else if (sscanf(line, "up %u %u", &a, &k) == 2) bring("up", &server, &up, k);
    else if (sscanf(line, "move %u %d %d %u %u", &a, &dx, &dy, &fire, &act) == 5) move(tribes_move_of_step(dx, dy, fire, act));
    else if (sscanf(line, "raw %u %8191s", &a, hex) == 2) {
        printf("raw %u ", config.client);
        arrive(&server, bytes, read_hex(hex, bytes));
    } else if (!strcmp(line, "tick")) taken += taken < accepted;
    else if (sscanf(line, "show %u", &a) == 1) show();
}

int main(int argc, char **argv) {
    static char line[8192];
    config.client = argc > 1 ? (uint8_t)atoi(argv[1]) : 0;
    while (fgets(line, sizeof line, stdin)) {
        line[strcspn(line, "\n")] = 0;
        if (tribes_counts(&client, &(tribes_count){0}) < 0) prepare(line);
        else play(line);
    }
    tribes_free(&server);
    tribes_free(&client);
    return 0;
}
