/* Any numbers and any order of calls at the border: each answers its refusal, and nothing else happens. hostile [DATAGRAMS] gives each
   end so many random datagrams (half a million by default), then frees both ends, the server's twice. Its last line counts. */
#include "tribes.h"
#include <stdio.h>
#include <stdlib.h>
#include <string.h>

static int checks, wrong;
static void is(const char *what, int32_t code, int32_t wanted) {
    checks++;
    if (code == wanted) return;
    wrong++;
    printf("%s: %d (%s), wanted %d\n", what, code, tribes_text(code), wanted);
}
static uint32_t state = 7;
static uint32_t draw(void) { state = state * 1664525u + 1013904223u; return state ^ (state >> 15); }

static tribes_field fields[] = {{0, 65535, 16}, {0, 100, 7}};
static tribes_kind kinds[] = {{2, 8}};
static uint8_t blocks[] = "a";
static uint32_t lengths[] = {1};
static tribes_ask asks[TRIBES_MAX_ASKS];

/* each call on a handle behind which no end is: filled with zeros, freed, or of junk */
static void without_end(const char *what, tribes_end *end) {
    uint8_t bytes[TRIBES_MAX_DATAGRAM] = {0};
    int64_t values[16] = {0};
    uint32_t n = 0;
    size_t count = 0;
    tribes_reason why;
    tribes_object object = {0, 0, 0, 0};
    uint64_t moves[32];
    tribes_count counts;
    tribes_copied copied;
    tribes_judged judged[32];
    tribes_change changes[128];
    int32_t codes[] = {
        tribes_free(end), tribes_why(end, &why), tribes_show(end, &object, &n), tribes_hide(end, 0), tribes_near(end, 0, 0),
        tribes_changed(end, 0, 1), tribes_settled(end, 0, 0), tribes_slot(end, 0, &n), tribes_plan(end, asks, TRIBES_MAX_ASKS, &count),
        tribes_pack(end, values, 0, bytes, sizeof bytes, &count), tribes_arrive(end, bytes, 16, 0, &n), tribes_post(end, bytes, 1, 1, &n),
        tribes_event(end, bytes, sizeof bytes, &count), tribes_sample(end, 0, &n), tribes_moves(end, moves, 32, &n),
        tribes_block(end, 0, bytes, 40, &count), tribes_counts(end, &counts), tribes_verdicts(end, judged, 32, &n),
        tribes_copy(end, 0, &copied, values, 16), tribes_next_copy(end, 0, &n), tribes_changes(end, changes, 128, &n),
        tribes_control(end, &n), tribes_pending(end, moves, 32, &n)};
    for (size_t k = 0; k < sizeof codes / sizeof *codes; k++) is(what, codes[k], TRIBES_NO_END);
}

/* a door and a knock: each handle, each order of calls, any numbers */
static void joins(void) {
    tribes_door door = {0}, none = {0}, junk = {12345, (void *)8}, *closed[] = {&none, &junk, &door};
    tribes_terms terms = {.seats = 1};
    tribes_address from = {{0}, 1};
    tribes_greeting place = {0};
    tribes_secret secret = {{0}};
    tribes_knock knock = {.reached = 4};
    uint8_t bytes[300] = {0};
    uint32_t n = 0;
    is("door", tribes_door_open(&door, &terms), 0);
    is("door again", tribes_door_open(&door, &terms), TRIBES_HAS_DOOR);
    is("nobody asks", tribes_door_accept(&door, 0, &place), TRIBES_NOBODY_ASKS);
    is("nobody asks", tribes_door_refuse(&door, &place), TRIBES_NOBODY_ASKS);
    is("nobody leaves", tribes_door_leave(&door, 0xffffffffu), 0);
    is("no knock", tribes_knock_hear(&knock, bytes, 0), TRIBES_NO_KNOCK);
    knock = (tribes_knock){.reached = 3, .reason = 5};
    is("no reason", tribes_knock_write(&knock, bytes, 0, &place), TRIBES_NO_KNOCK);
    knock = (tribes_knock){.nonce = {1, 2}};
    is("long token", tribes_knock_write(&knock, bytes, 257, &place), TRIBES_TOKEN_TOO_LONG);
    is("hello", tribes_knock_write(&knock, bytes, 256, &place), 0);
    is("challenged", tribes_door_hear(&door, &from, place.bytes, place.count, &place, &n), 1);
    is("shorter", (int32_t)place.count, 34);
    is("challenge", tribes_knock_hear(&knock, place.bytes, place.count), 0);
    is("answer", tribes_knock_write(&knock, bytes, 256, &place), 0);
    from.port = 2;
    is("from elsewhere", tribes_door_hear(&door, &from, place.bytes, place.count, &place, &n), 0);
    is("nothing goes back", (int32_t)place.count, 0);
    from.port = 1;
    tribes_knock_write(&knock, bytes, 256, &place);
    is("asks", tribes_door_hear(&door, &from, place.bytes, place.count, &place, &n), 3);
    is("no seat", tribes_door_accept(&door, 1, &place), TRIBES_NO_SEAT);
    is("accept", tribes_door_accept(&door, 0, &place), 0);
    is("accept again", tribes_door_accept(&door, 0, &place), TRIBES_NOBODY_ASKS);
    is("welcome", tribes_knock_hear(&knock, place.bytes, place.count), 0);
    is("joined", (int32_t)knock.reached, 2);
    is("free", tribes_door_free(&door), 0);
    for (int k = 0; k < 3; k++) {
        is("closed", tribes_door_hear(closed[k], &from, bytes, 50, &place, &n), TRIBES_NO_DOOR);
        is("closed", tribes_door_accept(closed[k], 0, &place), TRIBES_NO_DOOR);
        is("closed", tribes_door_refuse(closed[k], &place), TRIBES_NO_DOOR);
        is("closed", tribes_door_leave(closed[k], 0), TRIBES_NO_DOOR);
        is("closed", tribes_door_renew(closed[k], &secret), TRIBES_NO_DOOR);
        is("closed", tribes_door_free(closed[k]), TRIBES_NO_DOOR);
    }
}

/* keys, who is there, and how a link goes: any numbers */
static void cares(void) {
    tribes_key key = {.tag_bytes = 7}, none = {0};
    tribes_presence presence = {.said = 4};
    tribes_greeting place = {0};
    tribes_quality quality = {0}, junk = {12345, (void *)8};
    tribes_trip trip;
    tribes_rate rate = {0};
    tribes_bounds bounds = {2, 1, 1, 1};
    uint8_t bytes[300] = {0};
    uint32_t n = 0;
    uint64_t wait;
    size_t count = 0;
    is("no key", tribes_tag(&key, 0, bytes, 300, 1, &count), TRIBES_NO_KEY);
    is("no key", tribes_verify(&key, 0, bytes, 300, &count), TRIBES_NO_KEY);
    key = (tribes_key){.tag_bytes = 8, .side = 2};
    is("no side", tribes_tag(&key, 0, bytes, 300, 1, &count), TRIBES_NO_KEY);
    key.side = 1;
    is("no room", tribes_tag(&key, 0, bytes, 300, 293, &count), TRIBES_NO_ROOM);
    is("no room", tribes_tag(&key, 0, bytes, 300, SIZE_MAX, &count), TRIBES_NO_ROOM);
    is("no room", tribes_tag(&none, 0, bytes, 300, 301, &count), TRIBES_NO_ROOM);
    is("room", tribes_tag(&key, 0, bytes, 300, 292, &count), 0);
    is("no tag", tribes_verify(&key, 0, bytes, 7, &count), TRIBES_NO_TAG);
    is("reflected", tribes_verify(&key, 0, bytes, 300, &count), TRIBES_WRONG_TAG);
    is("counted", (int32_t)key.refused, 2);
    is("without a key", tribes_verify(&none, 0, bytes, 300, &count), 0);
    is("all of it", (int32_t)count, 300);
    is("fourth goodbye", tribes_presence_came(&presence, bytes, 4, 0, &n), TRIBES_NO_PRESENCE);
    is("fourth goodbye", tribes_presence_say(&presence, &place), TRIBES_NO_PRESENCE);
    is("fourth goodbye", tribes_presence_leave(&presence, 1), TRIBES_NO_PRESENCE);
    is("fourth goodbye", tribes_presence_alive(&presence, 1), TRIBES_NO_PRESENCE);
    is("start", tribes_presence_start(&presence, 10, 5), 0);
    is("alive", tribes_presence_alive(&presence, 15), 1);
    is("gone", tribes_presence_alive(&presence, 16), 0);
    is("no quality", tribes_quality_sent(&junk, 0), TRIBES_NO_QUALITY);
    is("no quality", tribes_quality_told(&quality, &trip), TRIBES_NO_QUALITY);
    is("quality", tribes_quality_open(&quality), 0);
    is("nothing waits", tribes_quality_judged(&quality, 1, 5), TRIBES_NOTHING_WAITS);
    for (int k = 0; k < 64; k++) is("sent", tribes_quality_sent(&quality, 5), 0);
    is("64 wait", tribes_quality_sent(&quality, 5), TRIBES_TOO_MANY_WAIT);
    is("back", tribes_quality_judged(&quality, 1, 4), TRIBES_TIME_GOES_BACK);
    is("judged", tribes_quality_judged(&quality, 1, 25), 0);
    is("told", tribes_quality_told(&quality, &trip), 0);
    is("20 milliseconds", (int32_t)trip.eighths, 160);
    is("free", tribes_quality_free(&quality), 0);
    is("free again", tribes_quality_free(&quality), TRIBES_NO_QUALITY);
    is("no rate", tribes_rate_came(&rate, 0), TRIBES_NO_RATE);
    is("no rate", tribes_rate_wait(&rate, 0, 0, &wait), TRIBES_NO_RATE);
    is("bounds", tribes_rate_start(&rate, &bounds, 0), TRIBES_BAD_BOUNDS);
}

/* what the caller keeps, of any bytes: each call answers, and none stops the program */
static void any_bytes(long times) {
    static union { uint32_t words[64]; tribes_knock knock; tribes_key key; tribes_presence presence; tribes_meter meter; tribes_rate rate; } any;
    tribes_greeting place = {0};
    tribes_traffic traffic;
    uint8_t bytes[300];
    for (; times > 0; times--) {
        for (size_t k = 0; k < 64; k++) any.words[k] = draw() % 3 ? draw() : draw() % 5;
        for (size_t k = 0; k < sizeof bytes; k++) bytes[k] = (uint8_t)draw();
        uint32_t n = draw() % 300;
        uint64_t wait;
        size_t count = 0;
        tribes_knock_hear(&any.knock, bytes, n);
        tribes_knock_write(&any.knock, bytes, n, &place);
        tribes_tag(&any.key, draw(), bytes, sizeof bytes, n, &count);
        tribes_verify(&any.key, draw(), bytes, n, &count);
        tribes_presence_came(&any.presence, bytes, n % 5, draw(), &n);
        tribes_presence_say(&any.presence, &place);
        tribes_presence_alive(&any.presence, draw());
        tribes_meter_went(&any.meter, draw(), draw());
        tribes_meter_told(&any.meter, draw(), &traffic);
        tribes_rate_came(&any.rate, draw());
        tribes_rate_lost(&any.rate, draw(), draw());
        tribes_rate_went(&any.rate, draw(), draw());
        tribes_rate_allowed(&any.rate, draw(), &n);
        tribes_rate_wait(&any.rate, draw(), draw(), &wait);
    }
}

int main(int argc, char **argv) {
    long datagrams = argc > 1 ? atol(argv[1]) : 500000;
    tribes_config config = {0, 100, 128, 1, 0};
    uint32_t number = 0, n = 0;
    tribes_end server = {0}, client = {0}, none = {0}, junk = {12345, (void *)8};
    tribes_reason why = {0};
    uint8_t bytes[TRIBES_MAX_DATAGRAM] = {0};
    size_t count = 0, number_of = 0;
    is("version", (int32_t)tribes_version(), TRIBES_VERSION);
    without_end("zeros", &none);
    without_end("junk", &junk);
    tribes_config bad = {16, 100, 128, 1, 10};
    is("client 16", tribes_server(&server, &bad, kinds, 1, fields, 2, blocks, 1, lengths, 1, &why), TRIBES_BAD_CLIENT);
    is("names it", (int32_t)why.first, 16);
    bad = (tribes_config){256, 100, 128, 1, 10};
    is("client 256", tribes_client(&client, &bad, kinds, 1, fields, 2, &why), TRIBES_BAD_CLIENT);
    is("names it", (int32_t)why.first, 256);
    bad = (tribes_config){0, 0, 128, 1, 10};
    is("life 0", tribes_server(&server, &bad, kinds, 1, fields, 2, blocks, 1, lengths, 1, &why), TRIBES_BAD_LIFE);
    bad = (tribes_config){0, 16777216, 128, 1, 10};
    is("life 2^24", tribes_client(&client, &bad, kinds, 1, fields, 2, &why), TRIBES_BAD_LIFE);
    bad = (tribes_config){0, 100, 127, 1, 10};
    is("size 127", tribes_client(&client, &bad, kinds, 1, fields, 2, &why), TRIBES_BAD_SIZE);
    bad = (tribes_config){0, 100, 1201, 1, 10};
    is("size 1201", tribes_client(&client, &bad, kinds, 1, fields, 2, &why), TRIBES_BAD_SIZE);
    bad = (tribes_config){0, 100, 271, 3, 64};
    is("size 271", tribes_client(&client, &bad, kinds, 1, fields, 2, &why), TRIBES_BAD_SIZE);
    bad = (tribes_config){0, 100, 128, 0, 10};
    is("version 0", tribes_client(&client, &bad, kinds, 1, fields, 2, &why), TRIBES_BAD_VERSION);
    bad = (tribes_config){0, 100, 128, 4, 10};
    is("version 4", tribes_client(&client, &bad, kinds, 1, fields, 2, &why), TRIBES_BAD_VERSION);
    bad = (tribes_config){0, 100, 128, 258, 10};
    is("version 258", tribes_server(&server, &bad, kinds, 1, fields, 2, blocks, 1, lengths, 1, &why), TRIBES_BAD_VERSION);
    const uint32_t wrong_bits[][2] = {{1, 11}, {2, 9}, {2, 266}, {3, 0}, {3, 65}, {3, 256 + 22}, {3, 0xffffffffu}};
    for (size_t k = 0; k < sizeof wrong_bits / sizeof *wrong_bits; k++) {
        bad = (tribes_config){0, 100, 1200, wrong_bits[k][0], wrong_bits[k][1]};
        is("move bits", tribes_client(&client, &bad, kinds, 1, fields, 2, &why), TRIBES_BAD_MOVE_BITS);
        is("names them", (int32_t)why.first, (int32_t)wrong_bits[k][1]);
    }
    bad = (tribes_config){0xffffffffu, 0xffffffffu, 0xffffffffu, 0xffffffffu, 0xffffffffu};
    is("all ones", tribes_client(&client, &bad, kinds, 1, fields, 2, &why), TRIBES_BAD_CLIENT);
    is("no kinds", tribes_client(&client, &config, kinds, 0, fields, 0, &why), TRIBES_NO_KINDS);
    is("a field left", tribes_client(&client, &config, kinds, 1, fields, 1, &why), TRIBES_BAD_FIELD_COUNTS);
    tribes_kind much = {0xffffffffu, 1};
    is("so many fields", tribes_client(&client, &config, &much, 1, fields, 2, &why), TRIBES_BAD_FIELD_COUNTS);
    tribes_field odd[] = {{5, 5, 3}, {0, 1, 25}};
    is("empty range", tribes_client(&client, &config, kinds, 1, odd, 2, &why), TRIBES_BAD_RANGE);
    is("kind of it", (int32_t)why.first, 0);
    uint32_t far[] = {0xffffffffu};
    is("block too long", tribes_server(&server, &config, kinds, 1, fields, 2, blocks, 1, far, 1, &why), TRIBES_BAD_BLOCKS);
    is("server", tribes_server(&server, &config, kinds, 1, fields, 2, blocks, 1, lengths, 1, &why), 0);
    is("server again", tribes_server(&server, &config, kinds, 1, fields, 2, blocks, 1, lengths, 1, &why), TRIBES_HAS_END);
    is("client", tribes_client(&client, &config, kinds, 1, fields, 2, &why), 0);
    tribes_object object = {1, 0, 0, 0};
    is("kind 1", tribes_show(&server, &object, &n), TRIBES_NO_KIND);
    object.kind = 256; is("kind 256", tribes_show(&server, &object, &n), TRIBES_NO_KIND);
    object = (tribes_object){0, 1, 0, 0}; is("block 1", tribes_show(&server, &object, &n), TRIBES_NO_BLOCK);
    object.block = 0x10000; is("block 65536", tribes_show(&server, &object, &n), TRIBES_NO_BLOCK);
    object = (tribes_object){0, 0, 4, 0}; is("level 4", tribes_show(&server, &object, &n), TRIBES_NO_LEVEL);
    is("hide", tribes_hide(&server, 0), TRIBES_NOT_SHOWN);
    is("near", tribes_near(&server, 5, 0), TRIBES_NOT_SHOWN);
    is("changed", tribes_changed(&server, 0xffffffffu, 1), TRIBES_NOT_SHOWN);
    is("settled", tribes_settled(&server, 0, 0), TRIBES_NOT_SHOWN);
    is("slot", tribes_slot(&server, 0, &n), TRIBES_NOT_SHOWN);
    object = (tribes_object){0, 0, 0, 77}; is("show", tribes_show(&server, &object, &n), 0);
    is("control twice", tribes_show(&server, &object, &n), TRIBES_HAS_CONTROL);
    is("near level", tribes_near(&server, 0, 4), TRIBES_NO_LEVEL);
    is("bits", tribes_changed(&server, 0, 4), TRIBES_NO_FIELD);
    is("settled field", tribes_settled(&server, 0, 16), TRIBES_NO_FIELD);
    is("wrong end", tribes_show(&client, &object, &n), TRIBES_WRONG_END);
    is("wrong end", tribes_control(&server, &n), TRIBES_WRONG_END);
    int64_t values[] = {70000, 1};
    is("pack unplanned", tribes_pack(&server, values, 0, bytes, sizeof bytes, &count), TRIBES_NOT_PLANNED);
    is("pack into little", tribes_pack(&client, values, 0, bytes, 127, &count), TRIBES_NO_ROOM);
    tribes_why(&client, &why); is("needs", (int32_t)why.first, 128);
    is("plan into little", tribes_plan(&server, asks, TRIBES_MAX_ASKS - 1, &count), TRIBES_NO_ROOM);
    is("plan", tribes_plan(&server, asks, TRIBES_MAX_ASKS, &count), 1);
    if (count) is("value", tribes_pack(&server, values, count, bytes, sizeof bytes, &count), TRIBES_BAD_VALUES);
    is("values", tribes_pack(&server, values, 2, bytes, sizeof bytes, &count), TRIBES_BAD_VALUES);
    is("long event", tribes_post(&client, bytes, 25, 1, &number), TRIBES_TOO_LONG);
    uint64_t moves[32];
    is("eleven bits", tribes_sample(&client, 1024, &number), TRIBES_MOVE_TOO_WIDE);
    tribes_why(&client, &why); is("of ten", (int32_t)why.first, 10);
    is("64 bits", tribes_sample(&client, UINT64_MAX, &number), TRIBES_MOVE_TOO_WIDE);
    is("step 8", tribes_sample(&client, tribes_move_of_step(8, 0, 0, 0), &number), TRIBES_MOVE_TOO_WIDE);
    is("step", tribes_sample(&client, tribes_move_of_step(0, -2147483647 - 1, 0, 0), &number), TRIBES_MOVE_TOO_WIDE);
    is("sample at the server", tribes_sample(&server, 0, &number), TRIBES_WRONG_END);
    is("moves at the client", tribes_moves(&client, moves, 32, &n), TRIBES_WRONG_END);
    is("moves into nothing", tribes_moves(&server, moves, 0, &n), 0);
    is("pending at the server", tribes_pending(&server, moves, 32, &n), TRIBES_WRONG_END);
    is("pending into little", tribes_pending(&client, moves, 31, &n), TRIBES_NO_ROOM);
    is("pending", tribes_pending(&client, moves, 32, &n), 0);
    is("none of them", (int32_t)n, 0);
    is("event room", tribes_event(&client, bytes, 23, &count), TRIBES_NO_ROOM);
    int64_t shown[16]; tribes_copied copied;
    is("no copy", tribes_copy(&client, 0, &copied, shown, 16), TRIBES_NO_COPY);
    is("slot 256", tribes_copy(&client, 256, &copied, shown, 16), TRIBES_NO_COPY);
    tribes_judged judged[32]; tribes_change changes[128];
    is("no copy from 0", tribes_next_copy(&client, 0, &n), 0);
    is("no copy from 256", tribes_next_copy(&client, 256, &n), 0);
    is("no copy from the end", tribes_next_copy(&client, 0xffffffffu, &n), 0);
    is("copies at the server", tribes_next_copy(&server, 0, &n), TRIBES_WRONG_END);
    is("verdicts into little", tribes_verdicts(&client, judged, 31, &n), TRIBES_NO_ROOM);
    is("verdicts", tribes_verdicts(&client, judged, 32, &n), 0);
    is("none of them", (int32_t)n, 0);
    is("changes into little", tribes_changes(&client, changes, 127, &n), TRIBES_NO_ROOM);
    is("changes", tribes_changes(&client, changes, 128, &n), 0);
    is("changes at the server", tribes_changes(&server, changes, 128, &n), TRIBES_WRONG_END);
    is("block 1", tribes_block(&server, 1, bytes, 40, &count), TRIBES_NO_BLOCK);
    is("block 65536", tribes_block(&server, 65536, bytes, 40, &count), TRIBES_NO_BLOCK);
    is("block into little", tribes_block(&server, 0, bytes, 39, &count), TRIBES_NO_ROOM);
    is("block", tribes_block(&server, 0, bytes, 40, &count), 0);
    is("block that came", tribes_block(&client, 0, bytes, 40, &count), TRIBES_NO_BLOCK);
    uint8_t *huge = calloc(1, 70000);
    is("65537 bytes", tribes_arrive(&client, huge, 65537, 0, &n), TRIBES_TOO_LONG);
    is("zeros", tribes_arrive(&client, huge, 65536, 0, &n), TRIBES_BITS_ZERO_SEQ);
    /* a pack that is refused leaves its plan: with the right values it goes on */
    int64_t right[] = {70, 1};
    is("plan again", tribes_plan(&server, asks, TRIBES_MAX_ASKS, &count), 1);
    is("one too many", tribes_pack(&server, right, count + 1, bytes, sizeof bytes, &number_of), TRIBES_BAD_VALUES);
    is("the right ones", tribes_pack(&server, right, count, bytes, sizeof bytes, &number_of), 2);
    is("no plan is left", tribes_pack(&server, right, count, bytes, sizeof bytes, &number_of), TRIBES_NOT_PLANNED);
    /* random datagrams at each end: none may be taken as more than it is, and none may stop the program */
    long refused = 0, taken = 0;
    for (long k = 0; k < 2 * datagrams; k++) {
        size_t length = draw() % 200;
        for (size_t i = 0; i < length; i += 4) { uint32_t w = draw(); memcpy(bytes + i, &w, 4); }
        tribes_end *end = k & 1 ? &server : &client;
        int32_t code = tribes_arrive(end, bytes, length, draw(), &n);
        if (code == TRIBES_EVENTS_WAIT || code >= 0) { taken += code >= 0; while (tribes_event(end, bytes, sizeof bytes, &count) > 0) {} }
        else refused++;
    }
    free(huge);
    is("free", tribes_free(&server), 0);
    is("free again", tribes_free(&server), TRIBES_NO_END);
    without_end("freed", &server);
    is("free", tribes_free(&client), 0);
    joins();
    cares();
    any_bytes(datagrams / 10);
    printf("%d checks, %d wrong; random datagrams: %ld refused, %ld taken\n", checks, wrong, refused, taken);
    return wrong != 0;
}
