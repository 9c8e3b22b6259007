/* A server and a client in one process over a network that loses datagrams: events both ways, moves, two objects, two blocks.
   loss LOSS SEED VERSION [TURNS]: LOSS of 100 datagrams are lost, in 1,200 turns by default, of which 200 bring something new. It ends
   with 1 where an end does not have at last what the other told it. */
#include "tribes.h"
#include <stdio.h>
#include <stdlib.h>
#include <string.h>

static uint32_t state = 1;
static uint32_t draw(uint32_t below) { state = state * 1664525u + 1013904223u; return (state >> 8) % below; }

static void must(const char *what, tribes_end *end, int32_t code) {
    tribes_reason why = {0};
    if (code >= 0) return;
    tribes_why(end, &why);
    printf("%s: %s (%d %u %u)\n", what, tribes_text(code), why.code, why.first, why.second);
    exit(1);
}

/* the game's world: two objects with three fields each */
static int64_t world[2][3] = {{1000, 1000, 100}, {2000, 500, 7}};

int main(int argc, char **argv) {
    int lost = argc > 1 ? atoi(argv[1]) : 40, turns = argc > 4 ? atoi(argv[4]) : 1200, gone = 0, sent = 0;
    state = argc > 2 ? (uint32_t)atoi(argv[2]) : 1;
    tribes_field fields[] = {{0, 65535, 16}, {0, 65535, 16}, {0, 100, 7}, {0, 65535, 12}, {0, 65535, 12}, {0, 31, 5}};
    tribes_kind kinds[] = {{3, 8}, {3, 4}};
    tribes_config config = {0, 100000, 400, argc > 3 ? (uint32_t)atoi(argv[3]) : 1, 10};
    uint8_t blocks[] = "tankdrone";
    uint32_t lengths[] = {4, 5};
    tribes_end server = {0}, client = {0};
    tribes_reason why = {0};
    must("server", &server, tribes_server(&server, &config, kinds, 2, fields, 6, blocks, 9, lengths, 2, &why));
    must("client", &client, tribes_client(&client, &config, kinds, 2, fields, 6, &why));
    uint32_t n[2], number, moves, got = 0, said = 0, accepted = 0, sampled = 0;
    tribes_object tank = {0, 0, 0, 1}, drone = {1, 1, 2, 0};
    must("show", &server, tribes_show(&server, &tank, &n[0]));
    must("show", &server, tribes_show(&server, &drone, &n[1]));
    uint8_t bytes[TRIBES_MAX_DATAGRAM];
    long told_lost = 0;
    size_t count;
    for (int turn = 0; turn < turns; turn++) {
        if (turn < 200) {
            char text[24];
            int length = snprintf(text, sizeof text, "event %d", turn);
            must("post", &server, tribes_post(&server, (uint8_t *)text, (size_t)length, 1, &number));
            length = snprintf(text, sizeof text, "said %d", turn);
            must("post", &client, tribes_post(&client, (uint8_t *)text, (size_t)length, 1, &number));
            int32_t code = tribes_sample(&client, draw(1024), &number);
            if (code == 0) sampled++;
            else if (code != TRIBES_MOVES_FULL) must("sample", &client, code);
            int which = (int)draw(2), field = (int)draw(2);
            world[which][field] = 500 + draw(3000);
            must("changed", &server, tribes_changed(&server, n[which], 1u << field));
        }
        /* down */
        tribes_ask asks[TRIBES_MAX_ASKS];
        int64_t values[TRIBES_MAX_ASKS];
        must("plan", &server, tribes_plan(&server, asks, TRIBES_MAX_ASKS, &count));
        for (size_t k = 0; k < count; k++) values[k] = world[asks[k].n][asks[k].field];
        int made = tribes_pack(&server, values, count, bytes, sizeof bytes, &count);
        must("pack", &server, made);
        sent++;
        if (made > 0 && (int)draw(100) >= lost) {
            must("arrive", &client, tribes_arrive(&client, bytes, count, 0, &moves));
            uint8_t event[TRIBES_MAX_EVENT];
            while (tribes_event(&client, event, sizeof event, &count) > 0) {
                char text[24];
                int length = snprintf(text, sizeof text, "event %u", got);
                if ((size_t)length != count || memcmp(text, event, count)) {
                    printf("event %u differs\n", got);
                    return 1;
                }
                got++;
            }
        } else gone++;
        /* up */
        made = tribes_pack(&client, values, 0, bytes, sizeof bytes, &count);
        must("pack", &client, made);
        sent++;
        if (made > 0 && (int)draw(100) >= lost) {
            must("arrive", &server, tribes_arrive(&server, bytes, count, TRIBES_MAX_MOVES, &moves));
            uint64_t brought[TRIBES_MAX_MOVES];
            uint32_t taken;
            must("moves", &server, tribes_moves(&server, brought, TRIBES_MAX_MOVES, &taken));
            accepted += taken;
            tribes_judged judged[TRIBES_MAX_JUDGED];
            uint32_t verdicts;
            must("verdicts", &server, tribes_verdicts(&server, judged, TRIBES_MAX_JUDGED, &verdicts));
            for (uint32_t k = 0; k < verdicts; k++) told_lost += !judged[k].received;
            uint8_t event[TRIBES_MAX_EVENT];
            while (tribes_event(&server, event, sizeof event, &count) > 0) said++;
        } else gone++;
    }
    printf("%d of %d datagrams lost; events down %u of 200, up %u of 200; moves %u of %u\n", gone, sent, got, said, accepted, sampled);
    int wrong = 0;
    for (int k = 0; k < 2; k++) {
        uint32_t slot = 0;
        tribes_copied copied;
        int64_t shown[TRIBES_MAX_FIELDS];
        must("slot", &server, tribes_slot(&server, n[k], &slot));
        must("copy", &client, tribes_copy(&client, slot, &copied, shown, TRIBES_MAX_FIELDS));
        printf("object %d: slot %u kind %u block %u:", k, slot, copied.kind, copied.block);
        for (uint32_t f = 0; f < copied.fields; f++) {
            int newest = tribes_settled(&server, n[k], f);
            wrong += newest != 1 || shown[f] < world[k][f] - 16 || shown[f] > world[k][f] + 16;
            printf(" %lld (world %lld, %s)", (long long)shown[f], (long long)world[k][f], newest == 1 ? "settled" : "not settled");
        }
        printf("\n");
    }
    for (uint32_t b = 0; b < 2; b++) {
        must("block", &client, tribes_block(&client, b, bytes, sizeof bytes, &count));
        wrong += count != lengths[b] || memcmp(bytes, b ? "drone" : "tank", count);
    }
    tribes_count counts, other;
    must("counts", &server, tribes_counts(&server, &counts));
    must("counts", &client, tribes_counts(&client, &other));
    printf("server: %u data packets sent, %u with a verdict, of which %ld were lost\n", counts.sent, counts.unjudged - 1, told_lost);
    wrong += counts.delivered != 200 || other.delivered != 200 || counts.moves != other.moves || counts.moves != accepted;
    uint32_t own = 99;
    int32_t has = tribes_control(&client, &own);
    wrong += has != 1 || own != 0 || got != 200 || said != 200 || accepted != sampled || told_lost > gone;
    printf("%s\n", wrong ? "wrong" : "both ends have the same");
    tribes_free(&server);
    tribes_free(&client);
    return wrong != 0;
}
