/* Where a cipher goes: behind tribes_pack and before tribes_arrive. Both ends of a connection in one process, whose datagrams are encrypted by
   libsodium, an authenticated cipher, under one key. Nobody in between reads or changes them; the cipher's own tag takes the place of tribes_tag.

       cc -O2 -Iinclude examples/library/cipher.c crates/tribes_link/out/libtribes.a -lsodium -o cipher

   Each datagram has its number in front, 8 bytes, which no end uses twice under a key: with the way, it is the cipher's nonce. A datagram that comes
   twice is opened twice; the connection refuses the second. It prints the copy's values, and that a changed and a reflected datagram are refused. */
#include "tribes.h"
#include <sodium.h>
#include <stdio.h>
#include <string.h>

enum { NUMBER = 8, MORE = NUMBER + crypto_aead_chacha20poly1305_ietf_ABYTES, TURNS = 3 };

/* one end of the link: the key of both, the way of what it sends, and how many datagrams it sent */
typedef struct {
    uint8_t key[crypto_aead_chacha20poly1305_ietf_KEYBYTES];
    uint8_t way;
    uint64_t sent;
} cipher;

/* the way, and the number of the datagram */
static void nonce_of(uint8_t way, const uint8_t *number, uint8_t *nonce) {
    memset(nonce, 0, crypto_aead_chacha20poly1305_ietf_NPUBBYTES);
    nonce[0] = way;
    memcpy(nonce + 4, number, NUMBER);
}

/* puts number and encrypted bytes into a place of MORE bytes more; how many they are */
static size_t encrypt(cipher *c, const uint8_t *bytes, size_t count, uint8_t *place) {
    uint8_t nonce[crypto_aead_chacha20poly1305_ietf_NPUBBYTES];
    unsigned long long made;
    c->sent++;
    for (int i = 0; i < NUMBER; i++) place[i] = (uint8_t)(c->sent >> 8 * i);
    nonce_of(c->way, place, nonce);
    crypto_aead_chacha20poly1305_ietf_encrypt(place + NUMBER, &made, bytes, count, NULL, 0, NULL, nonce, c->key);
    return NUMBER + (size_t)made;
}

/* the bytes of a datagram of the other end; -1 where it is none */
static long decrypt(const cipher *c, const uint8_t *bytes, size_t count, uint8_t *place) {
    uint8_t nonce[crypto_aead_chacha20poly1305_ietf_NPUBBYTES];
    unsigned long long made;
    if (count < MORE) return -1;
    nonce_of(!c->way, bytes, nonce);
    if (crypto_aead_chacha20poly1305_ietf_decrypt(place, &made, NULL, bytes + NUMBER, count - NUMBER, NULL, 0, nonce, c->key)) return -1;
    return (long)made;
}

int main(void) {
    tribes_config config = {0, 1000000, 600, 3, 22};
    tribes_kind kinds[] = {{2, 8}};
    tribes_field fields[] = {{0, 65535, 16}, {0, 100, 7}};
    tribes_end server = {0}, client = {0};
    tribes_reason why;
    static tribes_ask asks[TRIBES_MAX_ASKS];
    uint8_t packed[TRIBES_MAX_DATAGRAM], sent[TRIBES_MAX_DATAGRAM + MORE], came[TRIBES_MAX_DATAGRAM + MORE];
    cipher of_server = {.way = 1}, of_client = {.way = 0};
    int64_t tank[] = {1200, 80}, values[TRIBES_MAX_FIELDS];
    uint32_t n, length = 4, moves, slot;
    size_t count;
    tribes_copied copied;
    if (sodium_init() < 0) return 1;
    crypto_aead_chacha20poly1305_ietf_keygen(of_server.key);
    memcpy(of_client.key, of_server.key, sizeof of_client.key);
    if (tribes_server(&server, &config, kinds, 1, fields, 2, (const uint8_t *)"tank", 4, &length, 1, &why)) return 1;
    if (tribes_client(&client, &config, kinds, 1, fields, 2, &why)) return 1;
    tribes_show(&server, &(tribes_object){0, 0, 0, 1}, &n);
    for (int turn = 0; turn < TURNS; turn++) {
        tribes_plan(&server, asks, TRIBES_MAX_ASKS, &count);
        for (size_t k = 0; k < count; k++) values[k] = tank[asks[k].field];
        tribes_pack(&server, values, count, packed, sizeof packed, &count);
        count = encrypt(&of_server, packed, count, sent);
        long opened = decrypt(&of_client, sent, count, came);
        if (opened >= 0) tribes_arrive(&client, came, (size_t)opened, 0, &moves);
        tribes_pack(&client, values, 0, packed, sizeof packed, &count);
        count = encrypt(&of_client, packed, count, sent);
        opened = decrypt(&of_server, sent, count, came);
        if (opened >= 0) tribes_arrive(&server, came, (size_t)opened, 0, &moves);
    }
    if (tribes_control(&client, &slot) != 1 || tribes_copy(&client, slot, &copied, values, TRIBES_MAX_FIELDS) < 0) return 1;
    printf("copy %lld %lld\n", (long long)values[0], (long long)values[1]);
    printf("reflected: %s\n", decrypt(&of_client, sent, count, came) < 0 ? "refused" : "taken");
    sent[NUMBER] ^= 1;
    printf("changed: %s\n", decrypt(&of_server, sent, count, came) < 0 ? "refused" : "taken");
    tribes_free(&server);
    tribes_free(&client);
    return 0;
}
