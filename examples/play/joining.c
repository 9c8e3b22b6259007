/* The client's side of joining: joining.h says what it does. */
#include "joining.h"
#include <string.h>
#include <sys/random.h>

enum { SERVE_HELLO = 2, SERVE_WELCOME = 3, LIFE = 16777215, SIZE = 400, VERSION = 1 };

/* a number in bytes: the least one first */
static uint32_t number_at(const uint8_t *bytes, unsigned count) {
    uint32_t number = 0;
    for (unsigned i = 0; i < count; i++) number |= (uint32_t)bytes[i] << 8 * i;
    return number;
}

int joining_start(joining *j, const tribes_key *key, const tribes_kind *kinds, size_t kind_count, const tribes_field *fields, size_t field_count) {
    static const char word[] = "tribes match";
    tribes_config made = {0, LIFE, SIZE, VERSION, MOVE_BITS};
    tribes_digest protocol;
    tribes_reason why;
    memset(j, 0, sizeof *j);
    j->key = *key;
    if (getrandom(&j->knock.nonce, sizeof j->knock.nonce, 0) != (ssize_t)sizeof j->knock.nonce) return -1;
    if (tribes_protocol(&made, kinds, kind_count, fields, field_count, (const uint8_t *)word, sizeof word - 1, &protocol, &why) < 0) return -1;
    memcpy(j->knock.protocol, protocol.bytes, sizeof protocol.bytes);
    return 0;
}

/* whether it is a datagram of a greeting, and so has the number 0 */
static int is_greeting(const uint8_t *bytes, size_t count) { return count > 0 && (bytes[0] & 3) == 3; }

size_t joining_carry(joining *j, const uint8_t *bytes, size_t count, uint8_t *place) {
    size_t total = 0;
    memcpy(place, bytes, count);
    return tribes_tag(&j->key, is_greeting(bytes, count) ? 0 : j->number, place, count + TAG_ROOM, count, &total) < 0 ? 0 : total;
}

int joining_opens(joining *j, const uint8_t *bytes, size_t *count) {
    return tribes_verify(&j->key, is_greeting(bytes, *count) ? 0 : j->number, bytes, *count, count) >= 0;
}

size_t joining_says(joining *j, unsigned turn, uint8_t *place) {
    tribes_greeting said;
    /* `serve` has a hello of its own: who does not know which of both is there says them in turn */
    if (!j->key.tag_bytes && !j->challenged && turn % 2) {
        place[0] = SERVE_HELLO;
        memcpy(place + 1, &j->knock.nonce, 4);
        return 5;
    }
    if (tribes_knock_write(&j->knock, (const uint8_t *)"", 0, &said) < 0 || !said.count) return 0;
    return joining_carry(j, said.bytes, said.count, place);
}

int joining_hears(joining *j, const uint8_t *bytes, size_t count, tribes_config *config) {
    tribes_nonce number = j->knock.number;
    if (!j->key.tag_bytes && count == 12 && bytes[0] == SERVE_WELCOME && !memcmp(bytes + 1, &j->knock.nonce, 4)) {
        *config = (tribes_config){bytes[5], number_at(bytes + 6, 3), number_at(bytes + 9, 2), bytes[11], MOVE_BITS};
        return 1;
    }
    tribes_knock_hear(&j->knock, bytes, count);
    j->challenged = j->knock.reached == 1;
    if (j->knock.reached != 2) return 0;
    const uint8_t *terms = j->knock.terms;
    j->number = number.low;
    *config = (tribes_config){j->knock.client, number_at(terms, 4), number_at(terms + 4, 4), terms[8], MOVE_BITS};
    return 1;
}

const char *joining_refused(const joining *j) {
    static const char *reasons[] = {"", "it speaks another version", "it has other kinds, or is another game", "it is full", "it does not take us"};
    return j->knock.reached == 3 && j->knock.reason <= 4 ? reasons[j->knock.reason] : NULL;
}
