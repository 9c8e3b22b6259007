/* The client's side of joining, by `host` (docs/joining.md) or by `serve` (docs/serving.md): hello, answer and welcome; and under a key the
   tag of each datagram. */
#ifndef JOINING_H
#define JOINING_H

#include "match.h"
#include "tribes.h"

enum { TAG_ROOM = 16 }; /* bytes of a tag */

typedef struct {
    tribes_key key; /* tag_bytes 0: there is none */
    tribes_knock knock;
    uint64_t number; /* of this joining: what is no greeting has its tag under it */
    int challenged;  /* whether a host answered */
} joining;

/* Answers 0, or -1 where the system gives no random bytes. */
int joining_start(joining *j, const tribes_key *key, const tribes_kind *kinds, size_t kind_count, const tribes_field *fields, size_t field_count);
/* Puts what is to be sent for these bytes into a place with TAG_ROOM bytes more than they have: so many bytes. */
size_t joining_carry(joining *j, const uint8_t *bytes, size_t count, uint8_t *place);
/* Whether a datagram that came has its tag; the count is then without it. */
int joining_opens(joining *j, const uint8_t *bytes, size_t *count);
/* What a client says that is not welcomed yet, into TRIBES_MAX_DATAGRAM bytes: so many. */
size_t joining_says(joining *j, unsigned turn, uint8_t *place);
/* Hears what came to one that is not welcomed yet: 1 where it is now, with this configuration. */
int joining_hears(joining *j, const uint8_t *bytes, size_t count, tribes_config *config);
/* Why the server does not let this client in, or NULL. */
const char *joining_refused(const joining *j);

#endif
