/* Where the others are drawn: between the packets that came, a little behind the last one, by the library's timeline and clock
   (docs/timeline.md), so that lost and late packets do not show. */
#ifndef DRAWN_H
#define DRAWN_H

#include "match.h"
#include "tribes.h"

/* Zeros draw nothing. */
typedef struct {
    tribes_timeline timeline;
    tribes_clock clock;
    uint64_t at;                      /* the moment that is drawn: 256 to a packet */
    uint32_t blocks[TRIBES_MAX_SLOTS]; /* of the copy that began last in each slot */
} drawn;

/* Answers 0, or below 0 where memory lacks. */
int32_t drawn_open(drawn *d, int64_t now);
/* A data packet came. */
void drawn_took(drawn *d, tribes_end *end, uint32_t packet, int64_t now);
/* Goes on to the moment of this time. */
void drawn_read(drawn *d, int64_t now);
/* What is drawn in the slot: 0 where nothing is. */
int drawn_in(drawn *d, uint32_t slot, uint32_t *kind, uint32_t *block, int64_t *values);
void drawn_close(drawn *d);

#endif
