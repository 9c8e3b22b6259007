/* Where the others are drawn: drawn.h says how. */
#include "drawn.h"

enum { STEPPED, LINEAR, DELAY = 2, AHEAD = 2 }; /* packets */
/* The clock can be a second behind: the values of 20 packets and of its delay are kept, and some more. */
enum { DEPTH = 32 };

/* places go along lines, and all else stays until its next value's moment */
static const tribes_way ways[KINDS][MOST_FIELDS] = {
    [PLAYER] = {{.how = LINEAR}, {.how = LINEAR}}, [DISC] = {{.how = LINEAR}, {.how = LINEAR}}, [MINE] = {{.how = LINEAR}, {.how = LINEAR}},
    [DRONE] = {{.how = LINEAR}, {.how = LINEAR}},  [FLAG] = {{.how = LINEAR}, {.how = LINEAR}},
};

int32_t drawn_open(drawn *d, int64_t now) {
    static const tribes_shape shape = {TRIBES_MAX_SLOTS, MOST_FIELDS, DEPTH};
    static const tribes_pace pace = {TURN, DELAY, AHEAD};
    int32_t code = tribes_timeline_open(&d->timeline, &shape, ways[0], KINDS * MOST_FIELDS);
    return code < 0 ? code : tribes_clock_start(&d->clock, &pace, (uint64_t)now);
}

void drawn_took(drawn *d, tribes_end *end, uint32_t packet, int64_t now) {
    tribes_change changes[TRIBES_MAX_CHANGES];
    tribes_copied copied;
    int64_t values[TRIBES_MAX_FIELDS];
    uint32_t count;
    tribes_clock_came(&d->clock, packet, (uint64_t)now);
    tribes_timeline_take(&d->timeline, end);
    if (tribes_changes(end, changes, TRIBES_MAX_CHANGES, &count) < 0) return;
    for (uint32_t i = 0; i < count; i++)
        if (changes[i].what == 1 && tribes_copy(end, changes[i].slot, &copied, values, TRIBES_MAX_FIELDS) == 0) d->blocks[changes[i].slot] = copied.block;
}

void drawn_read(drawn *d, int64_t now) { tribes_clock_moment(&d->clock, (uint64_t)now, &d->at); }

int drawn_in(drawn *d, uint32_t slot, uint32_t *kind, uint32_t *block, int64_t *values) {
    if (tribes_timeline_kind(&d->timeline, slot, d->at, kind) != 1) return 0;
    *block = d->blocks[slot];
    for (uint32_t f = 0; f < MOST_FIELDS; f++)
        if (tribes_timeline_value(&d->timeline, slot, f, d->at, &values[f]) != 1) values[f] = 0;
    return 1;
}

void drawn_close(drawn *d) { tribes_timeline_free(&d->timeline); }
