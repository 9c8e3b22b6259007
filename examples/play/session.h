/* One client of a served match: how it joins, its end of the connection, its predicted player, its figures. */
#ifndef SESSION_H
#define SESSION_H

#include "drawn.h"
#include "joining.h"
#include "match.h"
#include "network.h"
#include "predict.h"
#include "tribes.h"
#include <stdio.h>

enum { KEPT_LINES = 8 };
enum { LOST_AFTER = 5000 }; /* milliseconds of silence */

/* what became of the last 64 of something, the newest in bit 0; a bit is set where it was lost */
typedef struct { uint64_t lost; int count; } history;

/* what was said: an event that came, or own words, which come as event `number` to the server */
typedef struct { int is_own, was_refused; uint32_t number; char text[TRIBES_MAX_EVENT + 1]; } said;

typedef struct {
    network net;
    tribes_end end;
    int welcomed;
    tribes_config config;         /* as the welcome said */
    joining joining;
    prediction own;
    drawn others;
    int64_t heard;                /* when the last datagram was taken, or the start */
    int64_t sent_at[64];          /* when data packet n was sent, at n modulo 64 */
    uint32_t known;               /* the last packet of this client that the server is known to have */
    uint32_t tells[TRIBES_MAX_SLOTS][MOST_FIELDS]; /* the packet of this client that tells the server that it has the field */
    tribes_count counts;          /* what the end counted by now */
    history down, up;
    int64_t round_trip;           /* milliseconds, smoothed; 0: not known */
    unsigned turns, taken, refused, events;
    uint64_t sent, received;      /* bytes that went through the socket up to the last whole second, and in that second */
    unsigned sent_then, received_then;
    unsigned lines;               /* what was said by now, both ways */
    said last[KEPT_LINES];        /* line n at n modulo KEPT_LINES */
    uint32_t places, posted;      /* how many guaranteed events may wait for the server; how many were posted */
    FILE *demo;                   /* where what was taken is kept (docs/demos.md), or NULL */
} session;

/* what a copy shows */
typedef struct { uint32_t slot, kind, block; int64_t values[TRIBES_MAX_FIELDS]; } copy;

/* Answers 0, or -1 where the system gives no socket (errno). */
int session_start(session *s, const struct sockaddr_in *server, const tribes_key *key, uint32_t seed, int64_t now);
/* Takes what came. */
void session_listen(session *s, int64_t now);
/* The end of a turn: says hello; or samples the move, and sends a datagram. */
void session_turn(session *s, const tribes_step *move, int64_t now);
/* Says the words to all others, with the client's number before them, cut to TRIBES_MAX_EVENT bytes: as a guaranteed event, which comes,
   and in order, whatever is lost. */
void session_say(session *s, const char *words);
/* Whether the server is known to have what was said. */
int session_came(const session *s, const said *line);
/* The copy in the least slot from `from` on, in order to draw all: 0 where there is none. */
int session_copy(session *s, uint32_t from, copy *c);
/* The same of what is drawn at the moment of the last `session_frame`: a little behind the copies, between the packets that came. */
int session_drawn(session *s, uint32_t from, copy *c);
/* A picture is drawn now. */
void session_frame(session *s, int64_t now);
/* The own player's copy: 0 where there is none. */
int session_own(session *s, copy *c);
/* Whether the server is known to know that this client has the field's value. Until then it may send the field again. */
int session_settled(const session *s, uint32_t slot, uint32_t field);
/* Of the last 64, how many of 100 were lost. */
int session_percent(const history *h);
void session_end(session *s);

#endif
