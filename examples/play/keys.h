/* What the keys of a person, or the seed of a bot, make of the next move, and of the network in the client. */
#ifndef KEYS_H
#define KEYS_H

#include "session.h"

enum { UP, DOWN, RIGHT, LEFT, WAYS };
enum { MOST_TYPED = 20 };

/* The step is that of the turn; a shot is for one move. */
typedef struct {
    tribes_step step;
    int turns[WAYS];       /* turns that a press still goes that way */
    int held[WAYS];        /* whether the key is known to be down */
    unsigned order[WAYS], presses; /* of two keys against each other the one counts that was pressed last */
    int frozen, helps, types, quits;
    char typed[MOST_TYPED + 1];
} keys;

/* All that happened to keys since the last call. */
void keys_read(keys *k, session *s);
/* The step of a person's next turn. */
void keys_turn(keys *k);
/* The step of a bot's next turn: another way every half second, by the dice, now and then a shot, and now and then an event. */
void keys_of_bot(keys *k, session *s, uint32_t *dice);

#endif
