/* What a client has to know of a match: its kinds and their fields (docs/world.md, "Kinds"), and some of its numbers. */
#ifndef MATCH_H
#define MATCH_H

enum { PLAYER, DISC, MINE, DRONE, FLAG, CLOCK, KINDS };

/* fields by their place in a kind: X and Y of all but a clock, then those of each kind */
enum { X, Y, HP, AMMO, SCORE, ARMED = 2, HOLDER = 2, TICK = 0, RED, BLUE, MOST_FIELDS = 5 };

enum {
    EDGE = 65535,   /* the field's last centimetre, either way */
    STEP = 25,      /* centimetres that a player goes in a turn for each unit of its move */
    RADIUS = 16000, /* how far a player of a made match sees, in centimetres (docs/maker.md) */
    TURN = 50,      /* milliseconds */
    FRAME = 25,     /* milliseconds from one picture to the next */
    MOVE_BITS = 10  /* a step each way and two flags */
};

#endif
