/* Where the own player is once the server has taken all of his moves, so that he is shown there at once: the rules of
   docs/prediction.md, which crates/client_predict has proved in Rattle, in C. */
#ifndef PREDICT_H
#define PREDICT_H

#include "tribes.h"

typedef struct { int64_t x, y, ammo; } standing;

/* Zeros are a prediction that was told nothing. */
typedef struct {
    int known;               /* whether there is a value */
    standing value;          /* what was told last, and on it all pending moves */
    int64_t right, down;     /* how far from there the player is shown: what is left of corrections */
} prediction;

/* A data packet came: the player as its copy shows him, or NULL where it gives none, and the moves that are pending then. */
void predict_told(prediction *p, const standing *base, const uint64_t *pending, uint32_t count);

/* A move was sampled, and is pending from now on. */
void predict_sampled(prediction *p, uint64_t move);

#endif
