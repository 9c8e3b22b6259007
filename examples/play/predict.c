/* Prediction of the own player: predict.h says what it is. */
#include "predict.h"
#include "match.h"
#include <stdlib.h>

enum { MOST_OFFSET = 1000 }; /* centimetres: a correction that would pass it is shown at once */

static int64_t inside(int64_t place) { return place < 0 ? 0 : place > EDGE ? EDGE : place; }

/* one move of a player who stands, as a tick of the server makes it (docs/world.md, "Players") */
static standing moved(standing at, uint64_t move) {
    tribes_step step = tribes_step_of_move(move);
    at.x = inside(at.x + STEP * step.dx);
    at.y = inside(at.y + STEP * step.dy);
    if (step.fire && at.ammo > 0) at.ammo--;
    return at;
}

void predict_told(prediction *p, const standing *base, const uint64_t *pending, uint32_t count) {
    standing value = base ? *base : (standing){0, 0, 0};
    for (uint32_t n = 0; base && n < count; n++) value = moved(value, pending[n]);
    /* shown is value + offset: the offset takes up what the value jumps, so that nothing shown does */
    int64_t right = p->value.x + p->right - value.x, down = p->value.y + p->down - value.y;
    int slides = base && p->known && llabs(right) <= MOST_OFFSET && llabs(down) <= MOST_OFFSET;
    p->right = slides ? right : 0;
    p->down = slides ? down : 0;
    p->known = base != NULL;
    p->value = value;
}

void predict_sampled(prediction *p, uint64_t move) {
    p->value = moved(p->value, move);
    p->right = 3 * p->right / 4; /* C cuts towards 0, as the rule does */
    p->down = 3 * p->down / 4;
}
