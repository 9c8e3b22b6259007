/* Keys, and the moves of a bot: keys.h says what they make. */
#include "keys.h"
#include "terminal.h"
#include <string.h>

/* A press goes a step: so many turns, about a column of the map. Where releases are told it goes on until then, and at least a turn. */
enum { FULL_STEP = 7, STEP_TURNS = 5 };

static void stand(keys *k) {
    memset(k->turns, 0, sizeof k->turns);
    memset(k->held, 0, sizeof k->held);
}

static void steer(keys *k, int way, deed deed) {
    if (deed == RELEASED) k->held[way] = 0;
    if (deed != PRESSED) return;
    k->turns[way ^ 1] = 0;
    k->held[way] = terminal_tells_releases();
    k->turns[way] = k->held[way] ? 1 : STEP_TURNS;
    k->order[way] = ++k->presses;
}

static int goes(const keys *k, int way) { return k->held[way] || k->turns[way]; }

/* the move along one axis: forth, back or not */
static int32_t along(const keys *k, int forth, int back) {
    if (goes(k, forth) && goes(k, back)) return k->order[forth] > k->order[back] ? FULL_STEP : -FULL_STEP;
    return goes(k, forth) ? FULL_STEP : goes(k, back) ? -FULL_STEP : 0;
}

void keys_turn(keys *k) {
    k->step.dx = along(k, RIGHT, LEFT);
    k->step.dy = along(k, DOWN, UP);
    for (int way = 0; way < WAYS; way++) k->turns[way] -= k->turns[way] > 0;
}

static void change(unsigned *value, int by, int most) {
    int to = (int)*value + by;
    *value = (unsigned)(to < 0 ? 0 : to > most ? most : to);
}

static void begin_text(keys *k) {
    stand(k);
    k->types = 1;
    memset(k->typed, 0, sizeof k->typed);
    terminal_types(1);
}

/* a text is typed until Enter sends it, or Escape doesn't */
static void type(keys *k, session *s, int key) {
    size_t length = strlen(k->typed);
    if (key == ENTER && length) session_say(s, k->typed);
    if (key == ENTER || key == ESCAPE) terminal_types(k->types = 0);
    else if (key == DELETE && length) k->typed[length - 1] = 0;
    else if (key >= ' ' && key <= '~' && length < MOST_TYPED) k->typed[length] = (char)key;
}

static void change_network(network *n, int key) {
    if (key == '1' || key == '2') change(&n->loss, key == '1' ? -10 : 10, 90);
    if (key == '3' || key == '4') change(&n->delay, key == '3' ? -50 : 50, 500);
    if (key == '5' || key == '6') change(&n->repeats, key == '5' ? -10 : 10, 50);
    if (key == '0') n->loss = n->delay = n->repeats = 0;
}

static int way_of(int key) {
    switch (key) {
    case ARROW_UP: case 'w': return UP;
    case ARROW_DOWN: case 's': return DOWN;
    case ARROW_RIGHT: case 'd': return RIGHT;
    case ARROW_LEFT: case 'a': return LEFT;
    default: return WAYS;
    }
}

/* a key that does something when it goes down */
static void press(keys *k, int key) {
    switch (key) {
    case 'x': stand(k); break;
    case 'e': k->step.act = !k->step.act; break;
    case 'p': k->frozen = !k->frozen; break;
    case '?': case 'h': k->helps = !k->helps; break;
    case 'q': k->quits = 1; break;
    case ENTER: begin_text(k); break;
    }
}

static void stroke_on_map(keys *k, session *s, stroke stroke) {
    int way = way_of(stroke.key);
    if (way < WAYS) steer(k, way, stroke.deed);
    else if (stroke.key == OUT_OF_FOCUS) stand(k);
    else if (stroke.deed == PRESSED) press(k, stroke.key);
    if (stroke.deed == RELEASED) return;
    if (stroke.key == ' ') k->step.fire = 1;
    change_network(&s->net, stroke.key);
}

void keys_read(keys *k, session *s) {
    for (stroke stroke; terminal_stroke(&stroke);) {
        if (stroke.key == CONTROL_C) k->quits = 1;
        else if (!k->types) stroke_on_map(k, s, stroke);
        else if (stroke.deed != RELEASED) type(k, s, stroke.key);
    }
}

static uint32_t draw(uint32_t *dice, uint32_t below) {
    *dice = *dice * 1664525u + 1013904223u;
    return (*dice >> 8) % below;
}

void keys_of_bot(keys *k, session *s, uint32_t *dice) {
    if (s->turns % 10 == 0) {
        k->step.dx = (int32_t)draw(dice, 2 * FULL_STEP + 1) - FULL_STEP;
        k->step.dy = (int32_t)draw(dice, 2 * FULL_STEP + 1) - FULL_STEP;
    }
    k->step.act = 1;
    k->step.fire = draw(dice, 16) == 0;
    if (draw(dice, 60) == 0) session_say(s, "bot");
}
