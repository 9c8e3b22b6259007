/* The screen in ncurses: screen.h says what is on it. */
#include "screen.h"
#include "terminal.h"
#include <ctype.h>
#include <ncurses.h>
#include <stdlib.h>
#include <sys/ioctl.h>
#include <unistd.h>

enum { PANEL = 29, SAID = 3, RED_TEAM = 1, BLUE_TEAM }; /* columns, lines of what was said */
enum { ORANGE = 208, SKY_BLUE = 39 };                    /* of 256 colours: told apart by the colour-blind too */

/* the map: the place in its middle, and how many centimetres a row is high and a column wide */
typedef struct { int rows, columns; int64_t x, y, high, wide; } view;

int screen_open(void) {
    if (!isatty(STDIN_FILENO) || !isatty(STDOUT_FILENO) || !initscr()) return -1;
    if (LINES < LEAST_ROWS || COLS < LEAST_COLUMNS) {
        endwin();
        return -1;
    }
    cbreak();
    noecho();
    typeahead(-1); /* what keys wait is none of ncurses' */
    curs_set(0);
    if (has_colors()) {
        start_color();
        use_default_colors();
        init_pair(RED_TEAM, COLORS < 256 ? COLOR_RED : ORANGE, -1);
        init_pair(BLUE_TEAM, COLORS < 256 ? COLOR_CYAN : SKY_BLUE, -1);
    }
    refresh(); /* the question goes to the screen that it is about */
    terminal_open();
    return 0;
}

void screen_close(void) {
    terminal_close();
    endwin();
}

/* the size that the terminal has by now */
static void fit(void) {
    struct winsize size;
    if (ioctl(STDOUT_FILENO, TIOCGWINSZ, &size) == 0 && (size.ws_row != LINES || size.ws_col != COLS)) resizeterm(size.ws_row, size.ws_col);
}

/* In full where the server is known to know that the client has it, dim until then. */
static attr_t shade(const session *s, uint32_t slot, uint32_t field) { return session_settled(s, slot, field) ? A_NORMAL : A_DIM; }

/* The middle of a map of so many rows or columns: the place, or as far from the field's end as the map reaches beyond no end. */
static int64_t middle_by(int64_t place, int64_t size, int count) {
    int64_t least = size * (count / 2), most = EDGE + 1 - size * (count - count / 2);
    return least > most ? (EDGE + 1) / 2 : place < least ? least : place > most ? most : place;
}

/* All that the player can see is on the map, whatever the terminal's size; a row is at least as high as two columns are wide. */
static view view_of(const session *s, int rows, int columns) {
    view v = {rows, columns, (EDGE + 1) / 2, (EDGE + 1) / 2, RADIUS / (rows / 2) + 1, RADIUS / (columns / 2) + 1};
    if (v.high < 2 * v.wide) v.high = 2 * v.wide;
    else v.wide = (v.high + 1) / 2;
    if (s->own.known) {
        v.x = middle_by(s->own.value.x + s->own.right, v.wide, columns);
        v.y = middle_by(s->own.value.y + s->own.down, v.high, rows);
    }
    return v;
}

/* the rows or columns from the map's beginning to a place; below 0 where the place is before it */
static int steps_to(int64_t place, int64_t middle, int64_t size, int count) {
    int64_t from = middle - size * (count / 2);
    return place < from ? -1 : (int)((place - from) / size);
}

static int held_in(int place, int count) { return place < 0 ? 0 : place >= count ? count - 1 : place; }

/* a character on the map; one that is kept on it stands at its edge where its place lies further away */
static void put_on_map(const view *v, int64_t x, int64_t y, int is_kept, chtype character) {
    int row = steps_to(y, v->y, v->high, v->rows), column = steps_to(x, v->x, v->wide, v->columns);
    if (is_kept) row = held_in(row, v->rows), column = held_in(column, v->columns);
    if (row >= 0 && row < v->rows && column >= 0 && column < v->columns) mvaddch(1 + row, column, character);
}

/* the ground: a point at each whole 8,192 centimetres, and on a map that is larger than the field what lies outside */
static void draw_ground(const view *v) {
    for (int row = 0; row < v->rows; row++)
        for (int column = 0; column < v->columns; column++) {
            int64_t x = v->x + v->wide * (column - v->columns / 2), y = v->y + v->high * (row - v->rows / 2);
            int outside = x + v->wide <= 0 || x > EDGE || y + v->high <= 0 || y > EDGE;
            int point = x / 8192 != (x + v->wide) / 8192 && y / 8192 != (y + v->high) / 8192;
            mvaddch(1 + row, column, (outside ? ':' : point ? '.' : ' ') | A_DIM);
        }
}

/* Who plays for whom is in the block of a made match: a player's, and that of a disc that he fired, is his number modulo 4. A free flag
   lies at home, and only the other team can hold one. Each team has its own letters, beside its colour. */
static chtype look_of(const copy *c) {
    int blue = (int)(c->block & 1);
    if (c->kind == FLAG) blue = c->values[HOLDER] ? (int)(c->values[HOLDER] & 1) : c->values[X] > EDGE / 2;
    chtype colour = (chtype)COLOR_PAIR(blue ? BLUE_TEAM : RED_TEAM);
    switch (c->kind) {
    case PLAYER: return (blue ? 'B' : 'R') | colour;
    case DISC: return (blue ? '+' : '*') | colour;
    case MINE: return c->values[ARMED] ? 'M' : 'm';
    case DRONE: return 'd';
    default: return (blue ? 'P' : 'F') | colour;
    }
}

/* kind by kind, so that players lie above all else, each where it is drawn at this moment; the own player where he is predicted, and apart what was told of him */
static void draw_map(session *s, const view *v) {
    static const uint32_t order[] = {MINE, DRONE, DISC, FLAG, PLAYER};
    copy c, own;
    int has_own = session_own(s, &own);
    draw_ground(v);
    for (int i = 0; i < 5; i++)
        for (uint32_t from = 0; session_drawn(s, from, &c); from = c.slot + 1) {
            attr_t dim = shade(s, c.slot, X) | shade(s, c.slot, Y);
            if (c.kind != order[i] || (has_own && c.slot == own.slot)) continue;
            put_on_map(v, c.values[X], c.values[Y], c.kind == FLAG, look_of(&c) | dim);
        }
    if (has_own) put_on_map(v, own.values[X], own.values[Y], 0, 'o' | A_DIM);
    if (s->own.known) put_on_map(v, s->own.value.x + s->own.right, s->own.value.y + s->own.down, 1, '@' | A_BOLD);
}

static void put_field(const session *s, const copy *c, uint32_t field, const char *form) {
    attr_t dim = shade(s, c->slot, field);
    attron(dim);
    printw(form, (long long)c->values[field]);
    attroff(dim);
}

static void draw_player(session *s, int at) {
    copy c;
    if (s->own.known) {
        mvprintw(1, at, "you %9lld %9lld", (long long)s->own.value.x, (long long)s->own.value.y);
        mvprintw(2, at, "offset %6lld %9lld", (long long)s->own.right, (long long)s->own.down);
    }
    if (session_own(s, &c) && c.kind == PLAYER) {
        mvaddstr(3, at, "told");
        put_field(s, &c, X, " %8lld");
        put_field(s, &c, Y, " %9lld");
        move(4, at);
        put_field(s, &c, HP, "hp %lld");
        put_field(s, &c, AMMO, "  ammo %lld");
        put_field(s, &c, SCORE, "  score %lld");
    }
    for (uint32_t from = 0; session_copy(s, from, &c); from = c.slot + 1)
        if (c.kind == CLOCK) {
            move(6, at);
            put_field(s, &c, TICK, "clock %lld");
            move(7, at);
            put_field(s, &c, RED, "red %lld");
            put_field(s, &c, BLUE, "  blue %lld");
        }
}

static void draw_figures(session *s, int at) {
    int copies = 0;
    copy c;
    for (uint32_t from = 0; session_copy(s, from, &c); from = c.slot + 1) copies++;
    mvprintw(8, at, "packet %u  copies %d", s->counts.taken, copies);
    mvprintw(9, at, "moves %u  accepted %u", s->counts.moves, s->counts.accepted);
    mvprintw(10, at, "round trip %lld ms", (long long)s->round_trip);
    mvprintw(11, at, "lost   down %d%% up %d%%", session_percent(&s->down), session_percent(&s->up));
    mvprintw(12, at, "bytes/s down %u up %u", s->received_then, s->sent_then);
    mvprintw(13, at, "taken %u  refused %u", s->taken, s->refused);
    mvprintw(14, at, "moment %llu", (unsigned long long)s->others.at);
    mvaddstr(15, at, "the network in here");
    mvprintw(16, at, "loss    %3u %%     1 -  2 +", s->net.loss);
    mvprintw(17, at, "delay   %3u ms    3 -  4 +", s->net.delay);
    mvprintw(18, at, "repeats %3u %%     5 -  6 +", s->net.repeats);
}

/* What was said, as one tells it. The client's number stands before the words. */
static void draw_line(const session *s, int row, const said *line) {
    const char *words = line->text;
    while (isdigit((unsigned char)*words)) words++;
    int has_number = words != line->text && words[0] == ':' && words[1] == ' ', came = session_came(s, line);
    words = has_number ? words + 2 : line->text;
    if (line->is_own) {
        attron(came ? A_NORMAL : A_DIM);
        mvprintw(row, 1, "you say: %s%s", words, line->was_refused ? "  (not sent: too much waits)" : came ? "" : "  (on its way)");
        attroff(A_DIM);
    } else if (has_number) mvprintw(row, 1, "player %d says: %s", atoi(line->text), words);
    else mvprintw(row, 1, "an event came: %s", words);
}

static void draw_said(const session *s, int row) {
    mvhline(row, 0, '-', COLS);
    mvprintw(row, 2, " events %u ", s->events);
    for (unsigned i = 0; i < SAID; i++)
        if (s->lines + i >= SAID) draw_line(s, row + 1 + (int)i, &s->last[(s->lines + i - SAID) % KEPT_LINES]);
}

static void draw_help(void) {
    static const char *const lines[] = {
        "@  you, where you are predicted to be",
        "o  you, where the server last told you are",
        "R B  players, for red and for blue",
        "* +  discs of red, of blue",
        "F P  the flags of red, of blue",
        "m M  mines, unarmed and armed",
        "d    drones",
        ".    points 81.92 metres apart",
        "dim: the server may have to tell it again",
        "",
        "arrows, wasd  go; x stops",
        "space  a shot         e  open or close the hand",
        "Enter  say something  p  freeze the picture",
        "1 2  3 4  5 6  a worse network; 0 a good one",
        "?  the map again      q  end",
    };
    for (int i = 0; i < (int)(sizeof lines / sizeof *lines); i++) mvaddstr(2 + i, 2, lines[i]);
}

static void draw_last_line(const around *a) {
    const char *go = terminal_tells_releases() ? "arrows go while held" : "an arrow goes a step";
    if (a->typed) mvprintw(LINES - 1, 0, "say: %s_   (Enter says it, Escape does not)", a->typed);
    else mvprintw(LINES - 1, 0, "%s  space fire  e hand  Enter say  p freeze  ? help  q quit", go);
}

void screen_draw(session *s, const around *a) {
    fit();
    erase();
    if (LINES < LEAST_ROWS || COLS < LEAST_COLUMNS) {
        mvprintw(0, 0, "the screen is smaller than %d x %d", LEAST_COLUMNS, LEAST_ROWS);
        refresh();
        return;
    }
    view v = view_of(s, LINES - SAID - 3, COLS - PANEL - 1);
    mvprintw(0, 0, "tribes  %s  turn %u", a->server, s->turns);
    if (s->welcomed) printw("  client %u, %s", s->config.client, s->config.client & 1 ? "blue" : "red");
    attron(A_BOLD);
    printw("  %s", a->state);
    attroff(A_BOLD);
    if (a->helps) draw_help();
    else draw_map(s, &v);
    draw_player(s, COLS - PANEL);
    draw_figures(s, COLS - PANEL);
    draw_said(s, LINES - SAID - 2);
    draw_last_line(a);
    refresh();
}
