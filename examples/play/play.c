/* A client for people of a match that `./tribes serve` serves, in C over the linked library; docs/play.md says how it looks.

       play [ADDRESS:PORT] [--bot SEED [SECONDS]] [--demo FILE] [--key FILE]

   A turn of 50 milliseconds: what came is taken (session.c), the own player is predicted (predict.c), the move of the keys is sampled and
   goes out by a network that the keys can make bad (network.c), and the screen is drawn (screen.c). With --bot there is no screen, and the
   moves come from a number. The library does the rest: what was lost is told again, events come in order, moves are taken once. */
#include "keys.h"
#include "screen.h"
#include <arpa/inet.h>
#include <ctype.h>
#include <errno.h>
#include <poll.h>
#include <signal.h>
#include <stdlib.h>
#include <string.h>
#include <time.h>
#include <unistd.h>

enum { DONE, FAILED, USAGE };

typedef struct {
    struct sockaddr_in server;
    const char *demo;
    tribes_key key;
    int is_bot;
    uint32_t seed;
    int64_t ends; /* after so many milliseconds */
} words;

static int64_t milliseconds(void) {
    struct timespec now;
    clock_gettime(CLOCK_MONOTONIC, &now);
    return now.tv_sec * INT64_C(1000) + now.tv_nsec / 1000000;
}

/* ---- the words */

static int is_number(const char *word, uint32_t most, uint32_t *number) {
    char *end;
    errno = 0;
    unsigned long long value = strtoull(word, &end, 10);
    *number = (uint32_t)value;
    return isdigit((unsigned char)*word) && !*end && !errno && value <= most;
}

static int is_server(const char *word, struct sockaddr_in *server) {
    char address[INET_ADDRSTRLEN];
    const char *colon = strchr(word, ':');
    uint32_t port;
    if (!colon || colon - word >= (long)sizeof address || !is_number(colon + 1, 65535, &port) || !port) return 0;
    memcpy(address, word, (size_t)(colon - word));
    address[colon - word] = 0;
    *server = (struct sockaddr_in){.sin_family = AF_INET, .sin_port = htons((uint16_t)port)};
    return inet_pton(AF_INET, address, &server->sin_addr) == 1;
}

static int usage(const char *word) {
    fprintf(stderr, "play: '%s' does not stand there; wanted is play [ADDRESS:PORT] [--bot SEED [SECONDS]] [--demo FILE] [--key FILE]\n", word);
    return USAGE;
}

/* The key of a file: 64 digits of base 16 in one line. */
static int read_key(const char *path, tribes_key *key) {
    char line[66] = "";
    FILE *file = fopen(path, "r");
    int right = file && fgets(line, sizeof line, file) && strspn(line, "0123456789abcdefABCDEF") == 64 && (!line[64] || line[64] == '\n');
    if (file) fclose(file);
    for (int i = 0; right && i < 32; i++) {
        char digits[] = {line[2 * i], line[2 * i + 1], 0};
        key->key[i] = (uint8_t)strtoul(digits, NULL, 16);
    }
    key->tag_bytes = TAG_ROOM;
    return right;
}

static int read_words(int count, char **word, words *w) {
    uint32_t seconds;
    int i = 1;
    *w = (words){.ends = INT64_MAX};
    is_server("127.0.0.1:28000", &w->server);
    if (i < count && word[i][0] != '-' && !is_server(word[i++], &w->server)) return usage(word[i - 1]);
    if (i < count && !strcmp(word[i], "--bot")) {
        w->is_bot = 1;
        if (++i >= count || !is_number(word[i++], UINT32_MAX, &w->seed)) return usage(word[i - 1]);
        if (i < count && word[i][0] != '-') {
            if (!is_number(word[i++], 1000000, &seconds)) return usage(word[i - 1]);
            w->ends = seconds * INT64_C(1000);
        }
    }
    if (i + 1 < count && !strcmp(word[i], "--demo")) w->demo = word[i + 1], i += 2;
    if (i + 1 < count && !strcmp(word[i], "--key")) {
        if (!read_key(word[i + 1], &w->key)) return usage(word[i + 1]);
        i += 2;
    }
    return i < count ? usage(word[i]) : DONE;
}

/* ---- turns */

static volatile sig_atomic_t was_stopped;

static void stop_at(int signal) { was_stopped = signal; }

/* A signal ends the turns, and so the terminal is left as it was. */
static void hear_signals(void) {
    struct sigaction act = {.sa_handler = stop_at};
    sigaction(SIGINT, &act, NULL);
    sigaction(SIGTERM, &act, NULL);
    sigaction(SIGHUP, &act, NULL);
}

static void wait_until(const session *s, int is_bot, int64_t then) {
    struct pollfd from[] = {{s->net.socket, POLLIN, 0}, {STDIN_FILENO, POLLIN, 0}};
    int64_t wait = then - milliseconds(), most = s->net.count ? 2 : TURN; /* what waits in the bad network may be due before */
    if (wait > 0) poll(from, is_bot ? 1 : 2, (int)(wait < most ? wait : most));
}

static void draw_screen(session *s, const keys *k, const char *server, int64_t now) {
    static int drawn_frozen;
    int64_t silent = (now - s->heard) / 1000;
    char state[40] = "";
    if (k->frozen && drawn_frozen) return; /* the picture stands still, and the match goes on */
    if (k->frozen) snprintf(state, sizeof state, "frozen");
    else if (!s->welcomed) snprintf(state, sizeof state, "says hello");
    else if (silent > 0) snprintf(state, sizeof state, "silent for %lld s", (long long)silent);
    else if (k->step.act) snprintf(state, sizeof state, "hand open");
    drawn_frozen = k->frozen;
    session_frame(s, now);
    screen_draw(s, &(around){server, state, k->types ? k->typed : NULL, k->helps});
}

/* Turns until the words, a key or the server's silence end them. Answers whether the server was there at the end. */
static int play(session *s, const words *w, const char *server) {
    keys k = {.step = {0, 0, 0, 1}};
    uint32_t dice = w->seed;
    int64_t start = milliseconds(), next = start, frame = start;
    while (!k.quits && !was_stopped && milliseconds() - start < w->ends) {
        int64_t now = milliseconds();
        session_listen(s, now);
        if (!w->is_bot) keys_read(&k, s);
        if (now - s->heard > LOST_AFTER || joining_refused(&s->joining)) return 0;
        if (now >= next) {
            if (w->is_bot) keys_of_bot(&k, s, &dice);
            else keys_turn(&k);
            session_turn(s, &k.step, now);
            k.step.fire = 0;
            next = now - next > 1000 ? now + TURN : next + TURN; /* after a sleep of this process turns don't pile up */
        }
        if (!w->is_bot && now >= frame) {
            draw_screen(s, &k, server, now);
            frame = now + FRAME;
        }
        wait_until(s, w->is_bot, w->is_bot || next < frame ? next : frame);
    }
    return 1;
}

/* what a bot was shown, in the form of `./tribes join` */
static void tell_copies(session *s) {
    static const char *names[KINDS] = {"player", "disc", "mine", "drone", "flag", "clock"};
    static const int fields[KINDS] = {5, 2, 3, 3, 3, 3};
    int copies = 0;
    copy c;
    if (!s->welcomed) {
        puts("join none");
        return;
    }
    for (uint32_t from = 0; session_copy(s, from, &c); from = c.slot + 1) copies++;
    printf("join %u events %u ghosts %d", s->config.client, s->counts.delivered, copies);
    for (uint32_t from = 0; session_copy(s, from, &c); from = c.slot + 1) {
        printf(" | %u %s %u", c.slot, names[c.kind], c.block);
        for (int f = 0; f < fields[c.kind]; f++) printf(" %lld", (long long)c.values[f]);
    }
    puts("");
}

static int stop(const char *what) {
    fprintf(stderr, "play: %s: %s\n", what, strerror(errno));
    return FAILED;
}

int main(int count, char **word) {
    static session s;
    words w;
    char server[INET_ADDRSTRLEN + 8];
    int64_t now = milliseconds();
    if (read_words(count, word, &w)) return USAGE;
    snprintf(server, sizeof server, "%s:%u", inet_ntoa(w.server.sin_addr), ntohs(w.server.sin_port));
    if (tribes_version() != TRIBES_VERSION) return fprintf(stderr, "play: the library is of another version\n"), FAILED;
    if (session_start(&s, &w.server, &w.key, (uint32_t)now ^ (uint32_t)getpid() << 16, now)) return stop("a socket");
    if (w.demo && !(s.demo = fopen(w.demo, "wb"))) return stop(w.demo);
    if (!w.is_bot) hear_signals();
    if (!w.is_bot && screen_open()) {
        fprintf(stderr, "play: wanted is a terminal of at least %d columns and %d rows\n", LEAST_COLUMNS, LEAST_ROWS);
        return FAILED;
    }
    int there = play(&s, &w, server);
    if (!w.is_bot) screen_close();
    if (w.is_bot) tell_copies(&s);
    else if (there && s.welcomed) printf("client %u: %u turns, %u moves, %u datagrams taken\n", s.config.client, s.turns, s.counts.moves, s.taken);
    const char *what = s.welcomed ? "the server was lost" : "no server answers";
    const char *refused = joining_refused(&s.joining);
    if (refused) fprintf(stderr, "play: the server at %s does not let us in: %s\n", server, refused);
    else if (!there) fprintf(stderr, "play: %s at %s: nothing came for %d seconds\n", what, server, LOST_AFTER / 1000);
    session_end(&s);
    if (s.demo && fclose(s.demo)) return stop(w.demo);
    return there ? DONE : FAILED;
}
