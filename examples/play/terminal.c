/* Keys out of the bytes that a terminal sends: terminal.h says what comes. ncurses reads no key here, for it has no word for a release. */
#include "terminal.h"
#include <poll.h>
#include <stdint.h>
#include <string.h>
#include <time.h>
#include <unistd.h>

enum { MOST_BYTES = 256, MOST_NUMBERS = 8, OTHERS = 57344 }; /* from OTHERS on, keys such as Shift alone */
enum { ALONE = 50 };                                         /* milliseconds behind which an Escape is a key, and begins no other */
enum { SHIFT = 1, CONTROL = 4 };                             /* in a sum of keys that are held beside */

static unsigned char bytes[MOST_BYTES];
static int count, has_protocol;
static int64_t came; /* when the last bytes came, in milliseconds */

static int64_t milliseconds(void) {
    struct timespec now;
    clock_gettime(CLOCK_MONOTONIC, &now);
    return now.tv_sec * INT64_C(1000) + now.tv_nsec / 1000000;
}

static void say(const char *text) {
    /* (a terminal that takes no bytes shows nothing either) */
    if (write(STDOUT_FILENO, text, strlen(text)) < 0) return;
}

void terminal_open(void) {
    count = has_protocol = 0;
    say("\033[?u");
}

int terminal_tells_releases(void) { return has_protocol; }

void terminal_types(int types) {
    if (has_protocol) say(types ? "\033[=1u" : "\033[=15u");
}

void terminal_close(void) {
    if (has_protocol) say("\033[?1004l\033[<u");
    has_protocol = 0;
}

/* The answer to terminal_open. Asked for are all keys (8), with releases (2) and with what Shift makes of them (4), without doubt (1), and
   the loss of the focus, behind which no release comes. */
static void take_protocol(void) {
    if (!has_protocol) say("\033[>15u\033[?1004h");
    has_protocol = 1;
}

static void drop(int some) {
    count -= some;
    memmove(bytes, bytes + some, (size_t)count);
}

/* `CSI code : shifted ; modifiers : deed u`, or with a letter for an arrow. */
static int stroke_of(const int *numbers, char last, stroke *s) {
    int modifiers = numbers[2] ? numbers[2] - 1 : 0;
    s->deed = numbers[3] >= PRESSED && numbers[3] <= RELEASED ? (deed)numbers[3] : PRESSED;
    if (last >= 'A' && last <= 'D') s->key = ARROW_UP + last - 'A';
    else if (last == 'O') s->key = OUT_OF_FOCUS;
    else if (last == 'u' && numbers[0] && numbers[0] < OTHERS) s->key = modifiers & SHIFT && numbers[1] ? numbers[1] : numbers[0];
    else return 0;
    if (modifiers & CONTROL && s->key == 'c') s->key = CONTROL_C;
    return 1;
}

/* Reads the parts of a sequence from its third byte on: numbers[2k] is part k, and the next one what stands behind its first colon.
   Answers the sequence's length, or 0 where it is not whole. */
static int read_sequence(int *numbers) {
    int at = 2, place = 0;
    memset(numbers, 0, MOST_NUMBERS * sizeof *numbers);
    for (; at < count && (bytes[at] < '@' || bytes[at] > '~'); at++) {
        int digit = bytes[at] - '0';
        if (digit >= 0 && digit <= 9 && place < MOST_NUMBERS && numbers[place] < OTHERS) numbers[place] = 10 * numbers[place] + digit;
        else if (bytes[at] == ';') place = (place | 1) + 1;
        else if (bytes[at] == ':') place = place & 1 ? MOST_NUMBERS : place + 1;
    }
    return at < count ? at + 1 : 0;
}

/* A sequence that begins with Escape: its length, 0 where more has to come. `known` says whether it is a key. */
static int take_sequence(stroke *s, int *known) {
    int numbers[MOST_NUMBERS];
    *known = 0;
    if (count < 2) return 0;
    if (bytes[1] == 'O' && count < 3) return 0;
    if (bytes[1] == 'O') {
        memset(numbers, 0, sizeof numbers);
        *known = bytes[2] <= 'D' && stroke_of(numbers, (char)bytes[2], s);
        return 3;
    }
    if (bytes[1] != '[') return 1;
    int length = read_sequence(numbers);
    if (length && bytes[2] == '?' && bytes[length - 1] == 'u') take_protocol();
    else if (length) *known = stroke_of(numbers, (char)bytes[length - 1], s);
    return length;
}

static void read_bytes(void) {
    struct pollfd from = {STDIN_FILENO, POLLIN, 0};
    while (count < MOST_BYTES && poll(&from, 1, 0) > 0) {
        ssize_t more = read(STDIN_FILENO, bytes + count, (size_t)(MOST_BYTES - count));
        if (more <= 0) return;
        count += (int)more;
        came = milliseconds();
    }
}

int terminal_stroke(stroke *s) {
    read_bytes();
    while (count > 0) {
        int known = 1, length = 1;
        *s = (stroke){bytes[0] == '\n' ? ENTER : bytes[0] == '\b' ? DELETE : bytes[0], PRESSED};
        if (bytes[0] == ESCAPE) {
            length = take_sequence(s, &known);
            if (length == 0 && count < MOST_BYTES && milliseconds() - came < ALONE) return 0;
            if (length <= 1) *s = (stroke){ESCAPE, PRESSED}, length = known = 1;
        }
        drop(length);
        if (known) return 1;
    }
    return 0;
}
