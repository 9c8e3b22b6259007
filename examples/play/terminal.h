/* The keys of a terminal: each as it is pressed, and in a terminal that has kitty's key protocol also as it is let go. */
#ifndef TERMINAL_H
#define TERMINAL_H

/* Keys that are no character. Enter, Escape and Delete are the characters that terminals send. */
enum { ARROW_UP = 0x110000, ARROW_DOWN, ARROW_RIGHT, ARROW_LEFT, OUT_OF_FOCUS, CONTROL_C, ENTER = '\r', ESCAPE = 27, DELETE = 127 };

typedef enum { PRESSED = 1, REPEATED, RELEASED } deed;

typedef struct { int key; deed deed; } stroke;

/* Asks the terminal whether it has the protocol. Until it answers, and where it never does, keys are told as PRESSED alone. */
void terminal_open(void);
/* What happened to a key next: 0 where nothing did. */
int terminal_stroke(stroke *s);
/* Whether the terminal tells when a key is let go. */
int terminal_tells_releases(void);
/* While a text is typed, keys come as characters: no release is told. */
void terminal_types(int types);
/* Leaves the terminal as it was. */
void terminal_close(void);

#endif
