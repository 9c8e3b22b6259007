/* The screen: a map round the own player, a panel of figures, the last events, and the keys. */
#ifndef SCREEN_H
#define SCREEN_H

#include "session.h"

enum { LEAST_ROWS = 24, LEAST_COLUMNS = 80 };

/* What stands in the title and the last line beside the session: a text that is typed, or NULL; and whether help covers the map. */
typedef struct { const char *server, *state, *typed; int helps; } around;

/* Answers 0, or -1 where there is no terminal of LEAST_ROWS by LEAST_COLUMNS or more. */
int screen_open(void);
void screen_draw(session *s, const around *a);
void screen_close(void);

#endif
