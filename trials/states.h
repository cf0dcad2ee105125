/* A record with tables, as `ask_cases` reads them: `title|names rows local start sole|R|numbers|N|numbers`, a row table of R numbers and a
 * name table of N, with these numbers first and zeros after them. */
#ifndef STATES_H
#define STATES_H

#include "frames.h"
#include "lent.h"

typedef struct {
    char *title;
    da_record record;
    tables tables;
} state;

/* A text that is no state ends the program. */
state read_state(const frame *of);
void give_back_state(state *of);

#endif
