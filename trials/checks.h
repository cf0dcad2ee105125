/* What include/da.h promises, checked on one input. A promise that does not hold ends the program with a message. */
#ifndef CHECKS_H
#define CHECKS_H

#include "../include/da.h"

#define require(what) ((what) ? (void)0 : broken(#what, __FILE__, __LINE__))
_Noreturn void broken(const char *what, const char *file, int line);

/* One sheet through every call: with tables that hold every sheet, with exactly the numbers that it needs, with one fewer, with none, with
 * records and tables that loading did not leave. The answer is that of da_verdict. */
da_answer check_sheet(const uint8_t *bytes, size_t size);

#endif
