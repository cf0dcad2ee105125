/* Which instructions of the archive have run.
 *
 * The archive has no counters in it, so the fuzzer could not tell an input that gets somewhere new. Here each of its instructions is
 * overwritten by a trap; the first time that one is reached the trap puts the instruction back and counts it, and from then on it costs
 * nothing. libFuzzer keeps the input of any run in which something was counted. */
#ifndef PLACES_H
#define PLACES_H

/* Sets the traps at the addresses of this file, one a line in base 16. At the program's end those that were never reached are written to
 * a file beside it, with `.unreached` after its name. */
void set_traps(const char *path);

#endif
