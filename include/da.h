/* Definite assignment of a local, proved: the calls of crates/capi, in the archive that `rt lib` makes in crates/capi.
 *
 * Whoever calls lends all memory. No call keeps a pointer, allocates, reads a clock, a file or a global, or writes anywhere but
 * into what is lent to it, so any number of threads may call at once, each with tables of its own.
 *
 * What C must see to, since no proof reaches it:
 *  - a pointer with a length points at that many elements, set where the call reads them (da_load and da_verdict read nothing that
 *    stood in the tables before); with length 0 no memory is needed behind it, and the pointer may be null;
 *  - what a call writes overlaps nothing else that it is lent;
 *  - lengths of tables count numbers, not bytes;
 *  - 64 KiB of stack are left below the caller.
 * Beyond that a call asks nothing: any bytes, any record and tables of any length get an answer or a numbered refusal.
 *
 * Refusals, with their places:
 *   of a sheet (load, verdict); the place is a line of the sheet, counted from 1, or 0 where none is told
 *     1  a missing or extra line, a wrong key, a last line without byte 10, a row without exactly five fields
 *     2  a number that is not one, or is above 4294967295
 *     3  a number of the header outside its range
 *     4  a name outside 1..64 bytes, with a byte outside 33..126, or not above the one before it
 *     5  an unknown kind
 *     6  a side number that its kind does not have
 *     7  a wrong end
 *     8  a row deeper than 100
 *     9  children that do not fit their kind, or a row 0 that is no statement
 *    10  more than 65536 bytes (place 0)
 *    21  a table too short for the sheet (place 0)
 *   of what is lent (ask, name)
 *    22  a record outside its ranges, or a table too short for it, which for a name is the name table (place 0)
 *    23  a row of the table breaks 5 to 9, or names no name (ask; the place is the row), or a jump mark is above 1 (place 0)
 *    24  no such name, or its place is not in the bytes lent (name; no place)
 */
#ifndef DA_H
#define DA_H

#include <stdbool.h>
#include <stddef.h>
#include <stdint.h>

#ifdef __cplusplus
extern "C" {
#endif

/* The longest sheet, in bytes, and the lengths of tables that hold every sheet: 40000 and 6000 bytes. */
#define DA_SHEET_BYTES 65536
#define DA_ROW_NUMBERS 10000
#define DA_NAME_NUMBERS 1500

/* What loading tells of a sheet beside its tables. */
typedef struct {
    size_t names; /* 1..500 */
    size_t rows;  /* 1..2000 */
    size_t local; /* the number of the local, below names */
    size_t start; /* 1 if the local is written before the statement */
    size_t sole;  /* 1 if nobody else writes the net */
} da_record;

/* Why a load was refused, zeros where it was not. */
typedef struct {
    size_t number;
    size_t line;
} da_refusal;

/* Which of the four an answer is. Falls and jumps are accepted. */
enum { DA_FALLS = 0, DA_JUMPS = 1, DA_GIVEUP = 2, DA_REFUSED = 3 };

/* What is not used is 0. The reasons of a give-up, which may be caution:
 *   1  the net is shared and time can advance
 *   2  the local is read before any write; the span is the expression's, that of the others the statement's
 *   3  the event on an assignment refers to it
 *   4  only a part of it is written
 *   5  a fork
 *   6  a called task reads it
 *   7  a called task may
 *   8  an event control refers to it
 *   9  a form that is not modelled
 */
typedef struct {
    size_t answer; /* DA_FALLS .. DA_REFUSED */
    size_t state;  /* falls: 1 if the local is written wherever the statement ends */
    size_t reason; /* a give-up's reason, 1..9 as above; a refusal's number */
    size_t lo;     /* a give-up's span, as the sheet has it; a refusal's place */
    size_t hi;
} da_answer;

/* Where a name's text stands in the sheet. */
typedef struct {
    size_t offset;
    size_t length;
    size_t refusal; /* 22 or 24, with offset and length 0; 0 where there is a name */
} da_place;

/* The numbers of a row table and of a name table that hold every sheet: with tables so long or longer, 21 is never answered. The
 * macros above have the same values. */
size_t da_row_numbers(void);
size_t da_name_numbers(void);

/* Loads a sheet into the two tables.
 * True: the record is set, the refusal zero; rows has five numbers for each row (kind, side, lo, hi, end), names three for each name
 * (offset, length, jump mark), and both are zero after that. Such a record with such tables is never refused by da_ask.
 * False: the refusal tells number and line (0 for 10 and 21), and the record and both tables are all zero. */
bool da_load(const uint8_t *sheet, size_t sheet_length, uint32_t *rows, size_t rows_length, uint32_t *names, size_t names_length,
             da_record *record, da_refusal *refusal);

/* Asks whether every read of the local comes after a write, in the sheet that the record and the tables hold. The tables are read only,
 * and are checked as far as the record counts before anything is trusted: they may come from anywhere.
 * True: accepted, falls or jumps. With start 0, and provided the premises that the README lists, every read of the local then has a write
 * before it on every path, whether its conditions come out true, false or unknown, and in whatever order a tool evaluates operands,
 * arguments and the like, each of them as a whole; docs/DIFFERENCES.md says what a tool may do beyond that.
 * False: a give-up, with reason and span; or refusal 22 or 23, with its place. */
bool da_ask(const da_record *record, const uint32_t *rows, size_t rows_length, const uint32_t *names, size_t names_length,
            da_answer *answer);

/* da_load, then da_ask on what it left: the call for a server that wants no names.
 * True: accepted, falls or jumps; what it means is what it means of da_ask.
 * False: a give-up, with reason and span; or a refusal 1 to 10 or 21, with its place, a line or 0.
 * The tables end as da_load leaves them: zero after a refusal. */
bool da_verdict(const uint8_t *sheet, size_t sheet_length, uint32_t *rows, size_t rows_length, uint32_t *names, size_t names_length,
                da_answer *answer);

/* Where the text of a name stands in the sheet that was loaded: `sheet + place->offset`, `place->length` bytes, without a zero at the
 * end. The sheet is not read, only its length.
 * True: place has offset and length, which lie in the sheet.
 * False: place->refusal is 22 or 24, the other two 0. */
bool da_name(const uint8_t *sheet, size_t sheet_length, const da_record *record, const uint32_t *names, size_t names_length, size_t number,
             da_place *place);

#ifdef __cplusplus
}
#endif

#endif
