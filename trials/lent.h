/* The calls of include/da.h with everything that they are lent in blocks of its own, each of exactly the size that the call is told. What a
 * call answers is checked against its truth value and against the ranges that the header gives. */
#ifndef LENT_H
#define LENT_H

#include "../include/da.h"
#include "lend.h"

typedef struct {
    uint8_t *bytes;
    size_t size;
} sheet;

typedef struct {
    uint32_t *numbers; /* NULL stands for a table of no numbers with no memory behind it */
    size_t length;
} table;

typedef struct {
    table rows;
    table names;
} tables;

typedef struct {
    bool loaded;
    da_record record;
    da_refusal refusal;
} load_told;

sheet lend_sheet(const uint8_t *bytes, size_t size, enum edge edge);
void give_back_sheet(sheet of);

/* A table whose content is not set. */
table lend_table(size_t length, enum edge edge);
/* As much of a table as so many numbers hold, and zeros where they are more. */
table lend_copy(table of, size_t length, enum edge edge);
void give_back_table(table of);

load_told lent_load(sheet of, tables into);
da_answer lent_verdict(sheet of, tables into);
da_answer lent_ask(const da_record *record, tables of);
da_place lent_name(sheet of, const da_record *record, table names, size_t number);

#endif
