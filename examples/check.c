/* Checks answers: for each NAME it loads NAME.sheet, asks, and prints what the player is told, with the words of NAME.v that a give-up
 * points at. usage: check NAME.. */
#include <stdio.h>
#include <stdlib.h>

#include "da.h"

/* All memory that a check needs, lent to every call: 112 KB. */
static uint8_t sheet[DA_SHEET_BYTES + 1];
static uint32_t rows[DA_ROW_NUMBERS];
static uint32_t names[DA_NAME_NUMBERS];

/* The player's words, to show those that a give-up points at. */
static char text[DA_SHEET_BYTES];

static const char *const reasons[10] = {
    "",
    "time can advance, and others may write it",
    "it is read before any write",
    "the event on this assignment refers to it",
    "only a part of it is written",
    "a fork gives no order",
    "the task that is called reads it",
    "the task that is called may read it",
    "the event control refers to it",
    "this form is not modelled",
};

/* A file's bytes, as many as there is room for: a sheet with one byte too many is refused, so no more are needed. */
static size_t read_file(const char *name, const char *ending, void *to, size_t room) {
    char path[4096];
    snprintf(path, sizeof path, "%s%s", name, ending);
    FILE *file = fopen(path, "rb");
    if (file == NULL) {
        perror(path);
        exit(2);
    }
    size_t length = fread(to, 1, room, file);
    fclose(file);
    return length;
}

/* The local's text is a part of the sheet, without a zero at its end. */
static void print_local(size_t length, const da_record *record) {
    da_place place;
    if (da_name(sheet, length, record, names, DA_NAME_NUMBERS, record->local, &place)) {
        printf("%.*s", (int)place.length, (const char *)sheet + place.offset);
    }
}

static void print_mark(const char *name, const da_answer *answer) {
    size_t length = read_file(name, ".v", text, sizeof text);
    size_t hi = answer->hi < length ? answer->hi : length;
    size_t lo = answer->lo < hi ? answer->lo : hi;
    printf(": %s, in `%.*s` at %zu to %zu\n", reasons[answer->reason], (int)(hi - lo), text + lo, answer->lo, answer->hi);
}

static void print_answer(const char *name, const da_answer *answer) {
    switch (answer->answer) {
    case DA_FALLS:
        printf(answer->state == 1 ? ": accepted, and written at the end\n" : ": accepted, not always written at the end\n");
        break;
    case DA_JUMPS:
        printf(": accepted, and no path comes to the end\n");
        break;
    case DA_GIVEUP:
        print_mark(name, answer);
        break;
    default:
        printf(": refused with %zu, place %zu\n", answer->reason, answer->lo);
    }
}

static void check(const char *name) {
    size_t length = read_file(name, ".sheet", sheet, sizeof sheet);
    da_record record;
    da_refusal refusal;
    if (!da_load(sheet, length, rows, DA_ROW_NUMBERS, names, DA_NAME_NUMBERS, &record, &refusal)) {
        printf("%s: refused with %zu, line %zu\n", name, refusal.number, refusal.line);
        return;
    }
    da_answer answer;
    da_ask(&record, rows, DA_ROW_NUMBERS, names, DA_NAME_NUMBERS, &answer);
    printf("%s: ", name);
    print_local(length, &record);
    print_answer(name, &answer);
}

int main(int count, char **arguments) {
    if (da_row_numbers() != DA_ROW_NUMBERS || da_name_numbers() != DA_NAME_NUMBERS) {
        fputs("da.h is not of this archive\n", stderr);
        return 2;
    }
    for (int i = 1; i < count; i++) {
        check(arguments[i]);
    }
    return 0;
}
