#include "checks.h"
#include "lent.h"

#include <stdio.h>
#include <stdlib.h>
#include <string.h>

_Noreturn void broken(const char *what, const char *file, int line)
{
    fprintf(stderr, "%s:%d: does not hold: %s\n", file, line, what);
    abort();
}

/* What loading told with tables that hold every sheet, and what is compared with it. */
typedef struct {
    sheet at_start; /* two copies of the bytes, one against each edge */
    sheet at_end;
    tables filled;
    load_told told;
    da_answer answer;
    size_t rows_needed; /* how many numbers of a table loading asks for; 0 where it refuses before it asks */
    size_t names_needed;
} full_run;

/* How long a table is lent, beside what is needed. */
enum room { ROOM_NULL, ROOM_EMPTY, ROOM_SHORT, ROOM_EXACT, ROOM_MORE };

static const struct {
    enum room rows;
    enum room names;
} ROOMS[] = {
    {ROOM_EXACT, ROOM_EXACT}, {ROOM_SHORT, ROOM_EXACT}, {ROOM_EXACT, ROOM_SHORT}, {ROOM_EMPTY, ROOM_EMPTY},
    {ROOM_NULL, ROOM_NULL},   {ROOM_NULL, ROOM_EXACT},  {ROOM_EXACT, ROOM_NULL},  {ROOM_MORE, ROOM_MORE},
};
#define ROOM_PAIRS (sizeof ROOMS / sizeof ROOMS[0])

static const table NO_TABLE = {NULL, 0};

/* Where nothing is needed any length does; seven numbers are short of a row or two, and of a name or three. */
static size_t length_of(enum room room, size_t needed, size_t most)
{
    size_t exact = needed > 0 ? needed : 7;
    switch (room) {
    case ROOM_SHORT:
        return exact - 1;
    case ROOM_EXACT:
        return exact;
    case ROOM_MORE:
        return most + 3;
    default:
        return 0;
    }
}

static table lend_room(enum room room, size_t needed, size_t most, enum edge edge)
{
    return room == ROOM_NULL ? NO_TABLE : lend_table(length_of(room, needed, most), edge);
}

static table lend_part(enum room room, table of, size_t needed, size_t most, enum edge edge)
{
    return room == ROOM_NULL ? NO_TABLE : lend_copy(of, length_of(room, needed, most), edge);
}

static void give_back_tables(tables of)
{
    give_back_table(of.rows);
    give_back_table(of.names);
}

/* The first is zero, and each is the one after it. */
static void check_zeros(table of, size_t from)
{
    if (from < of.length) {
        const uint32_t *first = of.numbers + from;
        require(*first == 0);
        require(memcmp(first, first + 1, (of.length - from - 1) * sizeof *first) == 0);
    }
}

/* That two tables hold the same, of which one may go on with zeros. */
static void check_same_table(table one, table other)
{
    size_t both = one.length < other.length ? one.length : other.length;
    require(both == 0 || memcmp(one.numbers, other.numbers, both * sizeof(uint32_t)) == 0);
    check_zeros(one, both);
    check_zeros(other, both);
}

static void check_same_answer(const da_answer *one, const da_answer *other)
{
    require(memcmp(one, other, sizeof *one) == 0);
}

static da_answer refused(size_t number, size_t place)
{
    return (da_answer){DA_REFUSED, 0, number, place, 0};
}

static void check_tables_after(const full_run *full, bool room, tables of)
{
    if (room) {
        check_same_table(of.rows, full->filled.rows);
        check_same_table(of.names, full->filled.names);
    } else {
        check_zeros(of.rows, 0);
        check_zeros(of.names, 0);
    }
}

static tables lend_rooms(const full_run *full, size_t pair, enum edge edge)
{
    return (tables){lend_room(ROOMS[pair].rows, full->rows_needed, DA_ROW_NUMBERS, edge),
                    lend_room(ROOMS[pair].names, full->names_needed, DA_NAME_NUMBERS, edge)};
}

static bool has_room(const full_run *full, tables of)
{
    return of.rows.length >= full->rows_needed && of.names.length >= full->names_needed;
}

static void check_load_room(const full_run *full, size_t pair, enum edge edge)
{
    tables lent = lend_rooms(full, pair, edge);
    bool room = has_room(full, lent);
    load_told told = lent_load(edge == EDGE_START ? full->at_start : full->at_end, lent);
    check_tables_after(full, room, lent);
    give_back_tables(lent);
    require(told.loaded == (room && full->told.loaded));
    require(told.refusal.number == (room ? full->told.refusal.number : 21));
    require(told.refusal.line == (room ? full->told.refusal.line : 0));
    require(!told.loaded || memcmp(&told.record, &full->told.record, sizeof told.record) == 0);
}

static void check_verdict_room(const full_run *full, size_t pair, enum edge edge)
{
    const da_answer too_short = refused(21, 0);
    tables lent = lend_rooms(full, pair, edge);
    bool room = has_room(full, lent);
    da_answer answer = lent_verdict(edge == EDGE_START ? full->at_start : full->at_end, lent);
    check_tables_after(full, room, lent);
    give_back_tables(lent);
    check_same_answer(&answer, room ? &full->answer : &too_short);
}

/* da_load and da_verdict with tables of other lengths: 21 where they are too short, otherwise as with long ones. */
static void check_rooms(const full_run *full)
{
    for (size_t pair = 0; pair < ROOM_PAIRS; pair += 1) {
        check_load_room(full, pair, pair % 2 == 0 ? EDGE_END : EDGE_START);
        check_verdict_room(full, pair, pair % 2 == 0 ? EDGE_START : EDGE_END);
    }
}

/* da_ask on what loading left, in tables of other lengths: 22 where they are too short. It writes nothing. */
static void check_ask_rooms(const full_run *full)
{
    const da_answer too_short = refused(22, 0);
    for (size_t pair = 0; pair < ROOM_PAIRS; pair += 1) {
        enum edge edge = pair % 2 == 0 ? EDGE_END : EDGE_START;
        tables lent = {lend_part(ROOMS[pair].rows, full->filled.rows, full->rows_needed, DA_ROW_NUMBERS, edge),
                       lend_part(ROOMS[pair].names, full->filled.names, full->names_needed, DA_NAME_NUMBERS, edge)};
        bool room = has_room(full, lent);
        da_answer answer = lent_ask(&full->told.record, lent);
        check_same_answer(&answer, room ? &full->answer : &too_short);
        if (room) {
            check_tables_after(full, room, lent);
        }
        give_back_tables(lent);
    }
}

/* Records outside their ranges: 22, from da_ask and from da_name. Among them are counts that pass the end of a size_t when they are
 * multiplied by the numbers of a row or of a name. */
static void check_records(const full_run *full)
{
    const da_record good = full->told.record;
    const size_t wrong[][5] = {
        {501, 2001, good.names, 2, 2},
        {0, 0, SIZE_MAX, SIZE_MAX, SIZE_MAX},
        {SIZE_MAX, SIZE_MAX, 500, 256, 256},
        {SIZE_MAX / 3 + 2, SIZE_MAX / 5 + 2, (size_t)1 << 32, (size_t)1 << 32, (size_t)1 << 32},
    };
    const da_answer outside = refused(22, 0);
    for (size_t i = 0; i < sizeof wrong / sizeof wrong[0]; i += 1) {
        for (size_t field = 0; field < 5; field += 1) {
            size_t numbers[5] = {good.names, good.rows, good.local, good.start, good.sole};
            numbers[field] = wrong[i][field];
            da_record record = {numbers[0], numbers[1], numbers[2], numbers[3], numbers[4]};
            da_answer answer = lent_ask(&record, full->filled);
            check_same_answer(&answer, &outside);
            require(lent_name(full->at_end, &record, full->filled.names, 0).refusal == 22);
        }
    }
}

static bool begins(const uint8_t *text, size_t length, const char *word)
{
    size_t size = strlen(word);
    return length >= size && memcmp(text, word, size) == 0;
}

static bool above(const uint8_t *text, size_t length, const uint8_t *before, size_t before_length)
{
    int order = memcmp(text, before, length < before_length ? length : before_length);
    return order > 0 || (order == 0 && length > before_length);
}

/* A name stands where its line has it, with its jump mark, above the name before it. */
static void check_name(const full_run *full, size_t number)
{
    const uint8_t *bytes = full->at_end.bytes;
    const uint32_t *entry = full->filled.names.numbers + 3 * number;
    da_place place = lent_name(full->at_end, &full->told.record, full->filled.names, number);
    require(place.refusal == 0 && place.offset == entry[0] && place.length == entry[1]);
    require(place.length >= 1 && place.length <= 64);
    require(place.offset >= 5 && begins(bytes + place.offset - 5, 5, "name="));
    require(place.offset + place.length < full->at_end.size && bytes[place.offset + place.length] == '\n');
    const uint8_t *text = bytes + place.offset;
    require(entry[2] == (begins(text, place.length, "$break$") || begins(text, place.length, "$continue$")));
    require(number == 0 || above(text, place.length, bytes + entry[-3], entry[-2]));
}

/* Names that are none, tables that are too short, and sheets that end within the last name. */
static void check_no_names(const full_run *full)
{
    const da_record *record = &full->told.record;
    const size_t none[] = {record->names, record->names + 1, SIZE_MAX, SIZE_MAX / 3 + 1};
    for (size_t i = 0; i < sizeof none / sizeof none[0]; i += 1) {
        require(lent_name(full->at_end, record, full->filled.names, none[i]).refusal == 24);
    }
    size_t last = record->names - 1;
    table exact = lend_copy(full->filled.names, full->names_needed, EDGE_END);
    table fewer = lend_copy(full->filled.names, full->names_needed - 1, EDGE_END);
    size_t end = exact.numbers[3 * last] + exact.numbers[3 * last + 1];
    sheet whole = lend_sheet(full->at_end.bytes, end, EDGE_END);
    sheet cut = lend_sheet(full->at_end.bytes, end - 1, EDGE_END);
    require(lent_name(whole, record, exact, last).refusal == 0);
    require(lent_name(cut, record, exact, last).refusal == 24);
    require(lent_name((sheet){NULL, 0}, record, exact, last).refusal == 24);
    require(lent_name(whole, record, fewer, 0).refusal == 22);
    require(lent_name(whole, record, NO_TABLE, 0).refusal == 22);
    give_back_sheet(cut);
    give_back_sheet(whole);
    give_back_table(fewer);
    give_back_table(exact);
}

/* FNV-1a of the sheet, so that what is altered depends on nothing else. */
static uint64_t digest(sheet of)
{
    uint64_t state = 14695981039346656037U;
    for (size_t i = 0; i < of.size; i += 1) {
        state = (state ^ of.bytes[i]) * 1099511628211U;
    }
    return state;
}

static uint32_t next_random(uint64_t *state)
{
    *state = *state * 6364136223846793005U + 1442695040888963407U;
    return (uint32_t)(*state >> 33);
}

static uint32_t altered(uint64_t *state, uint32_t number)
{
    uint32_t random = next_random(state);
    const uint32_t ways[] = {number + 1, number - 1, 0, UINT32_MAX, random % 70, random % 2100, random << 1};
    return ways[next_random(state) % (sizeof ways / sizeof ways[0])];
}

/* Tables that loading did not leave, under a record that it did: da_ask answers, or refuses with 23 and a row of the sheet. */
static void check_altered(const full_run *full)
{
    uint64_t state = digest(full->at_end);
    for (int round = 0; round < 4; round += 1) {
        tables lent = {lend_copy(full->filled.rows, full->rows_needed, EDGE_END),
                       lend_copy(full->filled.names, full->names_needed, EDGE_END)};
        for (int i = 0; i <= round; i += 1) {
            table which = next_random(&state) % 4 == 0 ? lent.names : lent.rows;
            size_t at = next_random(&state) % which.length;
            which.numbers[at] = altered(&state, which.numbers[at]);
        }
        da_answer answer = lent_ask(&full->told.record, lent);
        if (answer.answer == DA_REFUSED) {
            require(answer.reason == 23 && answer.lo < full->told.record.rows);
        }
        da_place place = lent_name(full->at_end, &full->told.record, lent.names, next_random(&state) % full->told.record.names);
        require(place.refusal == 0 || place.refusal == 24);
        give_back_tables(lent);
    }
}

static size_t count_lines(sheet of)
{
    size_t lines = 0;
    for (size_t i = 0; i < of.size; i += 1) {
        lines += of.bytes[i] == '\n';
    }
    return lines;
}

/* The number on the second line, of a sheet whose lines are good. */
static size_t names_told(sheet of)
{
    const size_t before = strlen("sheet=1\nnames=");
    size_t number = 0;
    for (size_t i = before; i < of.size && of.bytes[i] != '\n'; i += 1) {
        number = number * 10 + (size_t)(of.bytes[i] - '0');
    }
    return number;
}

/* Room is asked for once every line is read, that is before 7 to 9; six lines are neither names nor rows. */
static void set_needed(full_run *full)
{
    size_t number = full->told.refusal.number;
    size_t names = full->told.record.names;
    size_t rows = full->told.record.rows;
    if (number >= 7 && number <= 9) {
        names = names_told(full->at_end);
        rows = count_lines(full->at_end) - 6 - names;
    }
    full->names_needed = 3 * names;
    full->rows_needed = 5 * rows;
}

static void check_loaded(full_run *full)
{
    check_zeros(full->filled.rows, full->rows_needed);
    check_zeros(full->filled.names, full->names_needed);
    full->answer = lent_ask(&full->told.record, full->filled);
    require(full->answer.answer != DA_REFUSED);
    check_ask_rooms(full);
    check_records(full);
    for (size_t number = 0; number < full->told.record.names; number += 1) {
        check_name(full, number);
    }
    check_no_names(full);
    check_altered(full);
}

static void check_refused(full_run *full)
{
    const da_answer no_record = refused(22, 0);
    check_zeros(full->filled.rows, 0);
    check_zeros(full->filled.names, 0);
    require(full->told.refusal.number != 21);
    require(full->told.refusal.line <= count_lines(full->at_end) + 1);
    full->answer = refused(full->told.refusal.number, full->told.refusal.line);
    da_answer asked = lent_ask(&full->told.record, full->filled);
    check_same_answer(&asked, &no_record);
    require(lent_name(full->at_end, &full->told.record, full->filled.names, 0).refusal == 22);
}

/* da_verdict tells what da_load and da_ask told, and leaves the same tables. */
static void check_verdict(const full_run *full)
{
    tables fresh = {lend_table(DA_ROW_NUMBERS, EDGE_START), lend_table(DA_NAME_NUMBERS, EDGE_START)};
    da_answer answer = lent_verdict(full->at_start, fresh);
    check_same_answer(&answer, &full->answer);
    check_tables_after(full, true, fresh);
    give_back_tables(fresh);
}

/* An empty sheet needs no memory behind it either. */
static void check_no_memory(const full_run *full)
{
    const sheet none = {NULL, 0};
    load_told told = lent_load(none, full->filled);
    da_answer answer = lent_verdict(none, full->filled);
    require(told.refusal.number == full->told.refusal.number && told.refusal.line == full->told.refusal.line);
    check_same_answer(&answer, &full->answer);
    answer = lent_verdict(none, (tables){NO_TABLE, NO_TABLE});
    check_same_answer(&answer, &full->answer);
}

da_answer check_sheet(const uint8_t *bytes, size_t size)
{
    require(da_row_numbers() == DA_ROW_NUMBERS && da_name_numbers() == DA_NAME_NUMBERS);
    full_run full = {.at_start = lend_sheet(bytes, size, EDGE_START), .at_end = lend_sheet(bytes, size, EDGE_END)};
    full.filled = (tables){lend_table(DA_ROW_NUMBERS, EDGE_END), lend_table(DA_NAME_NUMBERS, EDGE_END)};
    full.told = lent_load(full.at_end, full.filled);
    set_needed(&full);
    if (full.told.loaded) {
        check_loaded(&full);
    } else {
        check_refused(&full);
    }
    check_verdict(&full);
    check_rooms(&full);
    if (size == 0) {
        check_no_memory(&full);
    }
    require(size == 0 || memcmp(full.at_start.bytes, bytes, size) == 0);
    require(size == 0 || memcmp(full.at_end.bytes, bytes, size) == 0);
    give_back_tables(full.filled);
    give_back_sheet(full.at_end);
    give_back_sheet(full.at_start);
    return full.answer;
}
