#include "lent.h"
#include "checks.h"

#include <string.h>

sheet lend_sheet(const uint8_t *bytes, size_t size, enum edge edge)
{
    sheet lent = {lend(size, edge), size};
    if (size > 0) {
        memcpy(lent.bytes, bytes, size);
    }
    return lent;
}

void give_back_sheet(sheet of)
{
    give_back(of.bytes, of.size);
}

table lend_table(size_t length, enum edge edge)
{
    return (table){lend(length * sizeof(uint32_t), edge), length};
}

table lend_copy(table of, size_t length, enum edge edge)
{
    table lent = lend_table(length, edge);
    for (size_t i = 0; i < length; i += 1) {
        lent.numbers[i] = i < of.length ? of.numbers[i] : 0;
    }
    return lent;
}

void give_back_table(table of)
{
    if (of.numbers != NULL) {
        give_back(of.numbers, of.length * sizeof(uint32_t));
    }
}

/* C takes it that a bool is 0 or 1, and so would never look: the byte itself is read. */
static bool truth(bool told)
{
    volatile bool kept = told;
    require(*(volatile unsigned char *)&kept <= 1);
    return kept;
}

static void check_refusal(size_t number, size_t place)
{
    require((number >= 1 && number <= 10) || (number >= 21 && number <= 23));
    if (number == 10 || number == 21 || number == 22) {
        require(place == 0);
    } else if (number != 23) {
        require(place > 0);
    }
}

static void check_answer(bool accepted, const da_answer *answer)
{
    require(accepted == (answer->answer <= DA_JUMPS));
    require(answer->answer <= DA_REFUSED);
    require(answer->state <= (answer->answer == DA_FALLS));
    if (answer->answer <= DA_JUMPS) {
        require(answer->reason == 0 && answer->lo == 0 && answer->hi == 0);
    } else if (answer->answer == DA_GIVEUP) {
        require(answer->reason >= 1 && answer->reason <= 9);
        require(answer->lo <= UINT32_MAX && answer->hi <= UINT32_MAX);
    } else {
        require(answer->hi == 0);
        check_refusal(answer->reason, answer->lo);
    }
}

static void check_record(const da_record *record)
{
    require(record->names >= 1 && record->names <= 500);
    require(record->rows >= 1 && record->rows <= 2000);
    require(record->local < record->names);
    require(record->start <= 1 && record->sole <= 1);
}

load_told lent_load(sheet of, tables into)
{
    da_record *record = lend(sizeof *record, EDGE_END);
    da_refusal *refusal = lend(sizeof *refusal, EDGE_END);
    bool loaded = truth(da_load(of.bytes, of.size, into.rows.numbers, into.rows.length, into.names.numbers, into.names.length, record,
                                refusal));
    load_told told = {loaded, *record, *refusal};
    give_back(record, sizeof *record);
    give_back(refusal, sizeof *refusal);
    if (loaded) {
        check_record(&told.record);
        require(told.refusal.number == 0 && told.refusal.line == 0);
    } else {
        const da_record zeros = {0, 0, 0, 0, 0};
        require(memcmp(&told.record, &zeros, sizeof zeros) == 0);
        require(told.refusal.number != 22 && told.refusal.number != 23);
        check_refusal(told.refusal.number, told.refusal.line);
    }
    return told;
}

da_answer lent_verdict(sheet of, tables into)
{
    da_answer *answer = lend(sizeof *answer, EDGE_END);
    bool accepted = truth(da_verdict(of.bytes, of.size, into.rows.numbers, into.rows.length, into.names.numbers, into.names.length,
                                     answer));
    da_answer told = *answer;
    give_back(answer, sizeof *answer);
    check_answer(accepted, &told);
    require(told.answer != DA_REFUSED || (told.reason != 22 && told.reason != 23));
    return told;
}

da_answer lent_ask(const da_record *record, tables of)
{
    da_record *lent = lend(sizeof *lent, EDGE_END);
    da_answer *answer = lend(sizeof *answer, EDGE_END);
    *lent = *record;
    bool accepted = truth(da_ask(lent, of.rows.numbers, of.rows.length, of.names.numbers, of.names.length, answer));
    da_answer told = *answer;
    require(memcmp(lent, record, sizeof *record) == 0);
    give_back(lent, sizeof *lent);
    give_back(answer, sizeof *answer);
    check_answer(accepted, &told);
    require(told.answer != DA_REFUSED || told.reason == 22 || told.reason == 23);
    return told;
}

da_place lent_name(sheet of, const da_record *record, table names, size_t number)
{
    da_record *lent = lend(sizeof *lent, EDGE_END);
    da_place *place = lend(sizeof *place, EDGE_END);
    *lent = *record;
    bool found = truth(da_name(of.bytes, of.size, lent, names.numbers, names.length, number, place));
    da_place told = *place;
    give_back(lent, sizeof *lent);
    give_back(place, sizeof *place);
    require(found == (told.refusal == 0));
    if (found) {
        require(told.offset <= of.size && told.length <= of.size - told.offset);
    } else {
        require(told.refusal == 22 || told.refusal == 24);
        require(told.offset == 0 && told.length == 0);
    }
    return told;
}
