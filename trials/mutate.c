/* How the fuzzer changes a sheet. Bytes changed at random are refused on some early line nearly always, so half of the changes are made on
 * the rows as a tree, whose ends and counts are then right again: what is refused of such sheets is refused late, and many load. */
#include "../include/da.h"

#include <stdio.h>
#include <string.h>

#define MOST_ROWS 2000
#define TEXT (2 * DA_SHEET_BYTES)

/* The kinds by their numbers; a statement may mostly stand where another does, an expression, a target. */
static const char *const KINDS[] = {
    "none", "path", "seg", "delay", "intra", "star", "list", "event", "match", "default", "decl",
    /* statements */
    "blocking", "nonblocking", "if", "return", "case", "for", "while", "repeat", "forever", "block", "fork", "systask", "task",
    "randstmt", "delayctrl", "eventctrl", "trigger", "wait", "disable", "waitfork", "concurrent", "passign", "deassign", "force",
    "release", "deferred", "cover", "null", "error",
    /* expressions */
    "lit", "ident", "unary", "binary", "ternary", "bitsel", "partsel", "indexed", "mtm", "concat", "syscall", "pattern", "replicate",
    "method", "call", "paren", "cast", "namedarg", "new", "opaque",
    /* targets */
    "lident", "lbit", "lpart", "lidx", "lconcat", "lerror",
};
enum { SEG = 2, DECL = 10, STATEMENTS = 11, EXPRESSIONS = 40, TARGETS = 60, KIND_COUNT = 66 };

typedef struct {
    uint32_t kind, side, lo, hi, end;
} row;

typedef struct {
    da_record record;
    row rows[MOST_ROWS];
    uint32_t names[DA_NAME_NUMBERS];
} tree;

static uint64_t random_state;

static size_t below(size_t limit)
{
    random_state = random_state * 6364136223846793005U + 1442695040888963407U;
    return (size_t)(random_state >> 33) % limit;
}

static bool load_tree(tree *into, const uint8_t *bytes, size_t size)
{
    da_refusal refusal;
    return da_load(bytes, size, (uint32_t *)into->rows, DA_ROW_NUMBERS, into->names, DA_NAME_NUMBERS, &into->record, &refusal);
}

static uint32_t class_start(uint32_t kind)
{
    if (kind < STATEMENTS) {
        return 0;
    }
    return kind < EXPRESSIONS ? STATEMENTS : kind < TARGETS ? EXPRESSIONS : TARGETS;
}

/* A kind of the same class, but for one time in eight. */
static uint32_t other_kind(uint32_t kind)
{
    static const uint32_t ENDS[] = {STATEMENTS, EXPRESSIONS, TARGETS, KIND_COUNT};
    uint32_t start = class_start(kind);
    uint32_t end = ENDS[(start >= STATEMENTS) + (start >= EXPRESSIONS) + (start >= TARGETS)];
    return (uint32_t)(below(8) == 0 ? below(KIND_COUNT) : start + below(end - start));
}

/* Puts rows, whose ends count from their first, in the place of `removed` rows from `at` on. */
static void splice(tree *of, size_t at, size_t removed, const row *put, size_t count)
{
    size_t rows = of->record.rows;
    if (rows - removed + count > MOST_ROWS || rows - removed + count == 0) {
        return;
    }
    uint32_t more = (uint32_t)(count - removed);
    for (size_t i = 0; i < rows; i += 1) {
        if (i < at ? of->rows[i].end > at : i >= at + removed) {
            of->rows[i].end += more;
        }
    }
    memmove(of->rows + at + count, of->rows + at + removed, (rows - at - removed) * sizeof(row));
    for (size_t i = 0; i < count; i += 1) {
        of->rows[at + i] = put[i];
        of->rows[at + i].end += (uint32_t)at;
    }
    of->record.rows = rows - removed + count;
}

/* A row of the donor with all that stands in it, its names brought below the count of the sheet that takes it. */
static size_t copy_subtree(row *into, const tree *donor, size_t at, size_t names)
{
    size_t count = donor->rows[at].end - at;
    for (size_t i = 0; i < count; i += 1) {
        into[i] = donor->rows[at + i];
        into[i].end -= (uint32_t)at;
        if (into[i].kind == SEG || into[i].kind == DECL) {
            into[i].side %= (uint32_t)names;
        }
    }
    return count;
}

/* A row of the donor that is of this kind's class, if one is soon found. */
static size_t find_donor(const tree *donor, uint32_t kind)
{
    size_t at = below(donor->record.rows);
    for (int tries = 0; tries < 16 && class_start(donor->rows[at].kind) != class_start(kind); tries += 1) {
        at = below(donor->record.rows);
    }
    return at;
}

static void wrap(tree *of, size_t at)
{
    static row put[MOST_ROWS + 1];
    size_t count = copy_subtree(put + 1, of, at, of->record.names);
    put[0] = (row){other_kind(of->rows[at].kind), 0, (uint32_t)below(100), (uint32_t)below(100), (uint32_t)count + 1};
    for (size_t i = 1; i <= count; i += 1) {
        put[i].end += 1;
    }
    splice(of, at, count, put, count + 1);
}

static void change_header(tree *of)
{
    switch (below(3)) {
    case 0:
        of->record.local = below(of->record.names);
        break;
    case 1:
        of->record.start ^= 1;
        break;
    default:
        of->record.sole ^= 1;
    }
}

static void change(tree *of, const tree *donor)
{
    static row put[MOST_ROWS];
    size_t at = below(of->record.rows);
    row *here = &of->rows[at];
    size_t size = here->end - at;
    size_t from = find_donor(donor, here->kind);
    switch (below(8)) {
    case 0:
        here->kind = other_kind(here->kind);
        break;
    case 1:
        here->side = (uint32_t)below(below(2) == 0 ? 8 : of->record.names);
        break;
    case 2:
        change_header(of);
        break;
    case 3:
        splice(of, at, size, NULL, 0);
        break;
    case 4:
        wrap(of, at);
        break;
    case 5:
        if (at > 0) {
            splice(of, at, 0, put, copy_subtree(put, donor, from, of->record.names));
        }
        break;
    default:
        splice(of, at, size, put, copy_subtree(put, donor, from, of->record.names));
    }
}

/* The text of a sheet, with the names of the one that it was made from; 0 where it is too long. */
static size_t write_tree(const tree *of, const uint8_t *bytes, uint8_t *out, size_t most)
{
    static char text[TEXT];
    const da_record *record = &of->record;
    size_t size = (size_t)sprintf(text, "sheet=1\nnames=%zu\n", record->names);
    for (size_t i = 0; i < record->names; i += 1) {
        const uint32_t *name = of->names + 3 * i;
        size += (size_t)sprintf(text + size, "name=%.*s\n", (int)name[1], (const char *)bytes + name[0]);
    }
    size += (size_t)sprintf(text + size, "local=%zu\nstart=%zu\nsole=%zu\nrows=%zu\n", record->local, record->start, record->sole,
                            record->rows);
    for (size_t i = 0; i < record->rows && size < most && size < DA_SHEET_BYTES; i += 1) {
        const row *at = &of->rows[i];
        size += (size_t)sprintf(text + size, "row=%s %u %u %u %u\n", KINDS[at->kind], at->side, at->lo, at->hi, at->end);
    }
    if (size > most) {
        return 0;
    }
    memcpy(out, text, size);
    return size;
}

size_t LLVMFuzzerMutate(uint8_t *bytes, size_t size, size_t most);

size_t LLVMFuzzerCustomMutator(uint8_t *bytes, size_t size, size_t most, unsigned seed);
size_t LLVMFuzzerCustomMutator(uint8_t *bytes, size_t size, size_t most, unsigned seed)
{
    static tree of;
    static tree donor;
    random_state = seed;
    if (below(2) == 0 || !load_tree(&of, bytes, size)) {
        return LLVMFuzzerMutate(bytes, size, most);
    }
    donor = of;
    for (size_t changes = 1 + below(4); changes > 0; changes -= 1) {
        change(&of, &donor);
    }
    size_t written = write_tree(&of, bytes, bytes, most);
    return written > 0 ? written : LLVMFuzzerMutate(bytes, size, most);
}

size_t LLVMFuzzerCustomCrossOver(const uint8_t *one, size_t one_size, const uint8_t *other, size_t other_size, uint8_t *out, size_t most,
                                 unsigned seed);
size_t LLVMFuzzerCustomCrossOver(const uint8_t *one, size_t one_size, const uint8_t *other, size_t other_size, uint8_t *out, size_t most,
                                 unsigned seed)
{
    static tree of;
    static tree donor;
    random_state = seed;
    if (!load_tree(&of, one, one_size) || !load_tree(&donor, other, other_size)) {
        return 0;
    }
    for (size_t changes = 1 + below(3); changes > 0; changes -= 1) {
        change(&of, &donor);
    }
    return write_tree(&of, one, out, most);
}
