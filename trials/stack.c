/* How much stack the calls of include/da.h take below their caller.
 * usage: stack BYTES < FRAMES    the most that may be taken, and sheets
 * Each call runs on a stack of its own that is painted before; what is no longer painted was used. Beside the sheets on standard input,
 * every two statements that may hold another are nested in turn as deep as a row may stand. */
#include "../include/da.h"
#include "frames.h"

#include <stdlib.h>
#include <string.h>
#include <ucontext.h>

#define STACK ((size_t)256 * 1024)
#define PAINT 0xA5
#define DEEPEST 100

enum call { LOAD, ASK, VERDICT, NAME, CALLS };
static const char *const CALL_NAMES[CALLS] = {"da_load", "da_ask", "da_verdict", "da_name"};

static struct {
    size_t most;
    char on[128];
} taken[CALLS];

static _Alignas(4096) uint8_t stack[STACK];
static ucontext_t here;
static uint32_t rows[DA_ROW_NUMBERS];
static uint32_t names[DA_NAME_NUMBERS];
static da_record record;

/* What the call that runs on the painted stack is about. */
static struct {
    enum call which;
    frame sheet;
    uint8_t *caller; /* where its caller's frame is */
} running;

static void run_call(void)
{
    da_refusal refusal;
    da_answer answer;
    da_place place;
    const frame *of = &running.sheet;
    running.caller = __builtin_frame_address(0);
    switch (running.which) {
    case LOAD:
        da_load(of->bytes, of->size, rows, DA_ROW_NUMBERS, names, DA_NAME_NUMBERS, &record, &refusal);
        break;
    case ASK:
        da_ask(&record, rows, DA_ROW_NUMBERS, names, DA_NAME_NUMBERS, &answer);
        break;
    case VERDICT:
        da_verdict(of->bytes, of->size, rows, DA_ROW_NUMBERS, names, DA_NAME_NUMBERS, &answer);
        break;
    default:
        da_name(of->bytes, of->size, &record, names, DA_NAME_NUMBERS, 0, &place);
    }
}

static size_t measure(enum call which)
{
    ucontext_t there;
    running.which = which;
    memset(stack, PAINT, STACK);
    if (getcontext(&there) != 0) {
        abort();
    }
    there.uc_stack.ss_sp = stack;
    there.uc_stack.ss_size = STACK;
    there.uc_link = &here;
    makecontext(&there, run_call, 0);
    if (swapcontext(&here, &there) != 0) {
        abort();
    }
    size_t lowest = 0;
    while (stack[lowest] == PAINT) {
        lowest += 1;
    }
    return (size_t)(running.caller - (stack + lowest));
}

static void measure_sheet(frame sheet, const char *title)
{
    running.sheet = sheet;
    for (enum call which = 0; which < CALLS; which += 1) {
        size_t bytes = measure(which);
        if (bytes > taken[which].most) {
            taken[which].most = bytes;
            snprintf(taken[which].on, sizeof taken[which].on, "%s", title);
        }
    }
}

/* A statement that holds another, with the rows before and after it, none of which holds any. */
typedef struct {
    const char *kind;
    const char *before[3];
    const char *after[3];
} form;

static const form FORMS[] = {
    {"while", {"lit"}, {NULL}},
    {"for", {"null", "lit", "null"}, {NULL}},
    {"for", {"null", "lit"}, {"null"}},
    {"for", {NULL}, {"lit", "null", "null"}},
    {"repeat", {"lit"}, {NULL}},
    {"forever", {NULL}, {NULL}},
    {"if", {"lit"}, {"none"}},
    {"if", {"lit", "null"}, {NULL}},
    {"block", {NULL}, {NULL}},
    {"delayctrl", {"delay"}, {NULL}},
    {"eventctrl", {"star"}, {NULL}},
    {"wait", {"lit"}, {NULL}},
};
#define FORM_COUNT (sizeof FORMS / sizeof FORMS[0])

static const char *const LEAVES[] = {"null", "systask", "block", "fork", "error"};
#define LEAF_COUNT (sizeof LEAVES / sizeof LEAVES[0])

static struct {
    const char *kind;
    size_t side;
    size_t end;
} nest[8 * DEEPEST];
static size_t nest_rows;

static void put_leaf(const char *kind)
{
    nest[nest_rows].kind = kind;
    nest[nest_rows].side = 0;
    nest_rows += 1;
    nest[nest_rows - 1].end = nest_rows;
}

static void put_leaves(const char *const kinds[3])
{
    for (size_t i = 0; i < 3 && kinds[i] != NULL; i += 1) {
        put_leaf(kinds[i]);
    }
}

static bool is_loop(const char *kind)
{
    return strcmp(kind, "while") == 0 || kind[0] == 'f' || strcmp(kind, "repeat") == 0;
}

/* So many rows deep, one form within the other and the leaf at the bottom. */
static void put_nest(const form *one, const form *other, const char *leaf, size_t side, size_t deep)
{
    if (deep == 1) {
        put_leaf(leaf);
        return;
    }
    size_t at = nest_rows;
    put_leaf(one->kind);
    nest[at].side = is_loop(one->kind) ? side : 0;
    put_leaves(one->before);
    put_nest(other, one, leaf, side, deep - 1);
    put_leaves(one->after);
    nest[at].end = nest_rows;
}

static void measure_nest(const form *one, const form *other, const char *leaf, size_t facts)
{
    static char text[DA_SHEET_BYTES];
    char title[128];
    nest_rows = 0;
    put_nest(one, other, leaf, facts & 1, DEEPEST);
    size_t size = (size_t)sprintf(text, "sheet=1\nnames=1\nname=x\nlocal=0\nstart=%zu\nsole=%zu\nrows=%zu\n", facts >> 1 & 1,
                                  facts >> 2 & 1, nest_rows);
    for (size_t i = 0; i < nest_rows; i += 1) {
        size += (size_t)sprintf(text + size, "row=%s %zu 0 0 %zu\n", nest[i].kind, nest[i].side, nest[i].end);
    }
    snprintf(title, sizeof title, "%s and %s in turn, %s within", one->kind, other->kind, leaf);
    measure_sheet((frame){(uint8_t *)text, size}, title);
    if (record.rows != nest_rows) {
        fprintf(stderr, "%s: does not load\n", title);
        exit(1);
    }
}

static void measure_nests(void)
{
    for (size_t one = 0; one < FORM_COUNT; one += 1) {
        for (size_t other = 0; other < FORM_COUNT; other += 1) {
            for (size_t leaf = 0; leaf < LEAF_COUNT; leaf += 1) {
                for (size_t facts = 0; facts < 8; facts += 1) {
                    measure_nest(&FORMS[one], &FORMS[other], LEAVES[leaf], facts);
                }
            }
        }
    }
}

int main(int count, char **words)
{
    size_t limit = count == 2 ? strtoul(words[1], NULL, 10) : 0;
    frame next;
    for (size_t number = 1; read_frame(stdin, &next) == CAME_WHOLE; number += 1) {
        char title[64];
        snprintf(title, sizeof title, "sheet %zu of the list", number);
        measure_sheet(next, title);
        free(next.bytes);
    }
    measure_nests();
    size_t passed = 0;
    for (enum call which = 0; which < CALLS; which += 1) {
        printf("%s takes %zu bytes of stack at most: %s\n", CALL_NAMES[which], taken[which].most, taken[which].on);
        passed += taken[which].most <= limit;
    }
    printf("%zu passed, %zu failed\n", passed, CALLS - passed);
    return passed == CALLS ? 0 : 1;
}
