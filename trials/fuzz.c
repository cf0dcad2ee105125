/* libFuzzer on the calls of include/da.h: every input is a sheet's bytes, and is checked as memcheck's sheets are.
 *
 * What guides it: which instructions of the archive run for the first time (places.c), and what is told of a sheet. The line of a refusal
 * says how far the reading went; of a sheet that loads, the kinds of its rows beside the answer say what the walk met. */
#include "checks.h"
#include "places.h"

#include <stdio.h>
#include <stdlib.h>

#define KINDS 66
#define OUTCOMES 16
#define REFUSALS 12
#define LINES 96

__attribute__((used, section("__libfuzzer_extra_counters"), aligned(64))) static struct {
    uint8_t outcome[OUTCOMES];
    uint8_t refusal[REFUSALS][LINES];
    uint8_t kind[KINDS][OUTCOMES];
    uint8_t child[KINDS][KINDS];
    uint8_t rest[64];
} seen;

static struct {
    size_t loaded;
    size_t refused;
} inputs;

/* Falls 0 and 1, jumps, the nine reasons. */
static size_t outcome_of(const da_answer *answer)
{
    if (answer->answer == DA_FALLS) {
        return answer->state;
    }
    return answer->answer == DA_JUMPS ? 2 : 2 + answer->reason;
}

/* Each line for itself at first, then ever more of them together, or long sheets would crowd out the others. */
static size_t line_group(size_t line)
{
    size_t group = 0;
    while (line >= 16) {
        line /= 2;
        group += 8;
    }
    return group + line;
}

/* Which kinds stand in the sheet, with the answer and with the row that each stands in. */
static void see_rows(const uint32_t *rows, size_t count, size_t outcome)
{
    size_t open[101];
    size_t depth = 0;
    for (size_t row = 0; row < count; row += 1) {
        uint32_t kind = rows[5 * row];
        seen.kind[kind][outcome] = 1;
        while (depth > 0 && rows[5 * open[depth - 1] + 4] <= row) {
            depth -= 1;
        }
        if (depth > 0) {
            seen.child[rows[5 * open[depth - 1]]][kind] = 1;
        }
        open[depth] = row;
        depth += 1;
    }
}

static void see(const uint8_t *bytes, size_t size)
{
    static uint32_t rows[DA_ROW_NUMBERS];
    static uint32_t names[DA_NAME_NUMBERS];
    da_record record;
    da_refusal refusal;
    da_answer answer;
    if (!da_load(bytes, size, rows, DA_ROW_NUMBERS, names, DA_NAME_NUMBERS, &record, &refusal)) {
        size_t group = line_group(refusal.line);
        require(refusal.number < REFUSALS);
        seen.refusal[refusal.number][group < LINES ? group : LINES - 1] = 1;
        inputs.refused += 1;
        return;
    }
    inputs.loaded += 1;
    da_ask(&record, rows, DA_ROW_NUMBERS, names, DA_NAME_NUMBERS, &answer);
    require(answer.answer != DA_REFUSED);
    seen.outcome[outcome_of(&answer)] = 1;
    see_rows(rows, record.rows, outcome_of(&answer));
}

static void say_inputs(void)
{
    fprintf(stderr, "inputs: %zu loaded, %zu refused\n", inputs.loaded, inputs.refused);
}

int LLVMFuzzerInitialize(int *count, char ***words);
int LLVMFuzzerInitialize(int *count, char ***words)
{
    (void)count;
    (void)words;
    const char *path = getenv("DA_PLACES");
    if (path != NULL) {
        set_traps(path);
    }
    atexit(say_inputs);
    return 0;
}

int LLVMFuzzerTestOneInput(const uint8_t *bytes, size_t size);
int LLVMFuzzerTestOneInput(const uint8_t *bytes, size_t size)
{
    see(bytes, size);
    check_sheet(bytes, size);
    return 0;
}
