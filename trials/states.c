#include "states.h"
#include "checks.h"

#include <stdlib.h>
#include <string.h>

/* The part of the text that `rest` is at, which then is after it. */
static char *next_part(char **rest)
{
    require(*rest != NULL);
    return strsep(rest, "|");
}

/* The next number of a part, which there must be. */
static size_t next_number(char **part)
{
    char *after;
    unsigned long long number = strtoull(*part, &after, 10);
    require(after != *part);
    *part = after;
    return number;
}

static table read_table(char **rest)
{
    char *count = next_part(rest);
    char *part = next_part(rest);
    table read = lend_table(next_number(&count), EDGE_END);
    for (size_t i = 0; i < read.length; i += 1) {
        read.numbers[i] = *part == '\0' ? 0 : (uint32_t)next_number(&part);
    }
    require(*part == '\0');
    return read;
}

state read_state(const frame *of)
{
    state read = {.title = malloc(of->size + 1)};
    require(read.title != NULL);
    memcpy(read.title, of->bytes, of->size);
    read.title[of->size] = '\0';
    char *rest = read.title;
    next_part(&rest);
    char *numbers = next_part(&rest);
    read.record.names = next_number(&numbers);
    read.record.rows = next_number(&numbers);
    read.record.local = next_number(&numbers);
    read.record.start = next_number(&numbers);
    read.record.sole = next_number(&numbers);
    read.tables.rows = read_table(&rest);
    read.tables.names = read_table(&rest);
    return read;
}

void give_back_state(state *of)
{
    give_back_table(of->tables.rows);
    give_back_table(of->tables.names);
    free(of->title);
}
