/* Calls that break what include/da.h asks of C, one by one: memcheck must report each, or it would not have seen the archive go wrong.
 * usage: controls fewer-rows|fewer-names|fewer-bytes|unset-byte|unset-row|none */
#include "../include/da.h"

#include <stdio.h>
#include <stdlib.h>
#include <string.h>

static const char SHEET[] = "sheet=1\nnames=1\nname=x\nlocal=0\nstart=0\nsole=1\nrows=1\nrow=null 0 0 0 1\n";

static void *block(size_t bytes)
{
    void *made = malloc(bytes);
    if (made == NULL) {
        abort();
    }
    return made;
}

int main(int count, char **words)
{
    const char *which = count == 2 ? words[1] : "";
    size_t size = sizeof SHEET - 1;
    size_t rows_lent = strcmp(which, "fewer-rows") == 0 ? 4 : 5;
    size_t names_lent = strcmp(which, "fewer-names") == 0 ? 2 : 3;
    size_t bytes_lent = strcmp(which, "fewer-bytes") == 0 ? size - 1 : size;
    size_t bytes_set = strcmp(which, "unset-byte") == 0 ? size - 1 : bytes_lent;
    uint8_t *sheet = block(bytes_lent);
    uint32_t *rows = block(rows_lent * sizeof *rows);
    uint32_t *names = block(names_lent * sizeof *names);
    memcpy(sheet, SHEET, bytes_set);
    da_record record;
    da_refusal refusal;
    da_answer answer;
    bool loaded = da_load(sheet, size, rows, 5, names, 3, &record, &refusal);
    if (strcmp(which, "unset-row") == 0) {
        uint32_t *unset = block(5 * sizeof *unset);
        da_ask(&record, unset, 5, names, 3, &answer);
        free(unset);
    } else {
        da_ask(&record, rows, 5, names, 3, &answer);
    }
    free(names);
    free(rows);
    free(sheet);
    return loaded && answer.answer == DA_FALLS ? 0 : 1;
}
