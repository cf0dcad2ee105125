#include "frames.h"

#include <stdlib.h>

/* The number on a size's line: no zero in front, and at most 18 digits, so that it cannot pass the end of a size_t. */
static enum came read_size(FILE *from, size_t *size)
{
    int byte = getc(from);
    if (byte == EOF) {
        return CAME_NOTHING;
    }
    *size = 0;
    int digits = 0;
    for (; byte >= '0' && byte <= '9'; byte = getc(from)) {
        if (digits == 18 || (digits > 0 && *size == 0)) {
            return CAME_NO_SIZE;
        }
        *size = *size * 10 + (size_t)(byte - '0');
        digits += 1;
    }
    return digits > 0 && byte == '\n' ? CAME_WHOLE : CAME_NO_SIZE;
}

enum came read_frame(FILE *from, frame *into)
{
    enum came came = read_size(from, &into->size);
    if (came != CAME_WHOLE) {
        return came;
    }
    into->bytes = malloc(into->size);
    if (into->bytes == NULL && into->size > 0) {
        return CAME_SHORT;
    }
    if (fread(into->bytes, 1, into->size, from) != into->size) {
        free(into->bytes);
        return CAME_SHORT;
    }
    return CAME_WHOLE;
}

void write_frame(FILE *to, const frame *of)
{
    fprintf(to, "%zu\n", of->size);
    fwrite(of->bytes, 1, of->size, to);
}
