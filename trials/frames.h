/* Frames, as `batch` reads them: a line with the decimal number of bytes, and then those bytes. */
#ifndef FRAMES_H
#define FRAMES_H

#include <stddef.h>
#include <stdint.h>
#include <stdio.h>

typedef struct {
    uint8_t *bytes; /* a block of exactly `size` bytes, to be freed */
    size_t size;
} frame;

enum came { CAME_NOTHING, CAME_WHOLE, CAME_NO_SIZE, CAME_SHORT };

/* The next frame; only a whole one has bytes to be freed. */
enum came read_frame(FILE *from, frame *into);

void write_frame(FILE *to, const frame *of);

#endif
