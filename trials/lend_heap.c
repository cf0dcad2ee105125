#include "lend.h"

#include <stdlib.h>

void *lend(size_t bytes, enum edge edge)
{
    (void)edge;
    void *block = malloc(bytes);
    if (block == NULL) {
        abort();
    }
    return block;
}

void give_back(void *block, size_t bytes)
{
    (void)bytes;
    free(block);
}
