#include "lend.h"

#include <stdbool.h>
#include <stdint.h>
#include <stdlib.h>
#include <string.h>
#include <sys/mman.h>

/* Room for every block that the checks lend, of which the longest is a sheet of 200,000 bytes, and more rooms than are lent at one time. */
#define PAGE ((size_t)4096)
#define ROOM (64 * PAGE)
#define ROOMS 16

/* No table and no answer has this number by itself, so content that is used before it is set tends to show. */
#define FILL 0xA5

/* Beyond the other edge the page may be touched; so many bytes there must keep what they held. */
#define MARGIN ((size_t)64)

static struct {
    uint8_t *start;
    bool lent;
} rooms[ROOMS];

static void make_rooms(void)
{
    for (size_t i = 0; i < ROOMS; i += 1) {
        uint8_t *all = mmap(NULL, ROOM + 2 * PAGE, PROT_NONE, MAP_PRIVATE | MAP_ANONYMOUS, -1, 0);
        if (all == MAP_FAILED || mprotect(all + PAGE, ROOM, PROT_READ | PROT_WRITE) != 0) {
            abort();
        }
        rooms[i].start = all + PAGE;
    }
}

/* The bytes beyond the edge that no page guards. */
static uint8_t *margin(size_t room, const uint8_t *block, size_t bytes)
{
    uint8_t *start = rooms[room].start;
    return block == start ? start + bytes : start + ROOM - bytes - MARGIN;
}

void *lend(size_t bytes, enum edge edge)
{
    if (rooms[0].start == NULL) {
        make_rooms();
    }
    for (size_t i = 0; i < ROOMS; i += 1) {
        if (!rooms[i].lent && bytes + MARGIN <= ROOM) {
            rooms[i].lent = true;
            uint8_t *block = edge == EDGE_START ? rooms[i].start : rooms[i].start + ROOM - bytes;
            memset(block, FILL, bytes);
            memset(margin(i, block, bytes), FILL, MARGIN);
            return block;
        }
    }
    abort();
}

void give_back(void *block, size_t bytes)
{
    static uint8_t filled[MARGIN];
    memset(filled, FILL, MARGIN);
    for (size_t i = 0; i < ROOMS; i += 1) {
        uint8_t *start = rooms[i].start;
        if (rooms[i].lent && (block == start || block == start + ROOM - bytes)) {
            if (memcmp(margin(i, block, bytes), filled, MARGIN) != 0) {
                abort();
            }
            rooms[i].lent = false;
            return;
        }
    }
    abort();
}
