#include "places.h"

#include <signal.h>
#include <stdint.h>
#include <stdio.h>
#include <stdlib.h>
#include <string.h>
#include <sys/mman.h>
#include <ucontext.h>

#define MOST 8192
#define TRAP 0xCC /* int3 */
#define PAGE ((uintptr_t)4096)

/* libFuzzer clears this section before each run and looks at it after; one byte for each place. */
__attribute__((used, section("__libfuzzer_extra_counters"), aligned(64))) static uint8_t reached_now[MOST];

static struct {
    uintptr_t address; /* ascending, as the file has them */
    uint8_t instruction;
    uint8_t reached;
} places[MOST];
static size_t count;
static char unreached_path[4096];

/* The place of this address, or `count` where there is none. */
static size_t place_of(uintptr_t address)
{
    size_t low = 0;
    size_t high = count;
    while (low < high) {
        size_t middle = (low + high) / 2;
        if (places[middle].address < address) {
            low = middle + 1;
        } else {
            high = middle;
        }
    }
    return low < count && places[low].address == address ? low : count;
}

/* A trap that was not set here ends the program, as it would have without this. */
static void on_trap(int number, siginfo_t *info, void *context)
{
    (void)number;
    (void)info;
    greg_t *next = &((ucontext_t *)context)->uc_mcontext.gregs[REG_RIP];
    size_t place = place_of((uintptr_t)*next - 1);
    if (place == count) {
        abort();
    }
    *(uint8_t *)places[place].address = places[place].instruction;
    places[place].reached = 1;
    reached_now[place] = 1;
    *next -= 1;
}

static void write_unreached(void)
{
    size_t reached = 0;
    FILE *file = fopen(unreached_path, "w");
    for (size_t i = 0; i < count; i += 1) {
        reached += places[i].reached;
        if (file != NULL && !places[i].reached) {
            fprintf(file, "%lx\n", (unsigned long)places[i].address);
        }
    }
    if (file != NULL) {
        fclose(file);
    }
    fprintf(stderr, "instructions of the archive that ran: %zu of %zu\n", reached, count);
}

static void read_places(const char *path)
{
    FILE *file = fopen(path, "r");
    unsigned long address;
    if (file == NULL) {
        perror(path);
        exit(2);
    }
    while (count < MOST && fscanf(file, "%lx%*[^\n]", &address) == 1) {
        places[count].address = address;
        count += 1;
    }
    fclose(file);
    if (count == 0 || count == MOST) {
        fprintf(stderr, "%s: %zu places\n", path, count);
        exit(2);
    }
}

void set_traps(const char *path)
{
    struct sigaction action = {.sa_sigaction = on_trap, .sa_flags = SA_SIGINFO};
    read_places(path);
    uintptr_t first = places[0].address & ~(PAGE - 1);
    uintptr_t end = places[count - 1].address + 1;
    if (sigaction(SIGTRAP, &action, NULL) != 0 || mprotect((void *)first, end - first, PROT_READ | PROT_WRITE | PROT_EXEC) != 0) {
        perror("traps");
        exit(2);
    }
    for (size_t i = 0; i < count; i += 1) {
        places[i].instruction = *(uint8_t *)places[i].address;
        *(uint8_t *)places[i].address = TRAP;
    }
    snprintf(unreached_path, sizeof unreached_path, "%s.unreached", path);
    atexit(write_unreached);
}
