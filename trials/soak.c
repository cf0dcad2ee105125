/* A server's life in one process: the sheets on standard input through all calls, again and again.
 * usage: soak CALLS < FRAMES    until da_verdict was called so many times
 * After the first pass no pass may tell anything else, and the process may not have grown by a byte. */
#include "../include/da.h"
#include "frames.h"

#include <fcntl.h>
#include <malloc.h>
#include <stdlib.h>
#include <string.h>
#include <time.h>
#include <unistd.h>

/* Read before the first pass, so that no pass takes anything from the heap. */
typedef struct {
    frame *frames;
    size_t count;
} list;

typedef struct {
    size_t resident; /* kilobytes, VmRSS */
    size_t highest;  /* kilobytes, VmHWM */
    size_t heap;     /* bytes that malloc has given out */
} memory;

static struct {
    size_t verdicts, loads, asks, names;
    double slowest; /* seconds of the processor's time, of one da_verdict */
} calls;

static uint32_t rows[DA_ROW_NUMBERS];
static uint32_t names[DA_NAME_NUMBERS];

static list read_list(void)
{
    list read = {NULL, 0};
    frame next;
    while (read_frame(stdin, &next) == CAME_WHOLE) {
        frame *more = realloc(read.frames, (read.count + 1) * sizeof *more);
        if (more == NULL) {
            abort();
        }
        read.frames = more;
        read.frames[read.count] = next;
        read.count += 1;
    }
    return read;
}

/* FNV-1a, number by number. */
static void mix(uint64_t *digest, const void *of, size_t bytes)
{
    const uint8_t *at = of;
    for (size_t i = 0; i < bytes; i += 1) {
        *digest = (*digest ^ at[i]) * 1099511628211U;
    }
}

static double now(clockid_t clock)
{
    struct timespec time;
    clock_gettime(clock, &time);
    return (double)time.tv_sec + (double)time.tv_nsec / 1e9;
}

static void verdict(const frame *of, uint64_t *digest)
{
    da_answer answer;
    double before = now(CLOCK_THREAD_CPUTIME_ID);
    bool accepted = da_verdict(of->bytes, of->size, rows, DA_ROW_NUMBERS, names, DA_NAME_NUMBERS, &answer);
    double taken = now(CLOCK_THREAD_CPUTIME_ID) - before;
    calls.slowest = taken > calls.slowest ? taken : calls.slowest;
    calls.verdicts += 1;
    mix(digest, &answer, sizeof answer);
    mix(digest, &accepted, sizeof accepted);
}

static void load_and_ask(const frame *of, uint64_t *digest)
{
    da_record record;
    da_refusal refusal;
    da_answer answer;
    da_load(of->bytes, of->size, rows, DA_ROW_NUMBERS, names, DA_NAME_NUMBERS, &record, &refusal);
    da_ask(&record, rows, DA_ROW_NUMBERS, names, DA_NAME_NUMBERS, &answer);
    calls.loads += 1;
    calls.asks += 1;
    mix(digest, &record, sizeof record);
    mix(digest, &refusal, sizeof refusal);
    mix(digest, &answer, sizeof answer);
    mix(digest, rows, 5 * record.rows * sizeof *rows);
    for (size_t number = 0; number < record.names; number += 1) {
        da_place place;
        da_name(of->bytes, of->size, &record, names, DA_NAME_NUMBERS, number, &place);
        calls.names += 1;
        mix(digest, &place, sizeof place);
    }
}

static uint64_t pass(const list *over)
{
    uint64_t digest = 14695981039346656037U;
    for (size_t i = 0; i < over->count; i += 1) {
        verdict(&over->frames[i], &digest);
        load_and_ask(&over->frames[i], &digest);
    }
    return digest;
}

/* A line of /proc/self/status, in kilobytes. */
static size_t status_line(const char *text, const char *key)
{
    const char *at = strstr(text, key);
    return at == NULL ? 0 : strtoul(at + strlen(key), NULL, 10);
}

/* Read without stdio, which would take a buffer from the heap that is being measured. */
static memory measure(void)
{
    static char text[8192];
    int file = open("/proc/self/status", O_RDONLY);
    ssize_t got = file < 0 ? -1 : read(file, text, sizeof text - 1);
    if (got <= 0 || close(file) != 0) {
        abort();
    }
    text[got] = '\0';
    struct mallinfo2 heap = mallinfo2();
    return (memory){status_line(text, "VmRSS:"), status_line(text, "VmHWM:"), heap.uordblks + heap.hblkhd};
}

static void say_memory(const char *when, memory of)
{
    printf("%s: VmRSS %zu kB, VmHWM %zu kB, %zu bytes of the heap in use\n", when, of.resident, of.highest, of.heap);
}

/* How many of the passes and of the three measures were as they must be. */
static int report(size_t passes, size_t good, memory first, memory last, double seconds)
{
    printf("%zu calls of da_verdict, %zu of da_load, %zu of da_ask, %zu of da_name in %zu passes, %.1f s\n", calls.verdicts, calls.loads,
           calls.asks, calls.names, passes, seconds);
    printf("the slowest da_verdict took %.3f ms\n", calls.slowest * 1e3);
    say_memory("after the first pass", first);
    say_memory("after the last pass", last);
    size_t kept = (size_t)(last.resident <= first.resident) + (last.highest <= first.highest) + (last.heap == first.heap);
    size_t failed = passes - good + (3 - kept);
    printf("%zu passed, %zu failed\n", good + kept, failed);
    return failed == 0 ? 0 : 1;
}

int main(int count, char **words)
{
    size_t least = count == 2 ? strtoul(words[1], NULL, 10) : 0;
    list over = read_list();
    if (least == 0 || over.count == 0) {
        fprintf(stderr, "usage: soak CALLS < FRAMES\n");
        return 2;
    }
    measure(); /* so that what measuring itself touches is there before anything is measured */
    double start = now(CLOCK_MONOTONIC);
    uint64_t digest = pass(&over);
    memory first = measure();
    size_t passes = 1;
    size_t good = 1;
    while (calls.verdicts < least) {
        good += pass(&over) == digest;
        passes += 1;
    }
    memory last = measure();
    double seconds = now(CLOCK_MONOTONIC) - start;
    printf("%zu sheets, digest of the first pass %016llx\n", over.count, (unsigned long long)digest);
    return report(passes, good, first, last, seconds);
}
