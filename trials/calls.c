/* The calls of include/da.h on frames from standard input.
 * usage: calls sheets < FRAMES         checks each sheet and prints its answer, as `batch` does
 *        calls states < FRAMES         checks each record with tables and prints its answer, as `ask_cases` does
 *        calls damaged < FRAMES        of the generator's frames, the damaged ones
 *        calls split FOLDER < FRAMES   a file for each frame
 *        calls join FILE.. > FRAMES    a frame for each file */
#include "checks.h"
#include "frames.h"
#include "lent.h"
#include "states.h"

#include <stdlib.h>
#include <string.h>

static void print_answer(const da_answer *told)
{
    static const char *const WORDS[] = {"falls", "jumps", "giveup", "refused"};
    printf("answer=%s;state=%zu;reason=%zu;lo=%zu;hi=%zu\n", WORDS[told->answer], told->state, told->reason, told->lo, told->hi);
}

static void say_sheet(const frame *of, size_t number)
{
    (void)number;
    da_answer told = check_sheet(of->bytes, of->size);
    print_answer(&told);
}

static void say_state(const frame *of, size_t number)
{
    (void)number;
    state read = read_state(of);
    printf("%s: ", read.title);
    da_answer told = lent_ask(&read.record, read.tables);
    print_answer(&told);
    give_back_state(&read);
}

/* Of each six sheets the generator makes the first two damaged. */
static void pass_damaged(const frame *of, size_t number)
{
    if ((number - 1) % 6 < 2) {
        write_frame(stdout, of);
    }
}

static const char *folder;

static void write_file(const frame *of, size_t number)
{
    char path[4096];
    snprintf(path, sizeof path, "%s/%05zu", folder, number);
    FILE *file = fopen(path, "wb");
    if (file == NULL || fwrite(of->bytes, 1, of->size, file) != of->size || fclose(file) != 0) {
        perror(path);
        exit(1);
    }
}

/* A broken frame ends the run with the line that `batch` ends it with. */
static int each_frame(void (*with)(const frame *of, size_t number))
{
    for (size_t number = 1;; number += 1) {
        frame next;
        switch (read_frame(stdin, &next)) {
        case CAME_NOTHING:
            return 0;
        case CAME_NO_SIZE:
            printf("broken frame %zu: its first line is no size\n", number);
            return 0;
        case CAME_SHORT:
            printf("broken frame %zu: the input ends before its size\n", number);
            return 0;
        case CAME_WHOLE:
            with(&next, number);
            free(next.bytes);
        }
    }
}

static void join(const char *path)
{
    FILE *file = fopen(path, "rb");
    frame of = {NULL, 0};
    if (file == NULL || fseek(file, 0, SEEK_END) != 0) {
        perror(path);
        exit(1);
    }
    of.size = (size_t)ftell(file);
    of.bytes = malloc(of.size);
    rewind(file);
    if (fread(of.bytes, 1, of.size, file) != of.size) {
        perror(path);
        exit(1);
    }
    write_frame(stdout, &of);
    free(of.bytes);
    fclose(file);
}

int main(int count, char **words)
{
    const char *mode = count > 1 ? words[1] : "";
    if (strcmp(mode, "sheets") == 0) {
        return each_frame(say_sheet);
    }
    if (strcmp(mode, "states") == 0) {
        return each_frame(say_state);
    }
    if (strcmp(mode, "damaged") == 0) {
        return each_frame(pass_damaged);
    }
    if (strcmp(mode, "split") == 0 && count == 3) {
        folder = words[2];
        return each_frame(write_file);
    }
    if (strcmp(mode, "join") == 0) {
        for (int i = 2; i < count; i += 1) {
            join(words[i]);
        }
        return 0;
    }
    fprintf(stderr, "usage: calls sheets|states|damaged|split FOLDER|join FILE..\n");
    return 2;
}
