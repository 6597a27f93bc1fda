/* A host in C: it reads a plan, writes it, checks it, moves jobs, pulls one and drains the cell. Argument: an input of `cellmoves`, whose plan it takes. */
#include "rilthoss.h"

#include <inttypes.h>
#include <stdio.h>
#include <string.h>

/* A cell that was stored before is read as it was written: no offset has moved, and no part is left out. */
_Static_assert(RILTHOSS_OFFSET_RESOURCES == 0 && RILTHOSS_OFFSET_TYPES == 1 && RILTHOSS_OFFSET_ROWS == 2, "counts");
_Static_assert(RILTHOSS_OFFSET_CAPACITIES == 3 && RILTHOSS_OFFSET_RANKS == 35 && RILTHOSS_MAX_RESOURCES == 32, "resources");
_Static_assert(RILTHOSS_OFFSET_BOUNDS == 67 && RILTHOSS_MAX_ROWS == 32, "rows");
_Static_assert(RILTHOSS_OFFSET_LENGTHS == 131 && RILTHOSS_MAX_TYPES == 16, "types");
_Static_assert(RILTHOSS_OFFSET_STAGES == 147 && RILTHOSS_STAGE_SIZE == 64 && RILTHOSS_MAX_STAGES == 128, "stages");
_Static_assert(RILTHOSS_OFFSET_JOB_COUNT == 8339 && RILTHOSS_OFFSET_JOBS == 8340 && RILTHOSS_MAX_JOBS == 64, "jobs");
_Static_assert(RILTHOSS_SIZE_RESOURCES + RILTHOSS_SIZE_TYPES + RILTHOSS_SIZE_ROWS + RILTHOSS_SIZE_CAPACITIES + RILTHOSS_SIZE_RANKS
        + RILTHOSS_SIZE_BOUNDS + RILTHOSS_SIZE_LENGTHS + RILTHOSS_SIZE_STAGES + RILTHOSS_SIZE_JOB_COUNT + RILTHOSS_SIZE_JOBS == RILTHOSS_CELL_SIZE,
    "all parts");

static uint8_t input[RILTHOSS_MAX_TEXT + 1];
static uint8_t output[RILTHOSS_MAX_OUTPUT];
static uint8_t cell[RILTHOSS_CELL_SIZE];

static void tell(const char *what, uint64_t answer, const char *part, uint32_t value)
{
    printf("%-16s %2u, %s %" PRIu32 ", jobs active %u\n", what, rilthoss_number(answer), part, value, cell[RILTHOSS_OFFSET_JOB_COUNT]);
}

static void tell_event(const char *what, uint64_t answer)
{
    tell(what, answer, "place", rilthoss_place(answer));
}

static void tell_drain(const char *what, uint64_t answer)
{
    tell(what, answer, "moves", rilthoss_moves(answer));
}

/* Of the job loaded first: its number (0), type (1) or stage (2). */
static uint32_t first_job(size_t field)
{
    const uint8_t *at = cell + RILTHOSS_OFFSET_JOBS + field * (RILTHOSS_JOB_SIZE / 3);
    return at[0] | (uint32_t)at[1] << 8 | (uint32_t)at[2] << 16 | (uint32_t)at[3] << 24;
}

/* The bytes before the line `E`, or all of them. */
static size_t plan_length(size_t length)
{
    for (size_t at = 0; at + 2 <= length; at++) {
        if ((at == 0 || input[at - 1] == '\n') && memcmp(input + at, "E\n", 2) == 0) {
            return at;
        }
    }
    return length;
}

/* Reads the plan into the cell, and holds what is written of it to the text that was read. */
static void read_and_write(size_t length)
{
    uint64_t read = rilthoss_read_plan(cell, sizeof cell, input, length);
    tell("read the plan", read, "line", rilthoss_line(read));
    uint64_t written = rilthoss_write_plan(cell, sizeof cell, output, RILTHOSS_MAX_TEXT);
    tell("write the plan", written, "length", rilthoss_length(written));
    int same = rilthoss_length(written) == length && memcmp(input, output, length) == 0;
    printf("the text written is %sthe one read\n", same ? "" : "not ");
    written = rilthoss_write_plan(cell, sizeof cell, output, length - 1);
    tell("no room", written, "length", rilthoss_length(written));
}

/* The check of the plan; and of one whose stage 2 of type 1 demands resource 1 too, by a byte of the host's. */
static void check(void)
{
    tell_event("check", rilthoss_check(cell, sizeof cell));
    cell[RILTHOSS_OFFSET_STAGES + RILTHOSS_STAGE_SIZE] = 1;
    uint64_t checked = rilthoss_check(cell, sizeof cell);
    printf("two units        %2u, type %" PRIu32 ", stage %u\n", rilthoss_number(checked), rilthoss_place(checked), rilthoss_second_place(checked));
    cell[RILTHOSS_OFFSET_STAGES + RILTHOSS_STAGE_SIZE] = 0;
}

/* A text whose second line is refused: the line is a part of it. */
static void refuse(void)
{
    static const char text[] = "C\t1\t1\t0\nR\t1\t256\n";
    uint64_t read = rilthoss_read_plan(cell, sizeof cell, (const uint8_t *)text, strlen(text));
    tell("a bad plan", read, "line", rilthoss_line(read));
    if (rilthoss_number(read) == RILTHOSS_OUT_OF_RANGE) {
        uint64_t shown = rilthoss_shown((const uint8_t *)text, strlen(text));
        printf("out of range in  %.*s\n", (int)(rilthoss_end(shown) - rilthoss_begin(shown)), text + rilthoss_begin(shown));
    }
}

int main(int argc, char **argv)
{
    FILE *file = argc == 2 ? fopen(argv[1], "rb") : NULL;
    if (file == NULL) {
        fputs("usage: example INPUT\n", stderr);
        return 1;
    }
    size_t length = fread(input, 1, sizeof input, file);
    fclose(file);

    printf("what cellmoves prints:\n");
    fwrite(output, 1, rilthoss_run(input, length, output, sizeof output), stdout);

    printf("the same plan in a cell of %d bytes:\n", RILTHOSS_CELL_SIZE);
    read_and_write(plan_length(length));
    check();
    tell_event("load 7, type 1", rilthoss_load(cell, sizeof cell, 7, 1));
    tell_event("load 8, type 2", rilthoss_load(cell, sizeof cell, 8, 2));
    tell_event("advance 7", rilthoss_advance(cell, sizeof cell, 7));
    printf("in the cell      job %" PRIu32 ", type %" PRIu32 ", stage %" PRIu32 "\n", first_job(0), first_job(1), first_job(2));
    tell_event("unload 7", rilthoss_unload(cell, sizeof cell, 7));
    tell_event("pull 7", rilthoss_pull(cell, sizeof cell, 7));
    tell_event("load 8, type 2", rilthoss_load(cell, sizeof cell, 8, 2));
    tell_event("pull 7", rilthoss_pull(cell, sizeof cell, 7));
    tell_drain("drain by 1", rilthoss_drain(cell, sizeof cell, 1));
    tell_drain("drain", rilthoss_drain(cell, sizeof cell, UINT32_MAX));
    tell_event("too short", rilthoss_load(cell, sizeof cell - 1, 7, 1));
    refuse();
    return 0;
}
