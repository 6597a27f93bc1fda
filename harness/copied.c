/* The bytes that a call copies and sets, one line for each. The linker hands memcpy, memmove and memset to the functions below (--wrap); what the
 * library copies by instructions of its own is not seen. Standard input: the crossing plan. */
#include "rilthoss.h"

#include <stdio.h>
#include <string.h>

static struct counts {
    size_t copied, set;
} counts;

static uint8_t cell[RILTHOSS_CELL_SIZE];
static uint8_t text[RILTHOSS_MAX_TEXT];
static uint8_t buffer[RILTHOSS_MAX_OUTPUT];

void *__real_memcpy(void *to, const void *from, size_t length);
void *__real_memmove(void *to, const void *from, size_t length);
void *__real_memset(void *to, int byte, size_t length);
void *__wrap_memcpy(void *to, const void *from, size_t length);
void *__wrap_memmove(void *to, const void *from, size_t length);
void *__wrap_memset(void *to, int byte, size_t length);

void *__wrap_memcpy(void *to, const void *from, size_t length)
{
    counts.copied += length;
    return __real_memcpy(to, from, length);
}

void *__wrap_memmove(void *to, const void *from, size_t length)
{
    counts.copied += length;
    return __real_memmove(to, from, length);
}

void *__wrap_memset(void *to, int byte, size_t length)
{
    counts.set += length;
    return __real_memset(to, byte, length);
}

/* What was counted since it was last asked. */
static struct counts counted(void)
{
    struct counts since = counts;
    counts.copied = counts.set = 0;
    return since;
}

/* A call that was just made, by its answer's number. */
static void call(const char *what, uint64_t answer)
{
    struct counts now = counted();
    printf("| %s, answered %u | %zu | %zu |\n", what, rilthoss_number(answer), now.copied, now.set);
}

/* A step of the call that was just made: what it counts above the same call without that step. */
static void step(const char *what, struct counts without)
{
    struct counts now = counted();
    printf("| %s | %zu | %zu |\n", what, now.copied - without.copied, now.set - without.set);
}

/* A move of a drain: by a budget of 2, and of 1, from the same cell. */
static void drain(void)
{
    rilthoss_load(cell, sizeof cell, 7, 1);
    memcpy(buffer, cell, sizeof cell);
    counted();
    rilthoss_drain(buffer, sizeof cell, 1);
    struct counts without = counted();
    rilthoss_drain(cell, sizeof cell, 2);
    step("a move of a drain", without);
}

/* An event line of a run: the advance after the load. */
static void run(size_t length)
{
    static const uint8_t events[] = {'E', '\n', 'L', '\t', '7', '\t', '1', '\n', 'A', '\t', '7', '\n'};
    memcpy(text + length, events, sizeof events);
    counted();
    rilthoss_run(text, length + sizeof events - 4, buffer, sizeof buffer);
    struct counts without = counted();
    rilthoss_run(text, length + sizeof events, buffer, sizeof buffer);
    step("an event line of a run", without);
}

int main(void)
{
    size_t length = fread(text, 1, sizeof text / 2, stdin);
    printf("| what | bytes copied | bytes set |\n|---|---:|---:|\n");
    counted();
    call("read the plan", rilthoss_read_plan(cell, sizeof cell, text, length));
    call("write the plan", rilthoss_write_plan(cell, sizeof cell, buffer, sizeof buffer));
    call("check", rilthoss_check(cell, sizeof cell));
    call("load", rilthoss_load(cell, sizeof cell, 7, 1));
    call("load", rilthoss_load(cell, sizeof cell, 8, 2));
    call("advance", rilthoss_advance(cell, sizeof cell, 7));
    rilthoss_advance(cell, sizeof cell, 7);
    counted();
    call("unload", rilthoss_unload(cell, sizeof cell, 7));
    rilthoss_load(cell, sizeof cell, 7, 1);
    counted();
    call("pull", rilthoss_pull(cell, sizeof cell, 7));
    drain();
    run(length);
    return 0;
}
