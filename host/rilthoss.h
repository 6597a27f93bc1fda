/* Rilthoss for a host: move admission for robot cells. Link librilthoss.a (x86-64).
 *
 * A cell, that is a plan and a table of active jobs, lives in RILTHOSS_CELL_SIZE bytes of the host's own memory. Any bytes may stand there:
 * what they hold is asked at each call and never trusted, so the host may store a cell, copy it or receive it from elsewhere.
 * Bytes that are all 0 hold the empty plan and no job. A pointer is never null, even with length 0, points to as many bytes as its length says,
 * and the two of one call do not overlap.
 *
 * The functions keep nothing between calls, allocate nothing and use some 64 KB of stack. Calls on different cells may run at once, in different
 * threads; calls on the same cell may not, unless each of them only reads it (const).
 */
#ifndef RILTHOSS_H
#define RILTHOSS_H

#include <stddef.h>
#include <stdint.h>

#ifdef __cplusplus
extern "C" {
#endif

/* The most that a cell holds. */
#define RILTHOSS_MAX_RESOURCES 32
#define RILTHOSS_MAX_TYPES 16
#define RILTHOSS_MAX_ROWS 32
#define RILTHOSS_MAX_STAGES 128 /* of all types together */
#define RILTHOSS_MAX_JOBS 64

/* One stage: its units of resource 1 to 32, then its weight in row 1 to 32, a byte each. */
#define RILTHOSS_STAGE_SIZE (RILTHOSS_MAX_RESOURCES + RILTHOSS_MAX_ROWS)
/* One job: its number, its type and its stage, 4 bytes each. Numbers of more than one byte have their lowest byte first. */
#define RILTHOSS_JOB_SIZE 12

/* The parts of a cell, one behind the other without a gap: how many bytes each has. What lies beyond a count is 0, or the answer is 11 or 12. */
#define RILTHOSS_SIZE_RESOURCES 1                                         /* the count of resources */
#define RILTHOSS_SIZE_TYPES 1                                             /* the count of types */
#define RILTHOSS_SIZE_ROWS 1                                              /* the count of rows */
#define RILTHOSS_SIZE_CAPACITIES RILTHOSS_MAX_RESOURCES                   /* the capacity of resource 1 to 32 */
#define RILTHOSS_SIZE_RANKS RILTHOSS_MAX_RESOURCES                        /* their ranks; 0: no rank */
#define RILTHOSS_SIZE_BOUNDS (RILTHOSS_MAX_ROWS * 2)                      /* the bound of row 1 to 32, 2 bytes each */
#define RILTHOSS_SIZE_LENGTHS RILTHOSS_MAX_TYPES                          /* the count of stages of type 1 to 16 */
#define RILTHOSS_SIZE_STAGES (RILTHOSS_MAX_STAGES * RILTHOSS_STAGE_SIZE)  /* the stages, type by type */
#define RILTHOSS_SIZE_JOB_COUNT 1                                         /* the count of active jobs */
#define RILTHOSS_SIZE_JOBS (RILTHOSS_MAX_JOBS * RILTHOSS_JOB_SIZE)        /* the jobs, in the order loaded */

/* Where each part begins. */
#define RILTHOSS_OFFSET_RESOURCES 0
#define RILTHOSS_OFFSET_TYPES (RILTHOSS_OFFSET_RESOURCES + RILTHOSS_SIZE_RESOURCES)
#define RILTHOSS_OFFSET_ROWS (RILTHOSS_OFFSET_TYPES + RILTHOSS_SIZE_TYPES)
#define RILTHOSS_OFFSET_CAPACITIES (RILTHOSS_OFFSET_ROWS + RILTHOSS_SIZE_ROWS)
#define RILTHOSS_OFFSET_RANKS (RILTHOSS_OFFSET_CAPACITIES + RILTHOSS_SIZE_CAPACITIES)
#define RILTHOSS_OFFSET_BOUNDS (RILTHOSS_OFFSET_RANKS + RILTHOSS_SIZE_RANKS)
#define RILTHOSS_OFFSET_LENGTHS (RILTHOSS_OFFSET_BOUNDS + RILTHOSS_SIZE_BOUNDS)
#define RILTHOSS_OFFSET_STAGES (RILTHOSS_OFFSET_LENGTHS + RILTHOSS_SIZE_LENGTHS)
#define RILTHOSS_OFFSET_JOB_COUNT (RILTHOSS_OFFSET_STAGES + RILTHOSS_SIZE_STAGES)
#define RILTHOSS_OFFSET_JOBS (RILTHOSS_OFFSET_JOB_COUNT + RILTHOSS_SIZE_JOB_COUNT)
#define RILTHOSS_CELL_SIZE (RILTHOSS_OFFSET_JOBS + RILTHOSS_SIZE_JOBS) /* all of it: 9108 */

/* No plan text that is read or written, and no input that is run, has more bytes. */
#define RILTHOSS_MAX_TEXT 65536
/* No output of rilthoss_run has more bytes. */
#define RILTHOSS_MAX_OUTPUT 491526

/* The published numbers. */
enum rilthoss_answer_number {
    RILTHOSS_OK = 0, /* accepted, admitted, written; the plan meets the rule; no job is left */

    /* of a plan text */
    RILTHOSS_TOO_LONG = 1,     /* it has more than RILTHOSS_MAX_TEXT bytes */
    RILTHOSS_BAD_LINE = 2,     /* the line does not end with LF, or holds a byte other than a tab and 32 to 126 */
    RILTHOSS_BAD_LETTER = 3,   /* the letter is not in the list, not C in the first record, or of an earlier section */
    RILTHOSS_BAD_FIELDS = 4,   /* not the right count of fields, or a field that is not 1 to 5 digits */
    RILTHOSS_OUT_OF_RANGE = 5, /* a number is out of range, or there are more than 128 stages */
    RILTHOSS_REPEATED = 6,     /* a record with this key was there before */
    RILTHOSS_INCOMPLETE = 7,   /* a C, R, T, S or B is missing, or K is given for some resources only */

    /* of bytes: a written plan has no room in the buffer; and, beyond the papers' list and for a host alone, fewer bytes than a cell has */
    RILTHOSS_NO_ROOM = 9,

    /* of an event; the first also of a check and of a written plan, the first two also of a drain */
    RILTHOSS_UNSOUND_PLAN = 11,
    RILTHOSS_DISAGREEMENT = 12,   /* the table does not agree with the plan */
    RILTHOSS_BAD_NUMBER = 13,     /* the job number is out of range */
    RILTHOSS_WRONG_ACTIVITY = 14, /* to load: the number is active; else: it is not */
    RILTHOSS_UNKNOWN_TYPE = 15,
    RILTHOSS_FULL = 16,           /* RILTHOSS_MAX_JOBS jobs are active */
    RILTHOSS_WRONG_STAGE = 17,    /* to advance: no next stage; to unload: not the last one */
    RILTHOSS_OVER_CAPACITY = 18,  /* a capacity would be exceeded */
    RILTHOSS_ROW_BROKEN = 19,     /* a row would be broken */

    /* of the upstream check */
    RILTHOSS_NO_RANK = 21,      /* a resource has no rank */
    RILTHOSS_NOT_ONE_UNIT = 22, /* a stage does not demand exactly one unit of one resource */
    RILTHOSS_ROW_COUNT = 23,    /* there are not as many rows as resources */
    RILTHOSS_WRONG_WEIGHT = 24,
    RILTHOSS_WRONG_BOUND = 25,

    /* of a drain */
    RILTHOSS_OUT_OF_BUDGET = 31,
    RILTHOSS_NO_MOVE = 32, /* jobs remain and no job's move is admitted */

    /* of an event line, in an output of rilthoss_run alone: it has another form, or no LF */
    RILTHOSS_MALFORMED = 41
};

/* An answer in its parts: its number, and what its function says that it has beside that; 0 where it has none. */
static inline unsigned rilthoss_number(uint64_t answer) { return (unsigned)(answer & 0xffff); }
static inline unsigned rilthoss_second_place(uint64_t answer) { return (unsigned)(answer >> 16 & 0xffff); }
static inline uint32_t rilthoss_place(uint64_t answer) { return (uint32_t)(answer >> 32); }
static inline uint32_t rilthoss_line(uint64_t answer) { return (uint32_t)(answer >> 32); }
static inline uint32_t rilthoss_length(uint64_t answer) { return (uint32_t)(answer >> 32); }
static inline uint32_t rilthoss_moves(uint64_t answer) { return (uint32_t)(answer >> 32); }

/* Each function below that takes a cell answers RILTHOSS_NO_ROOM before all else, and writes nothing, if there are fewer than RILTHOSS_CELL_SIZE
 * bytes. Bytes beyond those are neither read nor written. */

/* Reads a plan text into the cell in place of its plan; the jobs stay. Number: 0 accepted, or 1 to 7; line: the one that a refusal is about, for 1
 * none, for 7 the one after the last. A refused text puts the empty plan there. */
uint64_t rilthoss_read_plan(uint8_t *cell, size_t cell_length, const uint8_t *text, size_t text_length);

/* Of a text that rilthoss_read_plan refuses, the line that the refusal is about, as a part of the caller's own text: it begins at rilthoss_begin
 * and ends before rilthoss_end, without its LF. An accepted text has none, and so has one refused by 1 or 7: both ends are 0. */
uint64_t rilthoss_shown(const uint8_t *text, size_t text_length);
static inline uint32_t rilthoss_begin(uint64_t shown) { return (uint32_t)(shown & 0xffffffff); }
static inline uint32_t rilthoss_end(uint64_t shown) { return (uint32_t)(shown >> 32); }

/* Writes the cell's plan as text, in its canonical form: the records in order of their sections and keys, no leading zeros, no comments, no empty
 * lines. Number: 0 written, 11, or 9 if the text is longer than the buffer or than RILTHOSS_MAX_TEXT bytes; length: that of the text. A refusal
 * changes no byte; otherwise the buffer begins with the text and is unchanged after it. The canonical form of an accepted text is never longer
 * than that text. In a buffer of RILTHOSS_MAX_TEXT bytes, 9 of a whole cell says that the plan's text is too long for any. */
uint64_t rilthoss_write_plan(const uint8_t *cell, size_t cell_length, uint8_t *buffer, size_t buffer_length);

/* The upstream check of the cell's plan. Number: 0 the plan meets the upstream rule, or 11, 21 to 25; place: for 22 the type, and the second
 * place its stage; for 24 and 25 the row. */
uint64_t rilthoss_check(const uint8_t *cell, size_t cell_length);

/* The events. Number: 0 admitted, or 11 to 19; place: for 18 the lowest resource exceeded, for 19 the row exceeded by the most and of
 * equals the lowest. An admitted event changes the jobs, a refused one no byte. `kind` is the type of the job that is loaded. A pull takes out a
 * job that is scrapped, at whichever stage it is: 0, or 11 to 14. */
uint64_t rilthoss_load(uint8_t *cell, size_t cell_length, uint32_t job, uint32_t kind);
uint64_t rilthoss_advance(uint8_t *cell, size_t cell_length, uint32_t job);
uint64_t rilthoss_unload(uint8_t *cell, size_t cell_length, uint32_t job);
uint64_t rilthoss_pull(uint8_t *cell, size_t cell_length, uint32_t job);

/* Makes moves, each of the earliest loaded job for which one is admitted, at most as many as the budget. Number: 0 no job is left, 31 the
 * budget is spent, 32 no move is admitted, or 11, 12; moves: those made, which stay made under 31 and 32. */
uint64_t rilthoss_drain(uint8_t *cell, size_t cell_length, uint32_t budget);

/* The whole run of `cellmoves`: from its input to what it prints. The buffer then begins with the output, and the answer is its length. If it
 * does not fit, the answer is 0 and the buffer is unchanged. */
size_t rilthoss_run(const uint8_t *input, size_t input_length, uint8_t *buffer, size_t buffer_length);

#ifdef __cplusplus
}
#endif

#endif
