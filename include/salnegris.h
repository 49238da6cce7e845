/* Salnegris: recipes of run folders, checked, compiled and run.
 *
 * Two functions. salnegris_compile turns a recipe table into code; salnegris_run runs code under a
 * schedule of recalls. Both take any bytes: nothing has to be checked first, and every call ends with
 * an answer. Neither allocates, keeps anything between calls, or reads or writes outside the buffers
 * that it is lent, so any number of threads may call them on buffers of their own.
 *
 * What a caller owes:
 *   - each buffer is at least as long as its length says;
 *   - no buffer that is written (code in salnegris_compile, stack in salnegris_run) overlaps another
 *     one of the same call;
 *   - a pointer is not null, except that an empty schedule may be (NULL, 0);
 *   - about 34 KiB of call stack for salnegris_compile, if a recipe may be nested 512 deep (on
 *     x86-64: 1.2 KiB, and 64 bytes for each level); salnegris_run takes less than 1 KiB.
 *
 *     uint8_t code[SALNEGRIS_CODE_BYTES], stack[SALNEGRIS_STACK_BYTES];
 *     salnegris_compiled c = salnegris_compile(table, table_len, code, sizeof code);
 *     if (c.refusal)
 *         return refused(c.refusal, c.place);
 *     salnegris_answer a = salnegris_run(SALNEGRIS_UNBLOCKED, code, 8 * (size_t)c.length,
 *                                        recalls, recalls_len, stack, sizeof stack);
 *     switch (a.kind) {
 *     case SALNEGRIS_NUMBER: return lanes(a.number);
 *     case SALNEGRIS_THROW: return back_to_the_queue();
 *     default: return refused(a.refusal, a.place);
 *     }
 *
 * The sum of two lane counts wraps at 2^31: 2147483647 + 1 is -2147483648.
 *
 * Compiled code is never refused in a run with one of the two statuses and a stack buffer of
 * SALNEGRIS_STACK_BYTES or more: it ends in a number or a throw. For a table of n nodes that takes at
 * most 3n - 1 steps, under every schedule.
 */
#ifndef SALNEGRIS_H
#define SALNEGRIS_H

#include <stddef.h>
#include <stdint.h>

#ifdef __cplusplus
extern "C" {
#endif

/* ---- the version of this header, and of the library that is installed with it ---- */

#define SALNEGRIS_VERSION "0.1.0"
#define SALNEGRIS_VERSION_MAJOR 0
#define SALNEGRIS_VERSION_MINOR 1
#define SALNEGRIS_VERSION_PATCH 0

/* ---- sizes, in bytes ---- */

/* A record: a node of a table, an instruction of a code. */
#define SALNEGRIS_RECORD_BYTES 8
/* The longest table: 512 nodes. */
#define SALNEGRIS_TABLE_BYTES 4096
/* A code buffer that is large enough for every table: 1,023 instructions. */
#define SALNEGRIS_CODE_BYTES 8184
/* The stack buffer that a run asks for. */
#define SALNEGRIS_STACK_BYTES 4096

/* ---- the starting status of a run ---- */

enum {
    SALNEGRIS_BLOCKED = 0,  /* recalls lapse */
    SALNEGRIS_UNBLOCKED = 1 /* a recall cuts before any instruction */
};

/* ---- the kind of end of a run ---- */

enum {
    SALNEGRIS_NUMBER = 0, /* so many lanes go on to base calling */
    SALNEGRIS_THROW = 1,  /* the folder returns to the queue */
    SALNEGRIS_REFUSED = 2
};

/* ---- refusals, and what `place` is then ---- */

/* made from refusals.txt by scripts/refusals: edit it there */
enum {
    /* of salnegris_compile, tested in this order */
    SALNEGRIS_TABLE_SIZE = 1,  /* the table has no bytes, more than 4,096, or not a multiple of 8; 0 */
    SALNEGRIS_KIND = 2,        /* a kind that is not 1 to 7; the node */
    SALNEGRIS_UNUSED_BYTE = 3, /* byte 1, or a byte that the kind doesn't use, is not zero; the node */
    SALNEGRIS_OPERAND = 4,     /* an operand is not below its node; the node */
    SALNEGRIS_USES = 5,        /* a node but the last is used never, or more than once; the lowest such node */
    SALNEGRIS_CODE_BUFFER = 6, /* the code buffer is below 8 bytes an instruction; 0 */
    /* of salnegris_run, before it runs, tested in this order */
    SALNEGRIS_STATUS = 7,       /* the status is not 0 or 1; 0 */
    SALNEGRIS_STACK_BUFFER = 8, /* the stack buffer is below 4,096 bytes; 0 */
    SALNEGRIS_CODE_SIZE = 9,    /* the code has no bytes, more than 8,184, or not a multiple of 8; 0 */
    SALNEGRIS_OPCODE = 10,      /* an opcode that is not 1 to 8; the address */
    SALNEGRIS_FIELD = 11,       /* bytes 1 to 3 or an absent operand are not zero, or a SET is not of 0 or 1; the address */
    SALNEGRIS_TARGET = 12,      /* a MARK's or UNMARK's target is not above its own address, or is above the length;
                                   the address */
    /* of salnegris_run, while it runs; compiled code never meets these, nor 9 to 12 */
    SALNEGRIS_STACK_FULL = 13, /* a push onto 512 items; the address */
    SALNEGRIS_NO_RULE = 14,    /* no rule for the instruction, or at the length without exactly one number; the address */
    SALNEGRIS_STEPS = 15       /* 1,535 steps taken and not ended; 0 */
};
/* end of what is made */

/* ---- answers; a field that does not apply is 0 ---- */

typedef struct {
    uint32_t length;  /* of the code, in instructions of 8 bytes */
    uint32_t refusal; /* 0, or 1 to 6 */
    uint32_t place;   /* of the refusal */
} salnegris_compiled;

typedef struct {
    uint32_t kind;    /* SALNEGRIS_NUMBER, SALNEGRIS_THROW or SALNEGRIS_REFUSED */
    int32_t number;   /* the lanes, if it is a number */
    uint32_t refusal; /* 0, or 7 to 15 */
    uint32_t place;   /* of the refusal */
    uint32_t steps;   /* taken, also up to a refusal 13 to 15 */
    uint32_t reached; /* instructions carried out or cut, also up to a refusal 13 to 15 */
} salnegris_answer;

/* Checks the table and compiles it into the code buffer.
 * Accepted (refusal is 0): the first 8 * length bytes of the code buffer are the code, and later bytes
 * stay as they were. Refused: the code buffer stays as it was.
 */
salnegris_compiled salnegris_compile(const uint8_t *table, size_t table_len, uint8_t *code, size_t code_len);

/* Runs code, compiled or not, from a starting status. Bit k of the schedule (byte k / 8, least
 * significant bit first) asks for a recall at the instruction reached as number k, counted from 0; past
 * its end none is asked for. It may have any length. code_len is that of the code, 8 * length, and not
 * that of the buffer that it stands in.
 * Refused by 7 to 12: the stack buffer stays as it was. Otherwise its first 4,096 bytes are zero
 * afterwards, and later ones stay as they were.
 */
salnegris_answer salnegris_run(uint8_t status, const uint8_t *code, size_t code_len,
                               const uint8_t *schedule, size_t schedule_len, uint8_t *stack, size_t stack_len);

#ifdef __cplusplus
}
#endif

#endif
