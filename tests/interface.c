/* The C interface as a worker's programmer meets it: the header's names and sizes, each refusal by its name, (NULL, 0) for an
 * empty schedule, and what is in the buffers afterwards. What must come is document 01's. The last line is 'N passed, M failed'.
 */
#include <salnegris.h>

#include "expect.h"

#include <string.h>

/* ---- buffers, fresh before each call ---- */

enum { FRESH = 0xa5, MORE = 16 };

static uint8_t code[SALNEGRIS_CODE_BYTES + MORE];
static uint8_t stack[SALNEGRIS_STACK_BYTES + MORE];

static int all(const uint8_t *bytes, size_t n, uint8_t value) {
    for (size_t i = 0; i < n; i++)
        if (bytes[i] != value)
            return 0;
    return 1;
}

/* ---- compiling ---- */

static salnegris_compiled compile(const uint8_t *table, size_t bytes, size_t room) {
    memset(code, FRESH, sizeof code);
    return salnegris_compile(table, bytes, code, room);
}

static void refuses_table(const char *what, const uint8_t *table, size_t bytes, size_t room, uint32_t refusal, uint32_t place) {
    salnegris_compiled c = compile(table, bytes, room);
    expect(what, c.length == 0 && c.refusal == refusal && c.place == place && all(code, sizeof code, FRESH));
}

static const uint8_t nine[8] = {1, 0, 0, 0, 9, 0, 0, 0};

static void compiling(void) {
    static const uint8_t kind[16] = {1, 0, 0, 0, 1, 0, 0, 0, 9};
    static const uint8_t unused[16] = {1, 0, 0, 0, 1, 0, 0, 0, 6, 0, 0, 0, 0, 0, 1};
    static const uint8_t operand[16] = {1, 0, 0, 0, 1, 0, 0, 0, 6, 0, 1};
    static const uint8_t twice[16] = {1, 0, 0, 0, 1, 0, 0, 0, 3};
    salnegris_compiled c = compile(nine, sizeof nine, sizeof code);
    expect("Val 9 compiled", c.length == 1 && c.refusal == 0 && c.place == 0);
    expect("its code", memcmp(code, nine, 8) == 0 && all(code + 8, sizeof code - 8, FRESH));
    refuses_table("no table", nine, 0, sizeof code, SALNEGRIS_TABLE_SIZE, 0);
    refuses_table("7 bytes of table", nine, 7, sizeof code, SALNEGRIS_TABLE_SIZE, 0);
    refuses_table("kind 9", kind, 16, sizeof code, SALNEGRIS_KIND, 1);
    refuses_table("an unused byte", unused, 16, sizeof code, SALNEGRIS_UNUSED_BYTE, 1);
    refuses_table("an operand of itself", operand, 16, sizeof code, SALNEGRIS_OPERAND, 1);
    refuses_table("a node used twice", twice, 16, sizeof code, SALNEGRIS_USES, 0);
    refuses_table("7 bytes of code buffer", nine, sizeof nine, 7, SALNEGRIS_CODE_BUFFER, 0);
}

/* ---- running ---- */

static int same(salnegris_answer a, salnegris_answer b) {
    return a.kind == b.kind && a.number == b.number && a.refusal == b.refusal && a.place == b.place && a.steps == b.steps &&
           a.reached == b.reached;
}

static void refuses_run(const char *what, uint8_t status, const uint8_t *bytes, size_t n, size_t room, uint32_t refusal,
                        uint32_t place) {
    memset(stack, FRESH, sizeof stack);
    salnegris_answer a = salnegris_run(status, bytes, n, NULL, 0, stack, room);
    salnegris_answer wanted = {.kind = SALNEGRIS_REFUSED, .refusal = refusal, .place = place};
    expect(what, same(a, wanted) && all(stack, sizeof stack, FRESH));
}

static void before_a_run(void) {
    static const uint8_t opcode[8] = {9};
    static const uint8_t field[8] = {7, 0, 0, 0, 2};
    static const uint8_t target[8] = {5, 0, 0, 0, 0};
    refuses_run("status 2", 2, nine, 8, sizeof stack, SALNEGRIS_STATUS, 0);
    refuses_run("4,095 bytes of stack", 1, nine, 8, SALNEGRIS_STACK_BYTES - 1, SALNEGRIS_STACK_BUFFER, 0);
    refuses_run("no code", 1, nine, 0, sizeof stack, SALNEGRIS_CODE_SIZE, 0);
    refuses_run("opcode 9", 1, opcode, 8, sizeof stack, SALNEGRIS_OPCODE, 0);
    refuses_run("SET 2", 1, field, 8, sizeof stack, SALNEGRIS_FIELD, 0);
    refuses_run("a MARK of itself", 1, target, 8, sizeof stack, SALNEGRIS_TARGET, 0);
}

static void ends(const char *what, uint8_t status, const uint8_t *bytes, size_t n, const uint8_t *schedule, size_t schedule_n,
                 salnegris_answer wanted) {
    memset(stack, FRESH, sizeof stack);
    salnegris_answer a = salnegris_run(status, bytes, n, schedule, schedule_n, stack, sizeof stack);
    expect(what, same(a, wanted) && all(stack, SALNEGRIS_STACK_BYTES, 0) && all(stack + SALNEGRIS_STACK_BYTES, MORE, FRESH));
}

static salnegris_answer number(int32_t lanes) {
    return (salnegris_answer){.kind = SALNEGRIS_NUMBER, .number = lanes, .steps = 1, .reached = 1};
}

static salnegris_answer refused(uint32_t refusal, uint32_t place, uint32_t steps, uint32_t reached) {
    return (salnegris_answer){SALNEGRIS_REFUSED, 0, refusal, place, steps, reached};
}

static void in_a_run(void) {
    static const uint8_t recall[1] = {1};
    static const uint8_t minus_one[8] = {1, 0, 0, 0, 0xff, 0xff, 0xff, 0xff};
    static const uint8_t pop[8] = {4};
    static uint8_t pushes[513 * 8], marks[11 * 8];
    for (int i = 0; i < 513; i++)
        pushes[8 * i] = 1;
    for (int i = 0; i < 10; i++) {
        marks[8 * i] = 5;
        marks[8 * i + 4] = (uint8_t)(i + 1);
    }
    marks[8 * 10] = 2;
    ends("Val 9, the schedule (NULL, 0)", 1, nine, 8, NULL, 0, number(9));
    ends("Val -1", 1, minus_one, 8, NULL, 0, number(-1));
    ends("a recall, unblocked", SALNEGRIS_UNBLOCKED, nine, 8, recall, 1, (salnegris_answer){SALNEGRIS_THROW, 0, 0, 0, 1, 1});
    ends("a recall, blocked", SALNEGRIS_BLOCKED, nine, 8, recall, 1, number(9));
    ends("513 PUSH", 0, pushes, 513 * 8, NULL, 0, refused(SALNEGRIS_STACK_FULL, 512, 512, 512));
    ends("a lone POP", 0, pop, 8, NULL, 0, refused(SALNEGRIS_NO_RULE, 0, 0, 0));
    ends("ten MARKs", 0, marks, 11 * 8, NULL, 0, refused(SALNEGRIS_STEPS, 0, 1535, 1024));
}

/* ---- the version ---- */

#define WORDS_OF(number) #number
#define WORDS(number) WORDS_OF(number)

static void version(void) {
    static const char parts[] =
        WORDS(SALNEGRIS_VERSION_MAJOR) "." WORDS(SALNEGRIS_VERSION_MINOR) "." WORDS(SALNEGRIS_VERSION_PATCH);
    expect("the version is its three parts", strcmp(SALNEGRIS_VERSION, parts) == 0);
}

int main(void) {
    version();
    compiling();
    before_a_run();
    in_a_run();
    return tell();
}
