/* How much call stack the library takes: each call is made on a painted one, and what is painted no more was taken. The
 * arguments are what the header says of compiling: KiB in all, and bytes for each level. The last line is 'N passed, M failed'.
 */
#define _POSIX_C_SOURCE 200809L
#include <salnegris.h>

#include "expect.h"

#include <pthread.h>
#include <stdint.h>
#include <stdlib.h>
#include <string.h>

/* ---- a painted call stack ---- */

enum { PAINTED = 1 << 20, PAGE = 4096, PAINT = 0xa5 };

typedef struct {
    void (*call)(void);
    uintptr_t top; /* where the caller's frame is */
} job;

static void *begin(void *given) {
    job *j = given;
    unsigned char here = 0;
    j->top = (uintptr_t)&here;
    j->call();
    return NULL;
}

/* the bytes of call stack below its caller that the call took; 0 if no thread could be had */
static size_t taken(void (*call)(void)) {
    job j = {call, 0};
    pthread_attr_t attributes;
    pthread_t thread;
    void *painted = NULL;
    const unsigned char *lowest;
    size_t bytes;
    if (posix_memalign(&painted, PAGE, PAINTED) != 0)
        return 0;
    memset(painted, PAINT, PAINTED);
    if (pthread_attr_init(&attributes) != 0 || pthread_attr_setstack(&attributes, painted, PAINTED) != 0 ||
        pthread_create(&thread, &attributes, begin, &j) != 0 || pthread_join(thread, NULL) != 0)
        return 0;
    lowest = painted;
    while (*lowest == PAINT)
        lowest++;
    bytes = j.top - (uintptr_t)lowest;
    free(painted);
    return bytes;
}

/* ---- recipes that are as deep as they have nodes: Blocks over a Val ---- */

static uint8_t table[SALNEGRIS_TABLE_BYTES], code[SALNEGRIS_CODE_BYTES], stack[SALNEGRIS_STACK_BYTES];
static size_t nodes;
static salnegris_compiled compiled;
static salnegris_answer answer;

static void nest(size_t depth) {
    memset(table, 0, sizeof table);
    table[0] = 1;
    for (nodes = 1; nodes < depth; nodes++) {
        table[8 * nodes] = 6;
        table[8 * nodes + 2] = (uint8_t)((nodes - 1) & 0xff);
        table[8 * nodes + 3] = (uint8_t)((nodes - 1) >> 8);
    }
}

static void measure(void) { compiled = salnegris_compile(table, 8 * nodes, code, 8 * (2 * nodes - 1) - 1); }

static void compile(void) { compiled = salnegris_compile(table, 8 * nodes, code, sizeof code); }

static void run(void) {
    answer = salnegris_run(SALNEGRIS_UNBLOCKED, code, 8 * (size_t)compiled.length, NULL, 0, stack, sizeof stack);
}

int main(int count, char **words) {
    size_t allowed = count == 3 ? 1024 * (size_t)strtoul(words[1], NULL, 10) : 0;
    size_t level = count == 3 ? (size_t)strtoul(words[2], NULL, 10) : 0;
    size_t measuring[2], compiling[2], running[2];
    static const size_t depths[2] = {1, 512};
    nest(1);
    compile(); /* so that what is looked up at a first call has been */
    run();
    for (int i = 0; i < 2; i++) {
        nest(depths[i]);
        measuring[i] = taken(measure);
        expect("one byte too few for the code: all is measured, nothing emitted", compiled.refusal == SALNEGRIS_CODE_BUFFER);
        compiling[i] = taken(compile);
        expect("it is compiled", compiled.refusal == 0 && compiled.length == 2 * depths[i] - 1);
        running[i] = taken(run);
        expect("and run", answer.kind == SALNEGRIS_NUMBER && answer.steps == compiled.length);
        printf("call stack at depth %3zu, in bytes: measuring %zu, compiling %zu, running %zu\n", depths[i], measuring[i],
               compiling[i], running[i]);
    }
    expect("a painted stack could be had", measuring[0] > 0 && running[0] > 0);
    expect("measuring takes the same whatever the table", measuring[1] == measuring[0]);
    expect("running takes the same whatever the code", running[1] == running[0]);
    expect("and less than 1 KiB", running[1] < 1024);
    expect("compiling takes no more than the header allows", compiling[1] <= allowed);
    expect("and the header allows hardly more than it takes", compiling[1] >= allowed / 10 * 9);
    expect("each level takes what the header says", compiling[1] - compiling[0] == level * (depths[1] - depths[0]));
    return tell();
}
