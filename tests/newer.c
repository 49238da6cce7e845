/* A newer library, to link the example worker with: it accepts every table, and refuses a run by the number in the status byte,
 * at 3. With status 0 it ends in a kind that is not known yet.
 */
#include <salnegris.h>

salnegris_compiled salnegris_compile(const uint8_t *table, size_t table_len, uint8_t *code, size_t code_len) {
    (void)table, (void)table_len, (void)code, (void)code_len;
    return (salnegris_compiled){.length = 1};
}

salnegris_answer salnegris_run(uint8_t status, const uint8_t *code, size_t code_len,
                               const uint8_t *schedule, size_t schedule_len, uint8_t *stack, size_t stack_len) {
    (void)code, (void)code_len, (void)schedule, (void)schedule_len, (void)stack, (void)stack_len;
    return (salnegris_answer){.kind = status ? SALNEGRIS_REFUSED : 3, .refusal = status, .place = 3};
}
