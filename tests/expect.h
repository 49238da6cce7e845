/* What holds and what does not, counted by a test in C; it ends by telling both. */
#include <stdio.h>

static int passed, failed;

static void expect(const char *what, int holds) {
    if (holds) {
        passed++;
    } else {
        failed++;
        printf("FAILED: %s\n", what);
    }
}

/* the last line, and main's answer */
static int tell(void) {
    printf("%d passed, %d failed\n", passed, failed);
    return failed != 0 || passed == 0;
}
