/* A worker to start from: it takes run folders, compiles and runs the recipe of each under its recalls, and says what it does
 * with the folder.
 *
 *     cc worker.c $(pkg-config --cflags --libs salnegris) -o worker
 *     worker FOLDER..
 *
 * A run folder has one or two files:
 *
 *     recipe    one status byte (0 blocked, 1 unblocked), two bytes of table length (low byte first), the table
 *     recalls   the schedule of recalls
 *
 * Where there is no `recalls`, the schedule is what follows the table in `recipe`, as the rehearsal program has it; where there
 * is one, `recipe` has to end with its table. A folder that has both, be `recalls` empty, is held for a person: none of two
 * schedules is dropped, and none is guessed to be the front of the other. `cat FOLDER/recipe FOLDER/recalls | rehearse` rehearses
 * a folder, but for one that is held so, and for one whose `recipe` ends before its table does: such a recipe is damaged, and no
 * recall is read as a piece of a table.
 *
 * One line a folder goes to standard output:
 *
 *     FOLDER: 12 lanes to base calling
 *     FOLDER: back to the queue
 *     FOLDER: refused 5 at node 0: a node but the last is used never, or more than once
 *     FOLDER: held, -3 is no count of lanes
 *     FOLDER: held, recalls in two places: bytes after the table and a recalls file
 *     FOLDER: held, an end of kind 3 is not known
 *
 * or, where a file cannot be read, to standard error:
 *
 *     worker: FOLDER: folder not read: No such file or directory
 *     worker: FOLDER: recipe not read: Is a directory
 *     worker: FOLDER: recalls not read: Permission denied
 *
 * In both, a control character of a folder's name is written as \x0a, and a backslash as \\: a line stays one line.
 *
 * A folder's line is written before the next folder is begun. If it cannot be written, the worker stops, and says on standard
 * error what it did with this folder and which ones it has not begun.
 *
 * Sums wrap at 2^31, as the scope of work has it: 2147483647 + 1 comes out as -2147483648, and is held. A sum that goes all the
 * way round (2147483647 + 2147483647 + 3 comes out as 1) is a count like any other, and nothing here can tell.
 *
 * What is put into a folder after it was read is not seen. So write a file under another name, and rename it: one that is still
 * being written can look like a shorter one. One that is seen to change while it is read, by its size or its times, stops its
 * folder. Nothing locks a folder: name it once, to one worker.
 *
 * Exit status, the greatest that applies:
 *
 *     0   each folder had lanes for base calling, or went back to the queue
 *     1   a folder was refused or held: a person has to look
 *     2   a folder could not be read, standard output could not be written, or no folder was named
 *
 * It is C99 over POSIX. It allocates nothing: some 20 KiB of call stack are taken beside what the library asks for.
 */
#define _POSIX_C_SOURCE 200809L

#include <salnegris.h>

#include <errno.h>
#include <fcntl.h>
#include <inttypes.h>
#include <signal.h>
#include <stdio.h>
#include <string.h>
#include <sys/stat.h>
#include <unistd.h>

/* UNSAID: the folder was worked, and its line could not be written. */
enum { DONE = 0, TO_LOOK_AT = 1, FAILED = 2, UNSAID = 3 };

/* ---- words ---- */

static void write_name(FILE *out, const char *name) {
    for (; *name; name++) {
        unsigned char byte = (unsigned char)*name;
        if (byte < 0x20 || byte == 0x7f)
            fprintf(out, "\\x%02x", byte);
        else if (byte == '\\')
            fputs("\\\\", out);
        else
            putc(byte, out);
    }
}

static int fail(const char *folder, const char *what, const char *why) {
    fputs("worker: ", stderr);
    write_name(stderr, folder);
    fprintf(stderr, ": %s: %s\n", what, why);
    return FAILED;
}

/* ---- a run folder, read ---- */

/* No compiled code has more than 1,023 instructions, each reached once at most: no run can ask for more schedule bytes. */
enum { HEAD_BYTES = 3, SCHEDULE_BYTES = 128, RECIPE_BYTES = HEAD_BYTES + SALNEGRIS_TABLE_BYTES + SCHEDULE_BYTES };

typedef struct {
    uint8_t recipe[RECIPE_BYTES];
    size_t recipe_len;
    int has_recalls;
    uint8_t recalls[SCHEDULE_BYTES];
    size_t recalls_len;
} run_folder;

static int later(struct timespec before, struct timespec after) {
    return before.tv_sec != after.tv_sec || before.tv_nsec != after.tv_nsec;
}

static int changed(const struct stat *before, const struct stat *after) {
    return before->st_size != after->st_size || later(before->st_mtim, after->st_mtim) || later(before->st_ctim, after->st_ctim);
}

/* The front of a file, as much as there is room for. Returns NULL, or what failed. */
static const char *read_front(int file, uint8_t *bytes, size_t room, size_t *len) {
    struct stat before, after;
    if (fstat(file, &before))
        return strerror(errno);
    if (!S_ISREG(before.st_mode))
        return S_ISDIR(before.st_mode) ? strerror(EISDIR) : "Not a regular file";
    while (*len < room) {
        ssize_t got = read(file, bytes + *len, room - *len);
        if (got == 0)
            break;
        if (got > 0)
            *len += (size_t)got;
        else if (errno != EINTR)
            return strerror(errno);
    }
    if (fstat(file, &after))
        return strerror(errno);
    return changed(&before, &after) ? "It changed while it was read" : NULL;
}

/* Without O_NONBLOCK a pipe of that name would be waited for, a night through. */
static const char *read_file(int folder, const char *name, uint8_t *bytes, size_t room, size_t *len) {
    *len = 0;
    int file = openat(folder, name, O_RDONLY | O_NONBLOCK | O_CLOEXEC);
    if (file < 0)
        return strerror(errno);
    const char *error = read_front(file, bytes, room, len);
    close(file);
    return error;
}

/* Only where no entry has that name are there no recalls. One that leads nowhere, or cannot be opened or read, may be a recall,
 * and nothing is run.
 */
static const char *read_recalls(int folder, run_folder *f) {
    struct stat entry;
    f->recalls_len = 0;
    f->has_recalls = fstatat(folder, "recalls", &entry, AT_SYMLINK_NOFOLLOW) == 0;
    if (f->has_recalls)
        return read_file(folder, "recalls", f->recalls, SCHEDULE_BYTES, &f->recalls_len);
    return errno == ENOENT ? NULL : strerror(errno);
}

/* Both files by the one folder that was opened: if it is renamed meanwhile, its `recalls` is not taken for missing. An empty name
 * is refused before it can become a path, `/recipe`, in a worker that makes its own.
 */
static int read_folder(const char *name, run_folder *f) {
    if (!*name)
        return fail("''", "folder not read", "Its name is empty");
    int folder = open(name, O_RDONLY | O_DIRECTORY | O_CLOEXEC);
    if (folder < 0)
        return fail(name, "folder not read", strerror(errno));
    const char *recipe = read_file(folder, "recipe", f->recipe, RECIPE_BYTES, &f->recipe_len);
    const char *recalls = recipe ? NULL : read_recalls(folder, f);
    close(folder);
    if (recipe)
        return fail(name, "recipe not read", recipe);
    if (recalls)
        return fail(name, "recalls not read", recalls);
    return DONE;
}

/* Where the table ends in the recipe, or 0 for a recipe that ends before. */
static size_t table_end(const run_folder *f) {
    if (f->recipe_len < HEAD_BYTES)
        return 0;
    size_t end = HEAD_BYTES + f->recipe[1] + 256 * (size_t)f->recipe[2];
    return end <= f->recipe_len ? end : 0;
}

static int has_two_schedules(const run_folder *f) {
    size_t end = table_end(f);
    return f->has_recalls && end != 0 && end < f->recipe_len;
}

/* ---- its recipe, compiled and run ---- */

static salnegris_answer refused(uint32_t refusal, uint32_t place) {
    return (salnegris_answer){.kind = SALNEGRIS_REFUSED, .refusal = refusal, .place = place};
}

/* A refusal of compiling is an end like one of running, so that there is one answer to act on. A recipe that ends before its
 * table does is refused by 1, as in a rehearsal.
 */
static salnegris_answer end_of_recipe(const run_folder *f) {
    uint8_t code[SALNEGRIS_CODE_BYTES], stack[SALNEGRIS_STACK_BYTES];
    size_t end = table_end(f);
    if (end == 0)
        return refused(SALNEGRIS_TABLE_SIZE, 0);
    salnegris_compiled c = salnegris_compile(f->recipe + HEAD_BYTES, end - HEAD_BYTES, code, sizeof code);
    if (c.refusal)
        return refused(c.refusal, c.place);
    const uint8_t *schedule = f->has_recalls ? f->recalls : f->recipe + end;
    size_t schedule_len = f->has_recalls ? f->recalls_len : f->recipe_len - end;
    return salnegris_run(f->recipe[0], code, SALNEGRIS_RECORD_BYTES * (size_t)c.length, schedule, schedule_len, stack,
                         sizeof stack);
}

/* ---- what is done with the folder ---- */

typedef enum { TO_BASE_CALLING, TO_THE_QUEUE, REFUSED, HELD_NO_COUNT, HELD_TWO_SCHEDULES, HELD_UNKNOWN_END } fate;

typedef struct {
    fate fate;
    salnegris_answer end;
} verdict;

/* The one decision of a folder. What is neither for base calling nor for the queue stays where it is: also an end of a kind that
 * a newer library adds, and a negative number, which a Val or a wrapped sum can give: no base caller can be given -3 lanes.
 */
static verdict judge(const run_folder *f) {
    if (has_two_schedules(f))
        return (verdict){.fate = HELD_TWO_SCHEDULES};
    verdict v = {.end = end_of_recipe(f)};
    switch (v.end.kind) {
    case SALNEGRIS_NUMBER: v.fate = v.end.number < 0 ? HELD_NO_COUNT : TO_BASE_CALLING; break;
    case SALNEGRIS_THROW: v.fate = TO_THE_QUEUE; break;
    case SALNEGRIS_REFUSED: v.fate = REFUSED; break;
    default: v.fate = HELD_UNKNOWN_END;
    }
    return v;
}

/* The place for your own hand-over. Where it fails, call and return `fail`: no line then says that it was done. */
static int hand_on(const char *folder, verdict v) {
    (void)folder;
    switch (v.fate) {
    case TO_BASE_CALLING:
        /* Yours: start the base caller on v.end.number lanes of the folder. It may be 0. A sum wraps at 2^31: where your recipes
         * can add up to more, compare the number with the lanes that the folder has.
         */
        return DONE;
    case TO_THE_QUEUE:
        /* Yours: return the folder to the queue. */
        return DONE;
    default: return TO_LOOK_AT;
    }
}

/* The table of refusals in words, with what the place of each counts (NULL: it is always 0). This worker can meet 1 to 5 and 7:
 * its buffers are large enough for 6 and 8, and compiled code never meets 9 to 15.
 */
static const struct {
    const char *at;
    const char *words;
} refusals[] = {
    /* made from refusals.txt by scripts/refusals: edit it there */
    [SALNEGRIS_TABLE_SIZE] =
        {NULL, "the table has no bytes, more than 4,096, or not a multiple of 8, or the file ends before it does"},
    [SALNEGRIS_KIND] = {"node", "a kind that is not 1 to 7"},
    [SALNEGRIS_UNUSED_BYTE] = {"node", "byte 1, or a byte that the kind doesn't use, is not zero"},
    [SALNEGRIS_OPERAND] = {"node", "an operand is not below its node"},
    [SALNEGRIS_USES] = {"node", "a node but the last is used never, or more than once"},
    [SALNEGRIS_CODE_BUFFER] = {NULL, "the code buffer is below 8 bytes an instruction"},
    [SALNEGRIS_STATUS] = {NULL, "the status is not 0 or 1"},
    [SALNEGRIS_STACK_BUFFER] = {NULL, "the stack buffer is below 4,096 bytes"},
    [SALNEGRIS_CODE_SIZE] = {NULL, "the code has no bytes, more than 8,184, or not a multiple of 8"},
    [SALNEGRIS_OPCODE] = {"address", "an opcode that is not 1 to 8"},
    [SALNEGRIS_FIELD] = {"address", "bytes 1 to 3 or an absent operand are not zero, or a SET is not of 0 or 1"},
    [SALNEGRIS_TARGET] = {"address", "a MARK's or UNMARK's target is not above its own address, or is above the length"},
    [SALNEGRIS_STACK_FULL] = {"address", "a push onto 512 items"},
    [SALNEGRIS_NO_RULE] = {"address", "no rule for the instruction, or at the length without exactly one number"},
    [SALNEGRIS_STEPS] = {NULL, "1,535 steps taken and not ended"},
    /* end of what is made */
};

/* A number that a newer library adds has no words here, and is said all the same. */
static void say_refused(FILE *out, uint32_t refusal, uint32_t place) {
    fprintf(out, "refused %" PRIu32, refusal);
    if (refusal >= sizeof refusals / sizeof refusals[0] || !refusals[refusal].words) {
        fprintf(out, " at %" PRIu32 "\n", place);
        return;
    }
    if (refusals[refusal].at)
        fprintf(out, " at %s %" PRIu32, refusals[refusal].at, place);
    fprintf(out, ": %s\n", refusals[refusal].words);
}

static void say(FILE *out, const char *folder, verdict v) {
    write_name(out, folder);
    fputs(": ", out);
    switch (v.fate) {
    case TO_BASE_CALLING:
        fprintf(out, "%" PRId32 " lane%s to base calling\n", v.end.number, v.end.number == 1 ? "" : "s");
        break;
    case TO_THE_QUEUE: fputs("back to the queue\n", out); break;
    case REFUSED: say_refused(out, v.end.refusal, v.end.place); break;
    case HELD_NO_COUNT: fprintf(out, "held, %" PRId32 " is no count of lanes\n", v.end.number); break;
    case HELD_TWO_SCHEDULES: fputs("held, recalls in two places: bytes after the table and a recalls file\n", out); break;
    case HELD_UNKNOWN_END: fprintf(out, "held, an end of kind %" PRIu32 " is not known\n", v.end.kind); break;
    }
}

/* ---- one folder after another ---- */

/* A line that was not written is a folder that nobody hears of: then it goes to standard error. */
static int work(const char *folder) {
    run_folder f;
    int status = read_folder(folder, &f);
    if (status != DONE)
        return status;
    verdict v = judge(&f);
    status = hand_on(folder, v);
    if (status == FAILED)
        return status;
    say(stdout, folder, v);
    if (fflush(stdout) != EOF && !ferror(stdout))
        return status;
    fprintf(stderr, "worker: standard output could not be written: %s\nworker: not said: ", strerror(errno));
    say(stderr, folder, v);
    return UNSAID;
}

int main(int argc, char **argv) {
    int greatest = DONE;
    if (argc < 2) {
        fputs("usage: worker FOLDER..\n", stderr);
        return FAILED;
    }
    /* A reader that went away, or a file that may not grow, is then told like a full disk. What you start inherits both. */
    signal(SIGPIPE, SIG_IGN);
#ifdef SIGXFSZ
    signal(SIGXFSZ, SIG_IGN);
#endif
    for (int i = 1; i < argc; i++) {
        int status = work(argv[i]);
        if (status == UNSAID) {
            while (++i < argc)
                fail(argv[i], "not begun", "Standard output could not be written");
            return FAILED;
        }
        if (status > greatest)
            greatest = status;
    }
    return greatest;
}
