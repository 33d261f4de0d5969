/* The incident: a routine, its base and the base of a converter that did not count
 * one inserted line, run on the same replies.
 *
 *     cc -std=c99 -Iinclude examples/c/incident.c -Lcrates/abi/out -labi -o incident
 *     ./incident examples        the directory that holds the three files
 */
#include "quadrilhel.h"

#include <stdio.h>
#include <string.h>

enum { REPLIES = 5, LOG_BYTES = 2 * REPLIES, BUDGET = 100 };

typedef struct file {
    const char *name;
    uint8_t bytes[QH_BASE_BYTES];
    size_t length;
} file;

static file routine = {"incident.routine", {0}, 0};
static file base = {"incident.base", {0}, 0};
static file wrong = {"incident.wrong.base", {0}, 0};

static uint8_t converted[QH_BASE_BYTES];
static uint8_t work[QH_BASE_BYTES];

/* Reads the file from the directory. Answers 1 if it cannot be read. */
static int read_file(const char *directory, file *f)
{
    char path[1024];
    FILE *stream;

    snprintf(path, sizeof path, "%s/%s", directory, f->name);
    stream = fopen(path, "rb");
    if (stream == NULL) {
        perror(path);
        return 1;
    }
    f->length = fread(f->bytes, 1, sizeof f->bytes, stream);
    fclose(stream);
    return 0;
}

/* Says whether the file is what conversion writes for the routine, byte for byte. */
static void print_converted(const file *f)
{
    qh_verdict verdict = qh_convert(routine.bytes, routine.length, converted,
                                    sizeof converted, work, sizeof work);
    int same = verdict.refusal == QH_ACCEPTED &&
               f->length == (size_t)verdict.count * QH_RECORD_BYTES &&
               memcmp(f->bytes, converted, f->length) == 0;

    printf("%-20s %s\n", f->name, same ? "yes" : "no");
}

/* What the run did: the status, and the used part of the log. */
static void print_ran(const char *name, qh_ran ran, const uint8_t *log)
{
    size_t i;

    if (ran.refusal != QH_ACCEPTED) {
        printf("%-20s refused %u at %u\n", name, (unsigned)ran.refusal,
               (unsigned)ran.place);
        return;
    }
    printf("%-20s status %u, log", name, (unsigned)ran.status);
    for (i = 0; i < 2 * (size_t)ran.actions; i++)
        printf(" %02x", log[i]);
    printf("\n");
}

static void print_runs(const uint8_t *replies)
{
    const file *bases[] = {&base, &wrong};
    uint8_t log[LOG_BYTES];
    size_t i;

    print_ran(routine.name,
              qh_run_routine(routine.bytes, routine.length, replies, REPLIES, log,
                             sizeof log, BUDGET),
              log);
    for (i = 0; i < 2; i++)
        print_ran(bases[i]->name,
                  qh_run_base(bases[i]->bytes, bases[i]->length, replies, REPLIES,
                              log, sizeof log, BUDGET),
                  log);
}

int main(int argc, char **argv)
{
    static const uint8_t agreed[REPLIES] = {1, 1, 1, 1, 1};
    static const uint8_t not_agreed[REPLIES] = {1, 0, 1, 1, 1};
    const char *directory = argc > 1 ? argv[1] : "examples";

    if (read_file(directory, &routine) || read_file(directory, &base) ||
        read_file(directory, &wrong))
        return 2;
    printf("what convert writes for %s?\n", routine.name);
    print_converted(&base);
    print_converted(&wrong);
    printf("\nthree readings that agree: replies 1 1 1 1 1\n");
    print_runs(agreed);
    printf("\nthree readings that do not: replies 1 0 1 1 1\n");
    print_runs(not_agreed);
    return 0;
}
