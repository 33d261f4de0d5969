/* Converts a routine and prints the records of its base.
 *
 *     cc -std=c99 -Iinclude examples/c/lower.c -Lcrates/abi/out -labi -o lower
 *     ./lower                   the example routine, then the same one spoiled
 *     ./lower routine-file      the routine in a file
 */
#include "quadrilhel.h"

#include <stdio.h>

/* -a5{*; a6; +a7{; a8; }{; a9; }; *}; a10 */
static const uint8_t example[] = {
    13, 0, 5, 0, 0, 0, 0, 0,  /* -a5{* */
    1, 0, 6, 0, 0, 0, 0, 0,   /* a6 */
    8, 0, 7, 0, 0, 0, 0, 0,   /* +a7{ */
    1, 0, 8, 0, 0, 0, 0, 0,   /* a8 */
    10, 0, 0, 0, 0, 0, 0, 0,  /* }{ */
    1, 0, 9, 0, 0, 0, 0, 0,   /* a9 */
    11, 0, 0, 0, 0, 0, 0, 0,  /* } */
    14, 0, 0, 0, 0, 0, 0, 0,  /* *} */
    1, 0, 10, 0, 0, 0, 0, 0   /* a10 */
};

static uint8_t base[QH_BASE_BYTES];
static uint8_t work[QH_BASE_BYTES];

/* What a refusal means and what to do about it. */
static const char *in_words(uint32_t refusal)
{
    switch (refusal) {
    case QH_RAGGED:
        return "the byte count is no multiple of 8; send whole records";
    case QH_LONG:
        return "a routine may have 512 records; split it";
    case QH_KIND:
        return "no kind of a routine, or byte 1, 6 or 7 is not zero; correct the record";
    case QH_FIELD:
        return "x or y is outside its range; correct the record";
    case QH_NESTING:
        return "a separator or end does not fit, or an opener is never closed; "
               "add or remove the missing part";
    case QH_LABEL:
        return "the label that a goto names is misspelt or was removed, or of two labels "
               "the second does not stand behind the leftmost first one; correct the "
               "goto, or put the label back, not directly behind a test, and raise the "
               "numbers of jumps and calls to records behind it";
    case QH_SKIP:
        return "a plain test stands directly before a block, loop, call or return; "
               "put a call or return into a block with two arms, +a1{; R##k; }{; }; "
               "before a block or loop give the test the other sign and put a jump "
               "behind it to the record after the header, -a1; ##k; +a2{; then raise "
               "the numbers of jumps and calls to records behind those put in; a label "
               "or an action between would be no help: what follows is then done on "
               "yes and on no";
    case QH_GROWTH:
        return "the base would have more than 4,096 records; "
               "use fewer returns, calls, blocks or loops";
    case QH_ROOM:
        return "a buffer is too short; lend 32,768 bytes";
    default:
        return "a refusal that this program does not know";
    }
}

static unsigned field(const uint8_t *bytes)
{
    return bytes[0] | (unsigned)bytes[1] << 8;
}

/* One record of a base, as a listing writes it. */
static void print_record(unsigned number, const uint8_t *record)
{
    static const char *const signs[] = {"", "", "+", "-"};
    unsigned kind = record[0], x = field(record + 2), y = field(record + 4);

    printf("%u ", number);
    if (kind == 4)
        printf("##%u\n", x);
    else if (x == 1001)
        printf("%spush(%u)\n", signs[kind & 3], y);
    else if (x == 1002)
        printf("%spop\n", signs[kind & 3]);
    else if (x == 1003)
        printf("%stopeq(%u)\n", signs[kind & 3], y);
    else
        printf("%sa%u\n", signs[kind & 3], x);
}

/* Converts, and prints the base or the refusal. Answers 1 if refused. */
static int lower(const uint8_t *routine, size_t length)
{
    qh_verdict verdict =
        qh_convert(routine, length, base, sizeof base, work, sizeof work);
    uint32_t i;

    if (verdict.refusal != QH_ACCEPTED) {
        printf("refused %u at %u: %s\n", (unsigned)verdict.refusal,
               (unsigned)verdict.place, in_words(verdict.refusal));
        return 1;
    }
    printf("length %u %u\n", (unsigned)(length / QH_RECORD_BYTES),
           (unsigned)verdict.count);
    for (i = 0; i < verdict.count; i++)
        print_record(i + 1, base + QH_RECORD_BYTES * i);
    return 0;
}

/* Reads a file and lowers it. One record more than a routine may have is enough
 * to be told that it is too long, so the rest of such a file is not read. */
static int lower_file(const char *name)
{
    static uint8_t routine[QH_RECORD_BYTES * (QH_ROUTINE_RECORDS + 1)];
    FILE *file = fopen(name, "rb");
    size_t length;

    if (file == NULL) {
        perror(name);
        return 2;
    }
    length = fread(routine, 1, sizeof routine, file);
    fclose(file);
    return lower(routine, length);
}

int main(int argc, char **argv)
{
    int refused;

    if (argc > 1)
        return lower_file(argv[1]);

    refused = lower(example, sizeof example);
    printf("\nwithout its last two records:\n");
    lower(example, sizeof example - 2 * QH_RECORD_BYTES);
    printf("\nwithout its last byte:\n");
    lower(example, sizeof example - 1);
    return refused;
}
