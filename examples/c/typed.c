/* Typed routines: text to records, and records to text.
 *
 *     cc -std=c99 -Iinclude examples/c/typed.c -Lcrates/abi/out -labi -o typed
 *     ./typed read examples/names.list < examples/incident.text > incident.routine
 *     ./typed write examples/names.list < incident.routine
 *
 * A refusal is said in words, with line and column of a text, and nothing is
 * written to standard output.
 */
#include "quadrilhel.h"

#include <stdio.h>
#include <string.h>

/* A longer text or list is told by its length alone, so a byte more than this
 * program takes is read and no more. */
enum { TEXT_ROOM = 1 << 20, NAMES_ROOM = QH_NAME_BYTES * QH_NAMES + 1 };

static uint8_t input[TEXT_ROOM];
static uint8_t names[NAMES_ROOM];
static uint8_t output[QH_TEXT_BYTES];

static const char *in_words(qh_verdict verdict)
{
    switch (verdict.refusal) {
    case QH_RAGGED:
        return "the byte count is no multiple of 8; send whole records";
    case QH_LONG:
        return "a routine may have 512 records; split it";
    case QH_KIND:
        return "no kind of a routine, or byte 1, 6 or 7 is not zero; correct the record";
    case QH_FIELD:
        return "x or y is outside its range; correct the record";
    case QH_ROOM:
        return "the buffer is too short";
    case QH_TEXT:
        return "no text goes on so; correct it there";
    case QH_NAME:
        if (verdict.place == 0)
            return "the list of names needs 16 bytes a name, and may have 999";
        return "no such name in the list of names, or a thousandth label; correct "
               "the spelling, or add the name to the list";
    default:
        return "a refusal that this program does not know";
    }
}

/* Says a refusal; of a text, with line and column. Answers 1. */
static int refused(qh_verdict verdict, const uint8_t *text)
{
    unsigned line = 1, column = 1, i;

    fprintf(stderr, "refused %u at %u", (unsigned)verdict.refusal,
            (unsigned)verdict.place);
    if (text != NULL && verdict.place > 0) {
        for (i = 0; i + 1 < verdict.place; i++) {
            column = text[i] == '\n' ? 1 : column + 1;
            line += text[i] == '\n';
        }
        fprintf(stderr, " (line %u, column %u)", line, column);
    }
    fprintf(stderr, ": %s\n", in_words(verdict));
    return 1;
}

int main(int argc, char **argv)
{
    FILE *list = argc == 3 ? fopen(argv[2], "rb") : NULL;
    size_t length, names_length, written;
    int reads = argc == 3 && strcmp(argv[1], "read") == 0;
    qh_verdict verdict;

    if (list == NULL || (!reads && strcmp(argv[1], "write") != 0)) {
        fprintf(stderr, "usage: typed read|write NAMES.list < FILE\n");
        return 2;
    }
    names_length = fread(names, 1, sizeof names, list);
    fclose(list);
    length = fread(input, 1, sizeof input, stdin);
    if (length == sizeof input) {
        fprintf(stderr, "typed: more than this program takes\n");
        return 2;
    }
    if (reads)
        verdict = qh_read_text(input, length, names, names_length, output,
                               sizeof output);
    else
        verdict = qh_write_text(input, length, names, names_length, output,
                                sizeof output);
    if (verdict.refusal != QH_ACCEPTED)
        return refused(verdict, reads ? input : NULL);
    written = reads ? (size_t)QH_RECORD_BYTES * verdict.count : verdict.count;
    return fwrite(output, 1, written, stdout) == written ? 0 : 2;
}
