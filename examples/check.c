/* check [FILE]: what `regcheck` writes of the sheet in FILE, or on standard input: its house report, or `X number line field`. Ends with 0 for
 * accepted, 1 for faulty, 2 for refused, 3 where the sheet could not be read.
 *
 * cc -std=c99 -Iinclude -o check examples/check.c target/staticlib/libchecker.a
 */
#include "itanropen.h"

#include <stdio.h>

/* one byte more than the longest sheet, so that a longer one is seen to be too long */
static uint8_t sheet[ITANROPEN_SHEET_MOST + 1];
static itanropen_buffers buffers;

static void write_answer(itanropen_verdict verdict)
{
    if (verdict.answer == ITANROPEN_REFUSED) {
        printf("X\t%u\t%lu\t%lu\n", (unsigned)verdict.number, (unsigned long)verdict.line, (unsigned long)verdict.field);
    } else {
        fwrite(buffers.report, 1, verdict.length, stdout);
    }
}

int main(int count, char **words)
{
    FILE *input = count > 1 ? fopen(words[1], "rb") : stdin;
    size_t length;
    itanropen_verdict verdict;

    if (input == NULL) {
        perror(words[1]);
        return 3;
    }
    length = fread(sheet, 1, sizeof sheet, input);
    if (ferror(input)) {
        perror("check");
        return 3;
    }
    verdict = itanropen_check_in(&buffers, ITANROPEN_HOUSE_RULE, sheet, length);
    write_answer(verdict);
    return verdict.answer;
}
