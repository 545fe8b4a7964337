/* What include/itanropen.h says at the edges, tried: rules, short buffers, what a call leaves, the fields of refusals, null pointers
 * with count 0, calls at the same time; and how much stack a call takes. Compiled and run by tools/try-header, which hands it
 * examples/unfilled-slot.sheet: the old rule accepts that sheet, the house rule does not.
 */
#define _POSIX_C_SOURCE 200809L
#include "itanropen.h"

#include <pthread.h>
#include <stdio.h>
#include <string.h>

#define MORE 7 /* elements past a size */

static uint8_t sheet[ITANROPEN_SHEET_MOST];
static itanropen_buffers buffers;
static uint8_t report[ITANROPEN_REPORT_COUNT + MORE];
static uint16_t words[ITANROPEN_WORDS_COUNT + MORE];
static uint8_t queue[ITANROPEN_QUEUE_COUNT + MORE];
static int failed;

static void expect(int holds, const char *what)
{
    if (!holds) {
        printf("try-header: not so: %s\n", what);
        failed = 1;
    }
}

/* every byte of a buffer is this one */
static int all(const void *buffer, size_t bytes, uint8_t byte)
{
    const uint8_t *at = (const uint8_t *)buffer;
    size_t i;
    for (i = 0; i < bytes; i++) {
        if (at[i] != byte) {
            return 0;
        }
    }
    return 1;
}

static void fill(void)
{
    memset(report, 0xA5, sizeof report);
    memset(words, 0xA5, sizeof words);
    memset(queue, 0xA5, sizeof queue);
}

static int refused(itanropen_verdict v, unsigned number)
{
    return v.answer == ITANROPEN_REFUSED && v.number == number && v.length == 0 && v.line == 0 && v.field == 0;
}

static int says(itanropen_verdict v, uint8_t answer, const char *text)
{
    return v.answer == answer && v.number == 0 && v.line == 0 && v.field == 0 && v.length >= strlen(text) && memcmp(buffers.report, text, strlen(text)) == 0;
}

static void try_rules(size_t length)
{
    static const uint64_t others[] = {1, 2, 128, 255, 256, 65536, (uint64_t)1 << 32, (uint64_t)1 << 63, UINT64_MAX};
    size_t i;
    expect(says(itanropen_check_in(&buffers, ITANROPEN_OLD_RULE, sheet, length), ITANROPEN_ACCEPTED, "R\told\t0\n"), "0 is the old rule");
    for (i = 0; i < ITANROPEN_COUNT(others); i++) {
        expect(says(itanropen_check_in(&buffers, others[i], sheet, length), ITANROPEN_FAULTY, "R\thouse\t1\n"), "every other number is the house rule");
    }
}

static void try_lengths(size_t length)
{
    static const size_t shorter[][3] = {{1, 0, 0}, {0, 1, 0}, {0, 0, 1}};
    size_t i;
    for (i = 0; i < ITANROPEN_COUNT(shorter); i++) {
        fill();
        expect(refused(itanropen_check(ITANROPEN_HOUSE_RULE, sheet, length, report, ITANROPEN_REPORT_COUNT - shorter[i][0], words,
                                       ITANROPEN_WORDS_COUNT - shorter[i][1], queue, ITANROPEN_QUEUE_COUNT - shorter[i][2]), 1),
               "a buffer that is one element short is refusal 1");
        expect(all(report, sizeof report, 0xA5) && all(words, sizeof words, 0xA5) && all(queue, sizeof queue, 0xA5), "refusal 1 changes nothing");
    }
}

static void try_leavings(size_t length)
{
    itanropen_verdict v;
    fill();
    v = itanropen_check(ITANROPEN_HOUSE_RULE, sheet, length, report, ITANROPEN_COUNT(report), words, ITANROPEN_COUNT(words), queue, ITANROPEN_COUNT(queue));
    expect(v.answer == ITANROPEN_FAULTY, "longer buffers are taken");
    expect(all(report + v.length, sizeof report - v.length, 0xA5), "the report behind its text is as it was");
    expect(all(words, sizeof words, 0) && all(queue, sizeof queue, 0), "the scratch is zero, also past its size");
    fill();
    v = itanropen_check(ITANROPEN_HOUSE_RULE, sheet, length, report, ITANROPEN_COUNT(report), words, ITANROPEN_WORDS_COUNT, queue, ITANROPEN_QUEUE_COUNT);
    expect(all(words + ITANROPEN_WORDS_COUNT, sizeof words[0] * MORE, 0xA5) && all(queue + ITANROPEN_QUEUE_COUNT, MORE, 0xA5), "nothing is written past a count");
    fill();
    v = itanropen_check(ITANROPEN_HOUSE_RULE, sheet, length - 1, report, ITANROPEN_COUNT(report), words, ITANROPEN_COUNT(words), queue, ITANROPEN_COUNT(queue));
    expect(refused(v, 2), "a sheet whose last byte is not LF is refusal 2");
    expect(all(report, sizeof report, 0xA5) && all(words, sizeof words, 0) && all(queue, sizeof queue, 0), "a refusal leaves the report, and the scratch zero");
}

/* number, line and field of refusals that name a field, and of one that names none */
static void try_fields(void)
{
    static const struct {
        const char *sheet;
        unsigned number, line, field;
    } refusals[] = {{"\n", 3, 1, 1}, {"F\t0\t0\t0\t1\n", 3, 1, 6}, {"F\t0\t0\t0\t0\t0\n", 5, 1, 5}, {"F\t0\t0\t0\t1\t1\n", 5, 1, 6}, {"F\t1\t1\t0\t1\t0\nB\nP\t0\t0\t0\n", 6, 3, 4},
                    {"F\t1\t1\t0\t1\t0\nB\nO\t0\t1\tr0\t-\t0\n", 7, 3, 5}, {"F\t0\t0\t0\t1\t0\n", 4, 2, 0}};
    size_t i;
    for (i = 0; i < ITANROPEN_COUNT(refusals); i++) {
        itanropen_verdict v = itanropen_check_in(&buffers, ITANROPEN_HOUSE_RULE, refusals[i].sheet, strlen(refusals[i].sheet));
        expect(v.answer == ITANROPEN_REFUSED && v.length == 0 && v.number == refusals[i].number && v.line == refusals[i].line && v.field == refusals[i].field,
               "a refusal has its number, line and field");
    }
}

static void try_nulls(size_t length)
{
    expect(refused(itanropen_check_in(&buffers, ITANROPEN_HOUSE_RULE, NULL, 0), 2), "no sheet is an empty sheet");
    expect(refused(itanropen_check_arrays(ITANROPEN_HOUSE_RULE, NULL, 0, &buffers.report, &buffers.words, &buffers.queue), 2), "nor is none of the arrays' form");
    expect(refused(itanropen_check(1, NULL, 0, buffers.report, ITANROPEN_REPORT_COUNT, buffers.words, ITANROPEN_WORDS_COUNT, buffers.queue, ITANROPEN_QUEUE_COUNT), 2),
           "this build: a null sheet with count 0 is refusal 2");
    expect(refused(itanropen_check(1, sheet, length, NULL, 0, NULL, 0, NULL, 0), 1), "this build: null buffers with count 0 are refusal 1");
}

/* calls at the same time, each with buffers of its own and all with one sheet */
struct caller {
    uint64_t rule;
    size_t length;
    int calls;
    int same;
    itanropen_buffers buffers;
};

static void *call(void *of)
{
    struct caller *caller = (struct caller *)of;
    const char *text = caller->rule == ITANROPEN_OLD_RULE ? "R\told\t0\n" : "R\thouse\t1\n";
    int i;
    caller->same = 1;
    for (i = 0; i < caller->calls; i++) {
        itanropen_verdict v = itanropen_check_in(&caller->buffers, caller->rule, sheet, caller->length);
        caller->same = caller->same && v.length >= strlen(text) && memcmp(caller->buffers.report, text, strlen(text)) == 0;
    }
    return NULL;
}

static void try_threads(size_t length)
{
    static struct caller callers[4];
    pthread_t threads[4];
    size_t i;
    for (i = 0; i < ITANROPEN_COUNT(callers); i++) {
        callers[i].rule = i % 2;
        callers[i].length = length;
        callers[i].calls = 200;
        expect(pthread_create(&threads[i], NULL, call, &callers[i]) == 0, "a thread begins");
    }
    for (i = 0; i < ITANROPEN_COUNT(callers); i++) {
        pthread_join(threads[i], NULL);
        expect(callers[i].same, "calls with separate buffers may run at the same time");
    }
}

/* how much stack a call takes: of a thread on a stack of ours, which is painted up to some bytes below where the call is made */
#define PAINTED_BELOW 512
static uint8_t stack[1 << 18];
static size_t stack_taken;

static void *measured(void *of)
{
    struct caller *caller = (struct caller *)of;
    uint8_t here;
    size_t painted = (size_t)(&here - stack) - PAINTED_BELOW, i = 0;
    itanropen_verdict v;
    memset(stack, 0xA5, painted);
    v = itanropen_check_in(&caller->buffers, caller->rule, sheet, caller->length);
    expect(v.answer == ITANROPEN_FAULTY, "the house rule finds a fault");
    while (i < painted && stack[i] == 0xA5) {
        i++;
    }
    stack_taken = painted - i + PAINTED_BELOW;
    return NULL;
}

static void try_stack(size_t length)
{
    static struct caller caller;
    pthread_attr_t attributes;
    pthread_t thread;
    caller.rule = ITANROPEN_HOUSE_RULE;
    caller.length = length;
    pthread_attr_init(&attributes);
    expect(pthread_attr_setstack(&attributes, stack, sizeof stack) == 0 && pthread_create(&thread, &attributes, measured, &caller) == 0, "a thread begins");
    pthread_join(thread, NULL);
    printf("header: a call took %lu bytes of stack\n", (unsigned long)stack_taken);
}

int main(void)
{
    size_t length = fread(sheet, 1, sizeof sheet, stdin);
    try_rules(length);
    try_lengths(length);
    try_leavings(length);
    try_fields();
    try_nulls(length);
    try_threads(length);
    try_stack(length);
    return failed;
}
