/* Itanropen: a proved checker of register allocations, for C99, C++ and whatever calls C.
 *
 * Written by hand beside crates/checker_c/src/lib.rt, which exports the same function; `tools/try-header` compiles this file and runs
 * programs over it. Link with target/staticlib/libchecker.a, which `tools/native library checker` proves and builds, for x86-64 Linux, from
 * the same sources as this file. The library allocates nothing, keeps nothing between calls, and calls nothing but memcpy and memset.
 *
 * 1 sizes, 2 rules and answers, 3 the verdict, 4 the buffers, 5 the functions, 6 two reports compared, 7 sealed reports, 8 sheets written. What is said of a function under
 * "Promise" is proved (docs/PROMISES.md) for every call that keeps what is said under "The caller".
 */
#ifndef ITANROPEN_H
#define ITANROPEN_H

#include <stddef.h>
#include <stdint.h>

#ifdef __cplusplus
extern "C" {
#endif

/* 1. Sizes. Each is a count of ELEMENTS of the buffer that it is named after, never of bytes: the words are 16 bits wide, so that
 * ITANROPEN_WORDS_COUNT words are 65,536 bytes. A shorter buffer is refused (refusal 1); a longer one is taken whole.
 */
#define ITANROPEN_REPORT_COUNT ((size_t)34576) /* elements of uint8_t */
#define ITANROPEN_WORDS_COUNT ((size_t)32768)  /* elements of uint16_t */
#define ITANROPEN_QUEUE_COUNT ((size_t)32769)  /* elements of uint8_t */

/* The longest sheet, in bytes; a longer one is refused (refusal 2). */
#define ITANROPEN_SHEET_MOST ((size_t)65536)

/* 2. Rules and answers. 0 is the old rule, and every other number is the house rule, the stricter one: no other value chooses the old
 * rule, whatever was meant by it.
 */
#define ITANROPEN_OLD_RULE ((uint64_t)0)
#define ITANROPEN_HOUSE_RULE ((uint64_t)1)

#define ITANROPEN_ACCEPTED 0
#define ITANROPEN_FAULTY 1
#define ITANROPEN_REFUSED 2

/* 3. The verdict. Fields are only ever added behind the last. */
typedef struct itanropen_verdict {
    uint8_t answer; /* ITANROPEN_ACCEPTED, ITANROPEN_FAULTY or ITANROPEN_REFUSED */
    uint8_t number; /* refused: the refusal's number, 1 to 9; else 0 */
    size_t length;  /* accepted, faulty: how many bytes of the report are its text; else 0 */
    size_t line;    /* refused: the sheet's line, from 1, or 0 for the whole; else 0 */
    size_t field;   /* refused by 3 or by 5 to 8: the line's first field to show it, the letter being 1; else 0 */
} itanropen_verdict;

/* The library's own layout; a compiler with another one stops here. */
typedef char itanropen_verdict_has_32_bytes[sizeof(itanropen_verdict) == 32 && offsetof(itanropen_verdict, length) == 8 ? 1 : -1];

/* 4. The buffers that a call is lent, at their sizes: some 115,000 bytes, so static or allocated rather than on a small stack. Nothing
 * need be set before a call.
 */
typedef struct itanropen_buffers {
    uint8_t report[ITANROPEN_REPORT_COUNT];
    uint16_t words[ITANROPEN_WORDS_COUNT];
    uint8_t queue[ITANROPEN_QUEUE_COUNT];
} itanropen_buffers;

/* The count of an array's elements, for buffers of one's own: ITANROPEN_COUNT(words), never sizeof words. Of an array, not of a
 * pointer.
 */
#define ITANROPEN_COUNT(array) (sizeof(array) / sizeof((array)[0]))

/* 5. The functions. `itanropen_check` is the exported symbol; `itanropen_check_arrays` and `itanropen_check_in` call it with counts that
 * cannot be mistaken, and are the ones to use.
 *
 * itanropen_check: the answer to a sheet under a rule.
 *
 * Promise (`Exported` of crates/checker/specs/Checked.antt; one outcome only, `export_one_outcome`), for every sheet and every content
 * of the buffers:
 * - refused with number 1, line 0 and field 0 exactly where a buffer is shorter than its size above; then nothing is changed;
 * - otherwise every element of words and queue is 0 afterwards, also past their sizes;
 * - refused: number, line and field are those of document 01's table as document 02, A4, amends it (crates/paper/specs/Refusals.antt);
 *   the report is as it was;
 * - accepted or faulty: the first `length` bytes of the report are its text, and later bytes are as they were. No zero byte ends it;
 * - accepted under the house rule exactly where the sheet is read and document 01's sentence on acceptance holds of it, as document 02,
 *   A5, amends it; then the original and the allocated program read equal values at every use on every walk (`export_exactly`,
 *   `export_accepted`);
 * - under the house rule a report has a line `N b` exactly where no allocation is missing and no walk comes to block b, in the place of
 *   that block's faults (`export_named`): an accepted report may be longer than its header;
 * - the call returns, and reads and writes no element outside what it is lent.
 *
 * The caller:
 * - each pointer points at as many ELEMENTS as the count behind it says, live during the call, aligned for their type and readable;
 *   report, words and queue writable. A count of bytes passed for `words_count` lets the call write far past the buffer;
 * - no two of the four overlap, and no one else reads or writes the three buffers, or writes the sheet, during the call;
 * - no pointer is null, whatever its count. With count 0 a null pointer is read by nothing today (a null sheet is an empty one,
 *   refusal 2; a null buffer is too short, refusal 1), but that is how this build came out and not proved: the inline functions
 *   never pass a null sheet on;
 * - there is stack for the call. No theorem bounds it; `tools/try-header` prints what one took, less than 2,048 bytes in today's build;
 * - calls with separate buffers may run at the same time, also on one sheet.
 */
itanropen_verdict itanropen_check(uint64_t rule,
                                  const uint8_t *sheet, size_t sheet_count,
                                  uint8_t *report, size_t report_count,
                                  uint16_t *words, size_t words_count,
                                  uint8_t *queue, size_t queue_count);

/* The same over arrays of exactly the sizes of section 1: `itanropen_check_arrays(rule, sheet, bytes, &report, &words, &queue)`. An array
 * of another length has another type, which a C++ compiler refuses and a C compiler warns of. A null sheet with count 0 is an empty one.
 */
static inline itanropen_verdict itanropen_check_arrays(uint64_t rule, const void *sheet, size_t sheet_bytes,
                                                       uint8_t (*report)[ITANROPEN_REPORT_COUNT],
                                                       uint16_t (*words)[ITANROPEN_WORDS_COUNT],
                                                       uint8_t (*queue)[ITANROPEN_QUEUE_COUNT])
{
    static const uint8_t no_sheet = 0;
    return itanropen_check(rule,
                           sheet_bytes == 0 ? &no_sheet : (const uint8_t *)sheet, sheet_bytes,
                           *report, ITANROPEN_REPORT_COUNT,
                           *words, ITANROPEN_WORDS_COUNT,
                           *queue, ITANROPEN_QUEUE_COUNT);
}

/* The same over the buffers of section 4. */
static inline itanropen_verdict itanropen_check_in(itanropen_buffers *buffers, uint64_t rule, const void *sheet, size_t sheet_bytes)
{
    return itanropen_check_arrays(rule, sheet, sheet_bytes, &buffers->report, &buffers->words, &buffers->queue);
}

/* 6. Two reports compared, by target/staticlib/libcompare.a (`tools/native library compare`), beside crates/compare_c/src/lib.rt. */
#define ITANROPEN_EQUAL 0
#define ITANROPEN_PARTS 1
#define ITANROPEN_MALFORMED 2

typedef struct itanropen_judgement {
    uint8_t answer; /* ITANROPEN_EQUAL, ITANROPEN_PARTS or ITANROPEN_MALFORMED */
    uint8_t side;   /* malformed: 1 the first report, 2 the second; else 0 */
    size_t line;    /* they part: the first line that differs, from 1; malformed: the first bad line; else 0 */
    size_t place;   /* they part: where that line begins, in bytes, the same in both; else 0 */
} itanropen_judgement;

typedef char itanropen_judgement_has_24_bytes[sizeof(itanropen_judgement) == 24 && offsetof(itanropen_judgement, line) == 8 ? 1 : -1];

/* itanropen_compare: are two reports the same, and where do they part?
 *
 * Promise (`judgement_of (compared first second)`, crates/paper/specs/Comparison.antt), for any bytes of any length: the first report is
 * judged first; equal exactly where both are well formed and their bytes are the same; nothing is changed, and the call returns. What
 * is handed back of the longer one, of two equally long the first, is its bytes from `place` on.
 *
 * The caller: each pointer points at as many bytes as the count behind it says, live and readable during the call, written by no one
 * meanwhile; no pointer is null. The two may overlap.
 */
itanropen_judgement itanropen_compare(const uint8_t *first, size_t first_count, const uint8_t *second, size_t second_count);

/* 7. Sealed reports, by target/staticlib/libsealed.a (`tools/native library sealed`, beside crates/sealed_c/src/lib.rt), and the reader of seals, by
 * target/staticlib/libseal.a (`tools/native library seal`, beside crates/seal_c/src/lib.rt). A seal is the report's last line: `K`, a tab, the CRC-32 of
 * ITU-T V.42 over all bytes before that line in eight lowercase hex digits, LF.
 */
#define ITANROPEN_SEAL_COUNT 11
#define ITANROPEN_SEALED_COUNT (ITANROPEN_REPORT_COUNT + ITANROPEN_SEAL_COUNT)

#define ITANROPEN_GOOD 0
#define ITANROPEN_WRONG 1
#define ITANROPEN_NO_SEAL 2

/* itanropen_check_sealed: as itanropen_check, with a sealed report.
 *
 * Promise (`ExportedSealed` of crates/sealed/specs/Sealed.antt, over `sealed_outcome` of crates/paper/specs/Seal.antt; one outcome only,
 * `export_one_outcome`), for every sheet and every content of the buffers: that of itanropen_check (section 5), but that
 * - a report of fewer than ITANROPEN_SEALED_COUNT bytes is refusal 1;
 * - accepted or faulty: the first `length` bytes of the report are its text and behind it the line that seals it; `length` counts both. What
 *   stands there is good (`accepted_good`, `faulty_good`). A refusal is not sealed.
 *
 * The caller: as for itanropen_check.
 */
itanropen_verdict itanropen_check_sealed(uint64_t rule,
                                         const uint8_t *sheet, size_t sheet_count,
                                         uint8_t *report, size_t report_count,
                                         uint16_t *words, size_t words_count,
                                         uint8_t *queue, size_t queue_count);

/* itanropen_verify: what the seal at the end of a text comes to.
 *
 * Promise (`code_of (seal_of text)`, crates/paper/specs/Seal.antt), for any bytes of any length: ITANROPEN_GOOD exactly where the text is a text
 * of closed lines, or of none, and behind it its seal's line (`good_exactly`); ITANROPEN_WRONG where the last 11 bytes are a line of that
 * shape with another word; else ITANROPEN_NO_SEAL. A text that differs from a sealed one before the line, inside a run of at most 32 bits, is
 * never good under the same line (`burst_not_good`). Nothing is changed, and the call returns.
 *
 * The caller: the pointer points at as many bytes as the count says, live and readable during the call, written by no one meanwhile; it is
 * not null.
 */
uint8_t itanropen_verify(const uint8_t *text, size_t text_count);

/* 8. Sheets written, by target/staticlib/libwriter.a (`tools/native library writer`, beside crates/writer_c/src/lib.rt). A sheet is loaded into words, which
 * hold its form, and written from them again; a sheet has one spelling, so what is written is its own bytes. itanropen_write has
 * two buffers of together 132,608 bytes on the stack.
 */
#define ITANROPEN_WRITTEN 0
#define ITANROPEN_NO_SHEET 1
#define ITANROPEN_NO_ROOM 2

/* What loading comes to. Fields are only ever added behind the last. */
typedef struct itanropen_load_verdict {
    uint8_t number; /* the refusal's number; 0 where the sheet was read */
    size_t line;    /* the sheet's line, from 1, or 0 for the whole and where it was read */
    size_t field;   /* the line's first field to show it, as in a verdict; else 0 */
} itanropen_load_verdict;

typedef char itanropen_load_verdict_has_24_bytes[sizeof(itanropen_load_verdict) == 24 && offsetof(itanropen_load_verdict, field) == 16 ? 1 : -1];

/* What writing comes to. */
typedef struct itanropen_write_verdict {
    uint8_t answer; /* ITANROPEN_WRITTEN, ITANROPEN_NO_SHEET or ITANROPEN_NO_ROOM */
    size_t length;  /* written: how many bytes the text has; else 0 */
} itanropen_write_verdict;

typedef char itanropen_write_verdict_has_16_bytes[sizeof(itanropen_write_verdict) == 16 && offsetof(itanropen_write_verdict, length) == 8 ? 1 : -1];

/* itanropen_load: a sheet into words.
 *
 * Promise (`LoadExported` of crates/writer/specs/Load.antt), for every sheet and every content of the words: fewer than ITANROPEN_WORDS_COUNT
 * words are refusal 1, and nothing changes; a sheet that is refused leaves every word zero; one that is read leaves its form in the words
 * (`form_of`), from which itanropen_write writes the sheet's own bytes. Which words the form takes is not promised.
 *
 * The caller: each pointer points at as many live elements as the count behind it says; the words overlap nothing; no pointer is null.
 */
itanropen_load_verdict itanropen_load(const uint8_t *sheet, size_t sheet_count, uint16_t *words, size_t words_count);

/* itanropen_write: the form that words hold, as its sheet.
 *
 * Promise (`WriteExported` of crates/writer/specs/Form.antt, over `sheet_outcome` of crates/paper/specs/Writing.antt; one outcome only), for words
 * of any length and content: ITANROPEN_NO_SHEET where no sheet gives the form, then ITANROPEN_NO_ROOM where the buffer is shorter than the
 * text, and either leaves the buffer as it was; else the text stands at the buffer's start, later bytes keep their values, and reading the
 * text gives the form again (`written_read`). The words are not changed.
 *
 * The caller: each pointer points at as many live elements as the count behind it says; the buffer overlaps nothing; no pointer is null.
 */
itanropen_write_verdict itanropen_write(const uint16_t *words, size_t words_count, uint8_t *out, size_t out_count);

#ifdef __cplusplus
}
#endif

#endif
