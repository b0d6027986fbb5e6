/* The rule enumerator for C and C++: four functions of libexports.a.
 *
 * docs/FORMAT.md describes the rules file and the refusals by number.
 *
 * For every function:
 * - A length is a number of elements, not of bytes.
 * - No pointer is null, also where its length is 0, and each is aligned for
 *   its type. No two arrays of a call overlap.
 * - Nothing is allocated and nothing is kept between calls. Of the stack a
 *   call took at most 411 KiB where a map was long (measured with an
 *   older toolchain, not proved).
 * - The status is RULES_ACCEPTED or RULES_REFUSED, or one of the two that
 *   touch nothing: RULES_TOO_SHORT, then RULES_NO_ENGINE, in that order.
 * - After RULES_REFUSED the answer is: refusal number, record (0 for the
 *   whole), which file (0 where there is one file), 0; rules_page gives 30
 *   more zeros. Only the answer and the scratch are changed.
 * - Words of the answer past RULES_ANSWER, or RULES_PAGE_ANSWER for
 *   rules_page, are unchanged.
 */
#ifndef RULES_H
#define RULES_H

#include <stddef.h>
#include <stdint.h>

#ifdef __cplusplus
extern "C" {
#endif

/* What a function returns. */
enum {
    RULES_ACCEPTED = 0,
    RULES_REFUSED = 1,
    RULES_TOO_SHORT = 2, /* the answer, or a start of 1 to 31 numbers */
    RULES_NO_ENGINE = 3  /* neither RULES_STRUCTURAL nor RULES_EXHAUSTIVE */
};

/* The engines. */
enum {
    RULES_STRUCTURAL = 0,
    RULES_EXHAUSTIVE = 1
};

/* Which file a refusal is about. */
enum {
    RULES_ONLY = 0,   /* the one file of the call */
    RULES_FIRST = 1,  /* rules_join: the first file */
    RULES_SECOND = 2, /* rules_join: the second file */
    RULES_JOINED = 3  /* rules_join: the joined file */
};

/* Lengths. */
enum {
    RULES_ANSWER = 4,       /* answer of rules_validate, rules_count, rules_join */
    RULES_PAGE_ANSWER = 34, /* answer of rules_page */
    RULES_TUPLE = 32,       /* a start, and the last tuple in answer[2..34] */
    RULES_ROW = 4,          /* words of a verdict before its values */
    RULES_RECORD = 32,      /* bytes of a record */
    RULES_LONGEST = 65536   /* bytes of the longest rules file */
};

/* Judges a rules file.
 *
 * answer: RULES_ANSWER numbers or more.
 *
 * Accepted: the answer is how many fields, how many constraints, the total,
 * and how many numbers of scratch rules_count and rules_page need. That can be
 * as much as 1,000,000,000.
 * Refused: 1 to 10.
 */
uint8_t rules_validate(const uint8_t *file, size_t file_len,
                       size_t *answer, size_t answer_len);

/* Counts the verdicts of a rules file.
 *
 * scratch: as many numbers as rules_validate says, or more.
 * answer: RULES_ANSWER numbers or more.
 *
 * Accepted: the answer is total, emitted, passed, failed.
 * Refused: 1 to 13.
 * Scratch is unchanged after a refusal up to 11, and all zeros after a later
 * one and after acceptance.
 */
uint8_t rules_count(uint8_t engine,
                    const uint8_t *file, size_t file_len,
                    int64_t *scratch, size_t scratch_len,
                    size_t *answer, size_t answer_len);

/* Writes the next verdicts of a rules file, as many as fit.
 *
 * scratch: as many numbers as rules_validate says, or more.
 * out: n + RULES_ROW words or more, where n is the number of fields, not 0.
 * start: of length 0 for the beginning. Of RULES_TUPLE numbers or more to go
 * on after the tuple in the first RULES_TUPLE: the answer + 2 of the page
 * before.
 * answer: RULES_PAGE_ANSWER numbers or more. It must not overlap the start, so
 * the tuple is copied from the one to the other.
 *
 * Accepted: the answer is how many verdicts were written, 1 if no verdict
 * follows them and else 0, and the last tuple. The out has n + RULES_ROW words
 * for each verdict: passed 1 or 0, place, 1 if there is a projection and else
 * 0, projection or 0, then the n values. Later words of out are unchanged.
 * Refused: 1 to 15. The out is unchanged.
 * Scratch is as after rules_count.
 */
uint8_t rules_page(uint8_t engine,
                   const uint8_t *file, size_t file_len,
                   int64_t *scratch, size_t scratch_len,
                   int64_t *out, size_t out_len,
                   const size_t *start, size_t start_len,
                   size_t *answer, size_t answer_len);

/* Joins two rules files.
 *
 * out: the sum of the two lengths is always enough.
 * answer: RULES_ANSWER numbers or more.
 *
 * Accepted: the answer is the length of the joined file and three zeros. The
 * joined file stands at the start of out; later bytes are unchanged.
 * Refused: 1 to 10 and 16 of RULES_FIRST or RULES_SECOND; 5, 1, 10, 14 of
 * RULES_JOINED. The out is unchanged.
 */
uint8_t rules_join(const uint8_t *first, size_t first_len,
                   const uint8_t *second, size_t second_len,
                   uint8_t *out, size_t out_len,
                   size_t *answer, size_t answer_len);

#ifdef __cplusplus
}
#endif

#endif
