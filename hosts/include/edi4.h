/*
 * EDI/4 payment files: lines and files judged, totals, reports, by the built-in layout set.
 *
 * Link with libedi4_c.a, which `rt lib` builds in crates/edi4_c. The header is for C99 and C++.
 *
 * What a caller owes to each function:
 * - A pointer is followed by its length, and points to so many bytes. With length 0 it may point
 *   anywhere, but it is not NULL.
 * - No other thread writes these bytes during the call.
 * - `out` of edi4_report overlaps neither the file nor anything else that is in use.
 * Any bytes will do. No call keeps a pointer, takes memory, or calls back, and each returns.
 */
#ifndef EDI4_H
#define EDI4_H

#include <stddef.h>
#include <stdint.h>

#ifdef __cplusplus
extern "C" {
#endif

/* No report is longer. */
#define EDI4_MOST_REPORT 4022

/*
 * What a call came to. If number is 0 the call was accepted: value is what was asked for, and all
 * else is 0. If not, number is the refusal's number, layer is where it arose (2 lines and the
 * report, 3 files and currencies), value is 0, and line, field and byte are its place. They count
 * from 1, and 0 says that none is named.
 */
typedef struct edi4_answer {
    uint64_t value;
    size_t line;
    size_t field;
    size_t byte;
    uint8_t number;
    uint8_t layer;
} edi4_answer;

/*
 * Numbers of refusals. Those of a line, with its field and the byte:
 * 11 it ends early, 12 no layout has its digits, 13 a forbidden byte, 14 a blank text, 15 a number
 * out of bounds, 16 no day, 17 amount 0, 18 bytes left over.
 * Those of a file: 22 the last line is unended, 23 more than 1,200 lines.
 * 39 not a currency. 45 no room to write in.
 */

/* The number of the layout that the line, given without its CR LF, belongs to: 1 a payment, 2 an
 * advice with its texts, 3 an advice without texts, 4 a foreign cheque. */
edi4_answer edi4_judge_line(const uint8_t *line, size_t length);

/* The number of records of a file: at most 1,200 lines, each a record with CR LF behind it. */
edi4_answer edi4_judge_file(const uint8_t *bytes, size_t length);

/* The sum of the amounts of the file's lines in a currency, in hundredths. The currency is three
 * capital letters, as "DKK" with currency_length 3. */
edi4_answer edi4_total(const uint8_t *bytes, size_t length,
                       const uint8_t *currency, size_t currency_length);

/* Writes the report of the bytes to the front of out; value is its length. What stands behind it in
 * out stays as it was. A room of EDI4_MOST_REPORT bytes is always enough. If out is too short the
 * answer is 45, and out stays as it was. */
edi4_answer edi4_report(const uint8_t *bytes, size_t length, uint8_t *out, size_t out_length);

#ifdef __cplusplus
}
#endif

#endif
