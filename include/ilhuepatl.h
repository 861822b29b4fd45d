/* The planner's calls for C. Link target/staticlib/libilhuepatl.a, which `tools/archive` writes.
   Every call ends, keeps nothing, allocates nothing and asks nothing of its caller but that the lengths are true.
   Book, curve and output may be any bytes of any length; book and output must not overlap. */
#ifndef ILHUEPATL_H
#define ILHUEPATL_H

#include <stddef.h>
#include <stdint.h>

#ifdef __cplusplus
extern "C" {
#endif

/* A verdict: 0, or a refusal's number and place. */
#define ILHUEPATL_NUMBER(verdict) ((unsigned)((verdict) >> 32))
#define ILHUEPATL_PLACE(verdict) ((uint32_t)(verdict))

/* The numbers of a refusal. The place is a byte offset in the book, or in the curve that was asked about; for KNOT it is a
   job number. */
enum {
    ILHUEPATL_ROOM = 1,
    ILHUEPATL_SIZE = 2,
    ILHUEPATL_VERSION = 3,
    ILHUEPATL_COUNT = 4,
    ILHUEPATL_CUT = 5,
    ILHUEPATL_RANGE = 6,
    ILHUEPATL_TWICE = 7,
    ILHUEPATL_MODE = 8,
    ILHUEPATL_TAIL = 9,
    ILHUEPATL_KNOT = 10
};

/* An output of this many bytes is always enough, and fewer are refused with ROOM. */
#define ILHUEPATL_OUTPUT 430

/* Plans a book. 0: the answer's bytes stand at the start of output (their number in its first two bytes, the most
   significant first), and later bytes keep their values. Else a refusal, and nothing is written. */
uint64_t ilhuepatl_plan(const uint8_t *book, size_t book_length, uint8_t *output, size_t output_length);

/* Where one job's record stands in a book: its first byte in the upper 16 of the lower 32 bits, and the byte after its
   last in the lower 16. 0 where the book has no such job. A refused book gives its refusal (never ROOM or KNOT). */
uint64_t ilhuepatl_record(const uint8_t *book, size_t book_length, size_t job);

/* The part that the plan of a book begins with, without planning the rest: its job in bits 24 to 31, its mode in bits 16
   to 23, its time in bits 0 to 15. 0 where the plan has no part. 2^32 and above is a refusal, the one that ilhuepatl_plan
   gives (never ROOM). */
uint64_t ilhuepatl_first(const uint8_t *book, size_t book_length);

/* Of such a part: its job, its mode (1 rollback, 0 normal) and its time in milliseconds, which is never 0. */
#define ILHUEPATL_FIRST_JOB(word) ((unsigned)((word) >> 24 & 255))
#define ILHUEPATL_FIRST_ROLLBACK(word) ((unsigned)((word) >> 16 & 255))
#define ILHUEPATL_FIRST_TIME(word) ((unsigned)((word) & 65535))

/* What finishing at moment t is worth by one curve, asked where it stands: its bytes from the piece count to the
   termination, and nothing after them. At byte 10 of a job's record stands its held count h; its curve begins at byte
   11 + 5 x h and ends where the record does. Before the first start and after the termination there is none, which is not
   0: the number is then 2^31, ILHUEPATL_WORTH_NONE. At both the curve holds. Any other number below 2^32 is the worth in
   32 bits of two's complement, -1,000,000 to 1,000,000. 2^32 and above is a refusal: CUT, RANGE, or TAIL for bytes after
   the termination, with the place counted from the curve's first byte. */
uint64_t ilhuepatl_worth(const uint8_t *curve, size_t curve_length, uint32_t t);

#define ILHUEPATL_WORTH_NONE 2147483648u

/* Of such a number, if it is neither none nor a refusal: the worth. */
#define ILHUEPATL_WORTH(word) ((int32_t)((int64_t)((word) ^ 2147483648u) - 2147483648))

#ifdef __cplusplus
}
#endif

#endif
