/* The C faces of the two planners. The second one's is the proved one's under
   other names. */
#ifndef PLANNERS_H
#define PLANNERS_H

#include <stddef.h>
#include <stdint.h>

uint64_t ilhuepatl_plan(const uint8_t *book, size_t book_len, uint8_t *out, size_t out_len);
uint64_t ilhuepatl_record(const uint8_t *book, size_t book_len, size_t job);
uint64_t ilhuepatl_first(const uint8_t *book, size_t book_len);
uint64_t ilhuepatl_worth(const uint8_t *curve, size_t curve_len, uint32_t t);

uint64_t second_plan(const uint8_t *book, size_t book_len, uint8_t *out, size_t out_len);
uint64_t second_record(const uint8_t *book, size_t book_len, size_t job);
uint64_t second_first(const uint8_t *book, size_t book_len);
uint64_t second_worth(const uint8_t *curve, size_t curve_len, uint32_t t);

#endif
