#ifndef COMPARE_H
#define COMPARE_H

#include <stddef.h>
#include <stdint.h>

/* Longer inputs are cut to this. A length field can't say more than 65,535. */
#define LONGEST_BOOK 65552

/* Makes the fenced rooms; to be called once, before the first book. */
void compare_prepare(void);

/* Asks both planners about a book, as it is and with its length field made
   right. At the first difference it prints the book and both answers and
   aborts. */
void compare_book(const uint8_t *bytes, size_t length);

#endif
