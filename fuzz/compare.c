/* The comparison of the two planners on one book. */

#include "compare.h"

#include <stdio.h>
#include <stdlib.h>
#include <string.h>
#include <sys/mman.h>

#include "planners.h"

#define PAGE 4096
#define ENOUGH 430
#define MARGIN 64
#define MOST_OUTPUT 600

/* Room whose last byte stands before a page that may not be touched, so that
   native code which goes too far is stopped there and then. */
struct fenced {
    uint8_t *fence;
};

static struct fenced book_room, output_room;

static struct fenced fenced(size_t least) {
    size_t room = (least + PAGE - 1) / PAGE * PAGE;
    uint8_t *first = mmap(NULL, room + PAGE, PROT_READ | PROT_WRITE, MAP_PRIVATE | MAP_ANONYMOUS, -1, 0);
    if (first == MAP_FAILED || mprotect(first + room, PAGE, PROT_NONE) != 0) {
        perror("no fenced room");
        exit(2);
    }
    return (struct fenced){first + room};
}

void compare_prepare(void) {
    book_room = fenced(LONGEST_BOOK);
    output_room = fenced(MARGIN + MOST_OUTPUT);
}

static void print_hex(const char *name, const uint8_t *bytes, size_t length) {
    fprintf(stderr, "%s: ", name);
    for (size_t at = 0; at < length; at++) {
        fprintf(stderr, "%02x", bytes[at]);
    }
    fprintf(stderr, "\n");
}

static void same_number(const char *question, size_t asked, uint64_t second, uint64_t proved,
                        const uint8_t *book, size_t length) {
    if (second == proved) {
        return;
    }
    fprintf(stderr, "difference: %s %zu\n", question, asked);
    fprintf(stderr, "second planner: %llu * 2^32 + %llu\n", (unsigned long long)(second >> 32),
            (unsigned long long)(second & 0xFFFFFFFF));
    fprintf(stderr, "proved planner: %llu * 2^32 + %llu\n", (unsigned long long)(proved >> 32),
            (unsigned long long)(proved & 0xFFFFFFFF));
    print_hex("book", book, length);
    abort();
}

static void same_bytes(const char *question, size_t asked, const uint8_t *second,
                       const uint8_t *proved, size_t count, const uint8_t *book, size_t length) {
    if (memcmp(second, proved, count) == 0) {
        return;
    }
    fprintf(stderr, "difference: %s %zu\n", question, asked);
    print_hex("second planner", second, count);
    print_hex("proved planner", proved, count);
    print_hex("book", book, length);
    abort();
}

/* Both outputs hold the same pattern before the call, so that all bytes can be
   compared after it: what is not written must still hold it. */
static void fill(uint8_t *bytes, size_t count, size_t salt) {
    for (size_t at = 0; at < count; at++) {
        bytes[at] = (uint8_t)(at * 7 + salt * 31 + 3);
    }
}

static void plans(const uint8_t *lent, const uint8_t *book, size_t length, size_t output) {
    static uint8_t expected[MARGIN + MOST_OUTPUT];
    uint8_t *whole = output_room.fence - output - MARGIN;
    fill(expected, MARGIN + output, output);
    fill(whole, MARGIN + output, output);
    uint64_t second = second_plan(book, length, expected + MARGIN, output);
    uint64_t proved = ilhuepatl_plan(lent, length, whole + MARGIN, output);
    same_number("verdict, bytes of output", output, second, proved, book, length);
    same_bytes("margin and output, bytes of output", output, expected, whole, MARGIN + output, book,
               length);
}

static uint32_t field(const uint8_t *bytes) {
    return (uint32_t)bytes[0] << 24 | (uint32_t)bytes[1] << 16 | (uint32_t)bytes[2] << 8 | bytes[3];
}

/* The worth of the bytes from a place up to an end, at and beside the first
   start and the termination. Where the end is the book's, so is the fence. */
static void worths(const uint8_t *lent, const uint8_t *book, size_t length, size_t place, size_t end) {
    size_t size = end - place;
    uint32_t first = size < 5 ? 0 : field(book + place + 1);
    uint32_t last = size < 4 ? 0 : field(book + end - 4);
    uint32_t moments[] = {first - 1, first, first + 1, last - 1, last, last + 1};
    for (size_t at = 0; at < sizeof moments / sizeof *moments; at++) {
        same_number("worth of the curve at byte", place, second_worth(book + place, size, moments[at]),
                    ilhuepatl_worth(lent + place, size, moments[at]), book, length);
    }
}

/* A job's curve where it stands, and with all that comes after it. */
static void curve(const uint8_t *lent, const uint8_t *book, size_t length, uint64_t record) {
    size_t start = record >> 16, end = record & 65535;
    size_t place = start + 11 + 5 * (size_t)book[start + 10];
    worths(lent, book, length, place, end);
    worths(lent, book, length, place, length);
}

static void one(const uint8_t *book, size_t length) {
    uint8_t *lent = book_room.fence - length;
    memcpy(lent, book, length);
    plans(lent, book, length, ENOUGH - 1);
    plans(lent, book, length, ENOUGH);
    /* What the first full call leaves behind must not show in another. */
    plans(lent, book, length, MOST_OUTPUT);

    size_t count = length > 3 && book[3] <= 32 ? book[3] : 0;
    for (size_t job = 0; job <= count + 2; job++) {
        size_t number = job <= count + 1 ? job : 255;
        uint64_t record = second_record(book, length, number);
        same_number("record of job", number, record, ilhuepatl_record(lent, length, number), book,
                    length);
        if (record != 0 && record >> 32 == 0) {
            curve(lent, book, length, record);
        }
    }
    worths(lent, book, length, 0, length);
    same_number("first part, bytes of book", length, second_first(book, length),
                ilhuepatl_first(lent, length), book, length);
    same_bytes("the lent book after all calls", 0, book, lent, length, book, length);
}

void compare_book(const uint8_t *bytes, size_t length) {
    static uint8_t book[LONGEST_BOOK];
    if (length > LONGEST_BOOK) {
        length = LONGEST_BOOK;
    }
    memcpy(book, bytes, length);
    one(book, length);
    /* A fuzzer that adds or drops bytes hardly ever hits the length field too,
       and SIZE would hide all that comes after it. */
    if (length >= 2 && length <= 65535 && (size_t)book[0] * 256 + book[1] != length) {
        book[0] = (uint8_t)(length >> 8);
        book[1] = (uint8_t)length;
        one(book, length);
    }
}
