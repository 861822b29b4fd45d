/* Asks for the first part of the book in a file and for the worth of a curve in it, then plans all of it and prints the
   answer's bytes: how a kernel calls the planner. */
#include <stdio.h>

#include "ilhuepatl.h"

static int refused(uint64_t verdict)
{
    printf("refused %u at %u\n", ILHUEPATL_NUMBER(verdict), (unsigned)ILHUEPATL_PLACE(verdict));
    return 1;
}

static void print_first(uint64_t first)
{
    if (first == 0)
        printf("first: nothing\n");
    else
        printf("first: job %u %s for %u ms\n", ILHUEPATL_FIRST_JOB(first),
               ILHUEPATL_FIRST_ROLLBACK(first) ? "rolls back" : "runs", ILHUEPATL_FIRST_TIME(first));
}

/* What job 0 would earn if it finished now. The book was accepted, so the record question is not refused. */
static void print_worth(const uint8_t *book, size_t length)
{
    uint32_t now = (uint32_t)book[5] << 24 | (uint32_t)book[6] << 16 | (uint32_t)book[7] << 8 | book[8];
    uint64_t record = ilhuepatl_record(book, length, 0);
    if (record == 0) {
        printf("worth: no job 0\n");
        return;
    }
    size_t start = record >> 16, end = record & 65535;
    size_t curve = start + 11 + 5 * (size_t)book[start + 10];
    uint64_t worth = ilhuepatl_worth(book + curve, end - curve, now);
    if (ILHUEPATL_NUMBER(worth) != 0)
        printf("worth: refused %u at %lu\n", ILHUEPATL_NUMBER(worth), (unsigned long)ILHUEPATL_PLACE(worth));
    else if (worth == ILHUEPATL_WORTH_NONE)
        printf("worth: none, job 0's curve does not hold now\n");
    else
        printf("worth: %ld if job 0 finished now\n", (long)ILHUEPATL_WORTH(worth));
}

int main(int argc, char **argv)
{
    static uint8_t book[65536];
    uint8_t output[ILHUEPATL_OUTPUT];
    FILE *file = argc == 2 ? fopen(argv[1], "rb") : NULL;
    if (file == NULL) {
        fprintf(stderr, "usage: plan BOOK\n");
        return 2;
    }
    size_t length = fread(book, 1, sizeof book, file);
    fclose(file);

    /* On a pedal press this is enough. */
    uint64_t first = ilhuepatl_first(book, length);
    if (ILHUEPATL_NUMBER(first) != 0)
        return refused(first);
    print_first(first);
    print_worth(book, length);

    uint64_t verdict = ilhuepatl_plan(book, length, output, sizeof output);
    if (verdict != 0)
        return refused(verdict);
    size_t answer = (size_t)output[0] * 256 + output[1];
    for (size_t i = 0; i < answer; i++)
        printf("%02x%c", output[i], i + 1 < answer ? ' ' : '\n');
    return 0;
}
