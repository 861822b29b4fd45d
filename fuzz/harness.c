/* Feeds books to the comparison: from AFL++ in its persistent loop, from the
   files named on the command line, or one from standard input. */

#include <stdio.h>
#include <stdlib.h>
#include <unistd.h>

#include "compare.h"

static uint8_t input[LONGEST_BOOK];

static void from_stream(FILE *stream) {
    size_t length = fread(input, 1, sizeof input, stream);
    compare_book(input, length);
}

static void from_files(int count, char **names) {
    for (int at = 0; at < count; at++) {
        FILE *stream = fopen(names[at], "rb");
        if (stream == NULL) {
            perror(names[at]);
            exit(2);
        }
        from_stream(stream);
        fclose(stream);
        printf("%s: no difference\n", names[at]);
    }
}

#ifdef __AFL_FUZZ_TESTCASE_LEN
__AFL_FUZZ_INIT();
#endif

int main(int count, char **words) {
    compare_prepare();
    if (count > 1) {
        from_files(count - 1, words + 1);
        return 0;
    }
#ifdef __AFL_FUZZ_TESTCASE_LEN
    __AFL_INIT();
    /* AFL++ asks that these two are read in this order. */
    unsigned char *bytes = __AFL_FUZZ_TESTCASE_BUF;
    while (__AFL_LOOP(10000)) {
        compare_book(bytes, (size_t)__AFL_FUZZ_TESTCASE_LEN);
    }
#else
    from_stream(stdin);
#endif
    return 0;
}
