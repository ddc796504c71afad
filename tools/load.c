/* Writes a load to a file: a trace of calls made from a seed, the same on every machine, to compare machines by.
     cc -Iinclude tools/load.c target/staticlib/libpmc330_c.a -o target/load
     target/load SEED RANGE CALLS FILE
   SEED is 1 to 4294967295, RANGE 0 to 3, CALLS up to about 2.7 million; include/pmc330.h says what calls they are. The
   benchmark of checker/ checks whether the file (give it as an absolute path) is the load of SEED, plays it, says how
   many calls a second, and prints digests of the load and of the answers:
     cd checker && cargo run --release --offline --bin benchmark -- load FILE SEED
   It ends with 0 where the file is written and its line is printed, 1 where the load is refused or something cannot be
   written (a part of the file may be there then), 2 where it is called in another way. */
#include <errno.h>
#include <stdio.h>
#include <stdlib.h>
#include <string.h>
#include "pmc330.h"

/* A decimal number of 32 bits. Gives whether the text is one. */
static int number_of(const char *text, uint32_t *number) {
    char *end;
    errno = 0;
    unsigned long value = strtoul(text, &end, 10);
    if (*text < '0' || *text > '9' || *end != '\0' || errno != 0 || value > 0xFFFFFFFFUL)
        return 0;
    *number = (uint32_t)value;
    return 1;
}

static const char *reason(uint32_t number) {
    if (number == PMC330_BAD_SEED)
        return "the seed is 0";
    if (number == PMC330_BAD_RANGE)
        return "the range is above 3";
    return "its trace would have more than 16777216 bytes";
}

/* Gives whether all bytes are in the file. */
static int write_file(const char *name, const uint8_t *bytes, size_t length) {
    FILE *file = fopen(name, "wb");
    if (file == NULL)
        return 0;
    size_t done = fwrite(bytes, 1, length, file);
    return fclose(file) == 0 && done == length;
}

int main(int count, char **words) {
    static uint8_t trace[PMC330_TRACE_MAX];
    uint32_t seed, range, calls;
    if (count != 5 || !number_of(words[1], &seed) || !number_of(words[2], &range) || !number_of(words[3], &calls)) {
        fprintf(stderr, "usage: load SEED RANGE CALLS FILE (decimal numbers of 32 bits)\n");
        return 2;
    }
    uint64_t result = pmc330_load(seed, range, calls, trace, sizeof trace);
    uint32_t number = (uint32_t)PMC330_NUMBER(result);
    if (number != PMC330_ACCEPTED) {
        fprintf(stderr, "load: refused with %u: %s\n", (unsigned)number, reason(number));
        return 1;
    }
    if (!write_file(words[4], trace, (size_t)PMC330_VALUE(result))) {
        fprintf(stderr, "load: %s: %s\n", words[4], strerror(errno));
        return 1;
    }
    printf("seed %u, range %u, %u call%s: %u bytes\n", (unsigned)seed, (unsigned)range, (unsigned)calls,
           calls == 1 ? "" : "s", (unsigned)PMC330_VALUE(result));
    if (fflush(stdout) != 0) {
        fprintf(stderr, "load: standard output: %s\n", strerror(errno));
        return 1;
    }
    return 0;
}
