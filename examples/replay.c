/* A recording and its replay: it builds a trace, plays it and puts each answer after its call, here the virtual
   board's where a driver's author has a real board's. Then it replays the recording, as it is and with one answer
   changed. examples/recording.calls has a recording as text.
   Built and run by the gate:
     cc -Iinclude examples/replay.c target/staticlib/libpmc330_c.a -o target/replay && target/replay */
#include <stdio.h>
#include <string.h>
#include "pmc330.h"

typedef struct {
    uint8_t bytes[512];
    size_t len;
} fields;

static void put(fields *to, uint32_t value, int bytes) {
    for (int i = 0; i < bytes; i++)
        to->bytes[to->len++] = (uint8_t)(value >> (8 * i));
}

static void copy(fields *to, const uint8_t *from, size_t len) {
    memcpy(to->bytes + to->len, from, len);
    to->len += len;
}

/* A field's head: its tag and the length of its body. */
static void head(fields *to, uint8_t tag, uint16_t length) {
    put(to, tag, 1);
    put(to, length, 2);
}

static void write_register(fields *to, uint16_t offset, uint32_t value) {
    head(to, PMC330_TAG_WRITE, PMC330_LENGTH_WRITE);
    put(to, 16, 1);
    put(to, offset, 2);
    put(to, value, 4);
}

static void read_register(fields *to, uint16_t offset) {
    head(to, PMC330_TAG_READ, PMC330_LENGTH_READ);
    put(to, 16, 1);
    put(to, offset, 2);
}

/* The trace of one conversion of channel 0, at 0 V. */
static void build(fields *trace) {
    head(trace, PMC330_TAG_HEADING, PMC330_LENGTH_HEADING);
    copy(trace, (const uint8_t *)PMC330_HEADING, 4);
    put(trace, PMC330_RANGE_PM10V, 1);
    write_register(trace, PMC330_CONTROL, PMC330_FORMAT_STRAIGHT | PMC330_SCAN_BURST_SINGLE);
    write_register(trace, PMC330_START_CONVERT, PMC330_START);
    head(trace, PMC330_TAG_ADVANCE, PMC330_LENGTH_ADVANCE);
    put(trace, PMC330_CONVERSION_TICKS, 4);
    read_register(trace, PMC330_MAILBOX(0U));
    read_register(trace, PMC330_NEW_DATA(0U));
}

/* The trace with each answer after its call: an answer of pmc330_play is the body of a recorded one. */
static void record(fields *recording, const fields *trace, const uint8_t *answers) {
    size_t at = PMC330_FIELD_HEAD + PMC330_LENGTH_HEADING;
    recording->len = 0;
    copy(recording, trace->bytes, at);
    while (at < trace->len) {
        size_t size = PMC330_FIELD_HEAD + trace->bytes[at + 1] + ((size_t)trace->bytes[at + 2] << 8);
        copy(recording, trace->bytes + at, size);
        head(recording, PMC330_TAG_ANSWERED, PMC330_LENGTH_ANSWERED);
        copy(recording, answers, PMC330_ANSWER_BYTES);
        answers += PMC330_ANSWER_BYTES;
        at += size;
    }
}

static void replay(const char *what, const fields *it) {
    uint64_t result = pmc330_replay(it->bytes, it->len);
    unsigned count = (unsigned)PMC330_REPLAY_COUNT(result);
    if (PMC330_REPLAY_NUMBER(result) != PMC330_ACCEPTED)
        printf("%s: refused with %u\n", what, (unsigned)PMC330_REPLAY_NUMBER(result));
    else if (PMC330_REPLAY_INDEX(result) != 0)
        printf("%s: call %u differs, %u compared\n", what, (unsigned)PMC330_REPLAY_INDEX(result), count);
    else
        printf("%s: all agree, %u compared\n", what, count);
}

int main(void) {
    static fields trace, recording; /* empty: C sets them to 0 */
    uint8_t answers[PMC330_ANSWER_BYTES * 8];

    build(&trace);
    uint64_t result = pmc330_play(trace.bytes, trace.len, answers, sizeof answers);
    printf("played: %u calls answered, number %u\n", (unsigned)PMC330_VALUE(result), (unsigned)PMC330_NUMBER(result));
    replay("no recorded answers", &trace);
    record(&recording, &trace, answers);
    replay("the recording", &recording);
    answers[PMC330_ANSWER_BYTES * 3 + 1] ^= 1; /* call 4, the mailbox: 8001H in place of 8000H */
    record(&recording, &trace, answers);
    replay("one answer changed", &recording);
    head(&recording, PMC330_TAG_ANSWERED, PMC330_LENGTH_ANSWERED);
    copy(&recording, answers, PMC330_ANSWER_BYTES);
    replay("two answers to one call", &recording);
    return 0;
}
