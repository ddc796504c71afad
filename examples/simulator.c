/* A small simulator: it builds a trace of calls, plays it on the virtual board and prints the answers.
   Built and run by the gate:
     cc -Iinclude examples/simulator.c target/staticlib/libpmc330_c.a -o target/simulator && target/simulator */
#include <stdio.h>
#include <string.h>
#include "pmc330.h"

static uint8_t trace[1024];
static size_t trace_len;
static unsigned calls;

static void put(uint32_t value, int bytes) {
    for (int i = 0; i < bytes; i++)
        trace[trace_len++] = (uint8_t)(value >> (8 * i));
}

/* A field's head: its tag and the length of its body. */
static void head(uint8_t tag, uint16_t length) {
    put(tag, 1);
    put(length, 2);
}

static void new_board(uint8_t range) {
    head(PMC330_TAG_HEADING, PMC330_LENGTH_HEADING);
    memcpy(trace + trace_len, PMC330_HEADING, 4);
    trace_len += 4;
    put(range, 1);
}

static void write_register(uint8_t width, uint16_t offset, uint32_t value) {
    head(PMC330_TAG_WRITE, PMC330_LENGTH_WRITE);
    put(width, 1);
    put(offset, 2);
    put(value, 4);
    calls++;
}

static void read_register(uint8_t width, uint16_t offset) {
    head(PMC330_TAG_READ, PMC330_LENGTH_READ);
    put(width, 1);
    put(offset, 2);
    calls++;
}

static void input(uint8_t channel, int32_t microvolts) {
    head(PMC330_TAG_INPUT, PMC330_LENGTH_INPUT);
    put(channel, 1);
    put((uint32_t)microvolts, 4);
    calls++;
}

static void advance(uint32_t ticks) {
    head(PMC330_TAG_ADVANCE, PMC330_LENGTH_ADVANCE);
    put(ticks, 4);
    calls++;
}

int main(void) {
    uint8_t answers[PMC330_ANSWER_BYTES * 64];

    new_board(PMC330_RANGE_PM10V);
    input(0, 2500000);
    input(1, -2500000);
    write_register(16, PMC330_CHANNELS, PMC330_CHANNELS_WORD(0U, 1U));
    write_register(16, PMC330_CONTROL,
                   PMC330_FORMAT_STRAIGHT | PMC330_ACQUISITION_SINGLE_ENDED | PMC330_SCAN_BURST_SINGLE);
    write_register(16, PMC330_START_CONVERT, PMC330_START);
    advance(PMC330_BURST_TICKS + PMC330_CONVERSION_TICKS); /* both stores: at 64 and 184 */
    read_register(16, PMC330_NEW_DATA_LOW);
    read_register(16, PMC330_MAILBOX(0));
    read_register(16, PMC330_MAILBOX(1));
    write_register(16, PMC330_NEW_DATA_LOW, 0); /* refused with 5: read only */

    uint64_t result = pmc330_play(trace, trace_len, answers, sizeof answers);
    if (PMC330_NUMBER(result) != 0) {
        printf("refused %u\n", (unsigned)PMC330_NUMBER(result));
        return 1;
    }
    for (uint32_t i = 0; i < PMC330_VALUE(result); i++) {
        const uint8_t *a = answers + PMC330_ANSWER_BYTES * i;
        uint32_t value = a[1] | (uint32_t)a[2] << 8 | (uint32_t)a[3] << 16 | (uint32_t)a[4] << 24;
        printf("%u %u %08X\n", (unsigned)(i + 1), a[0], (unsigned)value);
    }
    return PMC330_VALUE(result) == calls ? 0 : 1;
}
