/* A chart of one channel: its readings, and their running average over the last 8.
   The input steps up by 2.5 V in the middle; the average follows within 8 readings.
     cc -Iinclude examples/chart.c target/staticlib/libpmc330_c.a -o target/chart && target/chart */
#include <stdio.h>
#include "pmc330.h"

#define CHANNEL   5U
#define READINGS  20U
#define STEP_AT   10U    /* the first reading after the step */
#define STEP_UV   2500000
#define LENGTH    8U     /* of the window: 8, 16 or 32 */
#define MIDSCALE  32768U /* the code of 0 V */
#define COUNTS    256U   /* of one mark in the chart */

/* Uniform continuous scan of one channel, a reading every 80 * 8 ticks. */
static void start_scan(pmc330_board *board) {
    pmc330_open(board, PMC330_RANGE_PM10V);
    pmc330_write(board, 8, PMC330_PRESCALER, 80);
    pmc330_write(board, 16, PMC330_TIMER, 8);
    pmc330_write(board, 16, PMC330_CHANNELS, PMC330_CHANNELS_WORD(CHANNEL, CHANNEL));
    pmc330_write(board, 16, PMC330_CONTROL, PMC330_FORMAT_STRAIGHT | PMC330_ACQUISITION_SINGLE_ENDED |
                 PMC330_SCAN_UNIFORM_CONTINUOUS | PMC330_TIMER_ENABLE);
    pmc330_write(board, 16, PMC330_START_CONVERT, PMC330_START);
}

/* How many codes the sum of reading k holds. */
static uint32_t held(uint32_t k) {
    return k + 1U < LENGTH ? k + 1U : LENGTH;
}

static void print_reading(uint32_t k, uint32_t code, uint32_t sum) {
    double average = (double)sum / held(k);
    printf("%2u  %04X  %7.1f  |", (unsigned)(k + 1U), (unsigned)code, average);
    for (uint32_t mark = 1U; MIDSCALE + mark * COUNTS <= average; mark++)
        putchar('#');
    putchar('\n');
}

int main(void) {
    pmc330_board board;
    uint16_t codes[READINGS];
    uint32_t sums[READINGS];

    start_scan(&board);
    for (uint32_t k = 0; k < READINGS; k++) {
        if (k == STEP_AT)
            pmc330_input(&board, CHANNEL, STEP_UV);
        pmc330_advance(&board, pmc330_next_store(&board));
        codes[k] = (uint16_t)PMC330_VALUE(pmc330_read(&board, 16, PMC330_MAILBOX(CHANNEL)));
    }

    uint64_t result = pmc330_window(LENGTH, codes, READINGS, sums, READINGS);
    if (PMC330_NUMBER(result) != PMC330_ACCEPTED) {
        printf("refused %u\n", (unsigned)PMC330_NUMBER(result));
        return 1;
    }
    for (uint32_t k = 0; k < READINGS; k++)
        print_reading(k, codes[k], sums[k]);
    return PMC330_VALUE(result) == held(READINGS - 1U) ? 0 : 1;
}
