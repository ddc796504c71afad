/* A front panel beside a driver: the panel looks at a mailbox, and takes nothing from the driver, who is still to read.
   examples/front_panel.calls has the same run as a trace, with some more reads and looks.
     cc -Iinclude examples/panel.c target/staticlib/libpmc330_c.a -o target/panel && target/panel */
#include <stdio.h>
#include <stdlib.h>
#include "pmc330.h"

#define SLOT 3U

/* The value of a call that must be accepted. */
static uint32_t accepted(uint64_t result) {
    if (PMC330_NUMBER(result) != PMC330_ACCEPTED) {
        printf("refused with %u\n", (unsigned)PMC330_NUMBER(result));
        exit(1);
    }
    return PMC330_VALUE(result);
}

/* The panel's part: it has the board to look at only, and may look as often as it likes. */
static void panel(const pmc330_board *board, const char *when) {
    uint32_t seen = accepted(pmc330_look(board, SLOT));
    printf("panel,  %-22s %04XH%s%s\n", when, (unsigned)PMC330_LOOK_CODE(seen), seen & PMC330_LOOK_NEW ? " new" : "",
           seen & PMC330_LOOK_MISSED ? " missed" : "");
}

static void driver_read(pmc330_board *board) {
    uint32_t is_new = accepted(pmc330_read(board, 16, PMC330_NEW_DATA(SLOT))) & PMC330_SLOT_BIT(SLOT);
    printf("driver, New Data %s, reads    %04XH\n", is_new ? "set" : "clear",
           (unsigned)accepted(pmc330_read(board, 16, PMC330_MAILBOX(SLOT))));
}

int main(void) {
    pmc330_board board;
    accepted(pmc330_open(&board, PMC330_RANGE_PM10V));
    accepted(pmc330_input(&board, SLOT, 2500000));
    accepted(pmc330_write(&board, 16, PMC330_CHANNELS, PMC330_CHANNELS_WORD(SLOT, SLOT)));
    accepted(pmc330_write(&board, 16, PMC330_CONTROL, PMC330_FORMAT_STRAIGHT | PMC330_ACQUISITION_SINGLE_ENDED |
                          PMC330_SCAN_BURST_CONTINUOUS));
    panel(&board, "nothing stored yet:");
    accepted(pmc330_write(&board, 16, PMC330_START_CONVERT, PMC330_START));
    accepted(pmc330_advance(&board, pmc330_next_store(&board)));
    panel(&board, "first store:");
    accepted(pmc330_input(&board, SLOT, -2500000));
    accepted(pmc330_advance(&board, pmc330_next_store(&board)));
    panel(&board, "second store:");
    driver_read(&board);
    panel(&board, "after the read:");
    accepted(pmc330_advance(&board, pmc330_next_store(&board)));
    panel(&board, "third store:");
    accepted(pmc330_clear(&board, SLOT));
    accepted(pmc330_advance(&board, pmc330_next_store(&board)));
    panel(&board, "cleared, fourth store:");
    printf("slot 32: refused with %u\n", (unsigned)PMC330_NUMBER(pmc330_look(&board, PMC330_SLOTS)));
    return 0;
}
