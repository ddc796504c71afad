/* What the header says of places and sizes, for the tests. */
#include <stddef.h>
#include "pmc330.h"

size_t header_load_bytes_max(uint32_t calls) { return PMC330_LOAD_BYTES_MAX(calls); }

/* Where the fields of the struct lie, in their order, and where it ends. */
void header_places(size_t places[23]) {
    places[0] = offsetof(pmc330_board, inputs);
    places[1] = offsetof(pmc330_board, lead);
    places[2] = offsetof(pmc330_board, lag);
    places[3] = offsetof(pmc330_board, codes);
    places[4] = offsetof(pmc330_board, control);
    places[5] = offsetof(pmc330_board, timer);
    places[6] = offsetof(pmc330_board, taken);
    places[7] = offsetof(pmc330_board, gains);
    places[8] = offsetof(pmc330_board, unread);
    places[9] = offsetof(pmc330_board, range);
    places[10] = offsetof(pmc330_board, prescaler);
    places[11] = offsetof(pmc330_board, start);
    places[12] = offsetof(pmc330_board, end);
    places[13] = offsetof(pmc330_board, enable);
    places[14] = offsetof(pmc330_board, pending);
    places[15] = offsetof(pmc330_board, running);
    places[16] = offsetof(pmc330_board, waiting);
    places[17] = offsetof(pmc330_board, slot);
    places[18] = offsetof(pmc330_board, ends);
    places[19] = offsetof(pmc330_board, index);
    places[20] = offsetof(pmc330_board, odd);
    places[21] = offsetof(pmc330_board, spare);
    places[22] = sizeof(pmc330_board);
}
