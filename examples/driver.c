/* Two boards under one small driver, stepped from event to event.
   The driver's part knows registers and nothing else. The simulator's part owns the boards, the clock and the
   request lines: it asks each board when its next store comes and jumps there, so no tick is ever polled.
     cc -Iinclude examples/driver.c target/staticlib/libpmc330_c.a -o target/driver && target/driver */
#include <stdio.h>
#include <stdlib.h>
#include <string.h>
#include "pmc330.h"

#define WIDTH      16U     /* of every register access below, in bits */
#define HALF_TICK  24000U  /* everything is saved here */
#define END_TICK   48000U
#define STEP_TICKS 5000U   /* each time these have passed, every input goes up by STEP_UV */
#define STEP_UV    50000
#define CHANNEL_UV 500000  /* from one channel's input to the next one's */
#define SHOWN      8000U   /* interrupts in the first so many ticks of each half are printed */

enum { FAST, SLOW, BOARDS };

typedef struct settings {
    const char *name;
    uint32_t range, first, last;  /* first and last channel */
    uint32_t prescaler, timer;    /* their product is the interval between conversions, in ticks */
    uint32_t interrupt_on;
    uint32_t latency;             /* ticks from the request to the handler, at least 1 */
} settings;

/* A pass of slow takes 4 * 640 = 2560 ticks. Its handler comes later than that, but before a slot is stored a third
   time: so samples are lost, yet never two of one slot between two handlers, and a Missed bit is one lost sample. */
static const settings SETTINGS[BOARDS] = {
    {"fast", PMC330_RANGE_PM10V, 0U, 2U, 80U, 10U, PMC330_INTERRUPT_ON_LAST_STORE, 100U},
    {"slow", PMC330_RANGE_0_TO_10V, 14U, 17U, 64U, 10U, PMC330_INTERRUPT_ON_EACH_STORE, 2700U},
};

static void must(int holds, const char *what) {
    if (!holds) {
        printf("does not hold: %s\n", what);
        exit(1);
    }
}

/* The value of a call that must be accepted. */
static uint32_t accepted(const char *call, uint64_t result) {
    if (PMC330_NUMBER(result) != PMC330_ACCEPTED) {
        printf("%s: refused with %u\n", call, (unsigned)PMC330_NUMBER(result));
        exit(1);
    }
    return PMC330_VALUE(result);
}

/* ---- The driver: on hardware its first two functions would be the bus, and the rest would stay ---- */

typedef struct driver {
    uint32_t fresh;         /* the slots read in the last visit to the mailboxes, a bit each */
    uint32_t codes[PMC330_SLOTS];  /* the last code read of each slot */
    uint32_t interrupts, mailboxes, missed, sum;
} driver;

static uint32_t reg_read(pmc330_board *board, uint32_t offset) {
    return accepted("read", pmc330_read(board, WIDTH, offset));
}

static void reg_write(pmc330_board *board, uint32_t offset, uint32_t value) {
    accepted("write", pmc330_write(board, WIDTH, offset, value));
}

static void driver_start(pmc330_board *board, const settings *s) {
    reg_write(board, PMC330_PRESCALER_WORD, PMC330_PRESCALER_FIELD(s->prescaler));
    reg_write(board, PMC330_TIMER, s->timer);
    reg_write(board, PMC330_CHANNELS, PMC330_CHANNELS_WORD(s->first, s->last));
    reg_write(board, PMC330_CONTROL, PMC330_FORMAT_STRAIGHT | PMC330_ACQUISITION_SINGLE_ENDED |
              PMC330_SCAN_UNIFORM_CONTINUOUS | PMC330_TIMER_ENABLE | s->interrupt_on);
    reg_write(board, PMC330_INTERRUPT, PMC330_INTERRUPT_RELEASE | PMC330_INTERRUPT_ENABLE);
    reg_write(board, PMC330_START_CONVERT, PMC330_START);
}

/* Missed Data comes first: reading a mailbox clears its slot's bit there, and in New Data. */
static void driver_collect(pmc330_board *board, driver *d) {
    uint32_t missed = reg_read(board, PMC330_MISSED_DATA_LOW) | reg_read(board, PMC330_MISSED_DATA_HIGH) << 16;
    d->fresh = reg_read(board, PMC330_NEW_DATA_LOW) | reg_read(board, PMC330_NEW_DATA_HIGH) << 16;
    for (uint32_t slot = 0; slot < PMC330_SLOTS; slot++) {
        if ((d->fresh >> slot & 1U) == 0)
            continue;
        d->codes[slot] = reg_read(board, PMC330_MAILBOX(slot));
        d->sum += d->codes[slot];
        d->mailboxes++;
        d->missed += missed >> slot & 1U;
    }
}

static void driver_interrupt(pmc330_board *board, driver *d) {
    reg_write(board, PMC330_INTERRUPT, 0); /* masked: the line goes down, the request stays pending */
    driver_collect(board, d);
    d->interrupts++;
    reg_write(board, PMC330_INTERRUPT, PMC330_INTERRUPT_RELEASE | PMC330_INTERRUPT_ENABLE);
}

/* Ends the scan. What was stored stays in the mailboxes, so a last visit fetches it. */
static void driver_stop(pmc330_board *board, driver *d) {
    reg_write(board, PMC330_CONTROL, PMC330_SCAN_OFF);
    driver_collect(board, d);
}

/* ---- The simulator: only 32-bit numbers and boards, no gaps, no pointers. So an assignment saves all of it, and
   memcmp compares it. ---- */

typedef struct unit {
    pmc330_board board;
    driver driven_by;
    uint32_t stores;
    uint32_t handler_at;  /* the tick at which the handler runs; 0: none is on its way */
} unit;

typedef struct simulation {
    uint32_t now, jumps;
    unit units[BOARDS];
} simulation;

/* A conversion takes its code as it begins: what is set now counts for those that begin after this tick. */
static void set_inputs(pmc330_board *board, const settings *s, uint32_t now) {
    int32_t risen = (int32_t)(now / STEP_TICKS) * STEP_UV;
    for (uint32_t channel = s->first; channel <= s->last; channel++)
        accepted("input", pmc330_input(board, channel, (int32_t)channel * CHANNEL_UV + risen));
}

static void open_unit(unit *u, const settings *s) {
    accepted("open", pmc330_open(&u->board, s->range));
    set_inputs(&u->board, s, 0);
    driver_start(&u->board, s);
    printf("%s: interval %u, latency %u, first store in %u ticks\n", s->name, (unsigned)(s->prescaler * s->timer),
           (unsigned)s->latency, (unsigned)pmc330_next_store(&u->board));
}

/* A refused call does nothing: not one byte of the board changes. */
static void show_refusal(pmc330_board *board) {
    const pmc330_board before = *board;
    uint32_t number = PMC330_NUMBER(pmc330_write(board, WIDTH, PMC330_TIMER, 1U));
    must(number == PMC330_BUSY, "a write to Timer is refused while the scan runs");
    must(memcmp(&before, board, sizeof before) == 0, "a refused call leaves the board as it was");
    printf("Timer written while the scan runs: refused with %u, board unchanged\n", (unsigned)number);
}

static void show(const driver *d, const char *name, uint32_t now) {
    printf("tick %5u %s: missed so far %u, read", (unsigned)now, name, (unsigned)d->missed);
    for (uint32_t slot = 0; slot < PMC330_SLOTS; slot++)
        if ((d->fresh >> slot & 1U) != 0)
            printf(" %u=%04XH", (unsigned)slot, (unsigned)d->codes[slot]);
    printf("\n");
}

static void serve(unit *u, const char *name, uint32_t now) {
    driver_interrupt(&u->board, &u->driven_by);
    must(pmc330_line(&u->board) == 0, "the handler's release takes the request back");
    u->handler_at = 0;
    if (now % HALF_TICK < SHOWN)
        show(&u->driven_by, name, now);
}

/* Ticks to the next event: a store, a handler, a step of the inputs, or `until`. The steps keep it below
   PMC330_ADVANCE_MAX. */
static uint32_t next_event(const simulation *sim, uint32_t until) {
    uint32_t to_step = STEP_TICKS - sim->now % STEP_TICKS;
    uint32_t ticks = until - sim->now < to_step ? until - sim->now : to_step;
    for (uint32_t i = 0; i < BOARDS; i++) {
        uint32_t store = pmc330_next_store(&sim->units[i].board);
        uint32_t handler_at = sim->units[i].handler_at;
        if (store != 0 && store < ticks)
            ticks = store;
        if (handler_at != 0 && handler_at - sim->now < ticks)
            ticks = handler_at - sim->now;
    }
    return ticks;
}

/* One board's part of a jump that ends now. Its line is looked at last: only a store and the driver's own writes
   move it, and these have been made. */
static void step(unit *u, const settings *s, uint32_t ticks, uint32_t now) {
    uint32_t due = pmc330_next_store(&u->board) == ticks ? 1U : 0U;
    uint32_t made = accepted("advance", pmc330_advance(&u->board, ticks));
    must(made == due, "a jump makes one store if it ends at the next one, else none");
    u->stores += made;
    if (now % STEP_TICKS == 0)
        set_inputs(&u->board, s, now);
    if (u->handler_at == now)
        serve(u, s->name, now);
    if (u->handler_at == 0 && pmc330_line(&u->board) != 0)
        u->handler_at = now + s->latency;
}

/* All boards take the same ticks. */
static void jump(simulation *sim, uint32_t ticks) {
    sim->now += ticks;
    sim->jumps++;
    for (uint32_t i = 0; i < BOARDS; i++)
        step(&sim->units[i], &SETTINGS[i], ticks, sim->now);
}

static void run(simulation *sim, uint32_t until) {
    while (sim->now < until)
        jump(sim, next_event(sim, until));
    printf("tick %5u: %u jumps so far\n", (unsigned)sim->now, (unsigned)sim->jumps);
}

/* Conversion k begins k + 1 intervals after the start, which gives the number of stores. Each was read, or lost to
   the next one in its slot, as a Missed bit told. */
static void close_unit(unit *u, const settings *s) {
    driver *d = &u->driven_by;
    driver_stop(&u->board, d);
    must(pmc330_next_store(&u->board) == 0, "no store comes after the stop");
    must(u->stores == (END_TICK - PMC330_CONVERSION_TICKS) / (s->prescaler * s->timer), "the schedule's stores");
    must(u->stores == d->mailboxes + d->missed, "each store was read or missed");
    printf("%s: %u stores, %u interrupts, %u mailboxes read, %u missed, sum of codes %u\n", s->name,
           (unsigned)u->stores, (unsigned)d->interrupts, (unsigned)d->mailboxes, (unsigned)d->missed,
           (unsigned)d->sum);
}

static void run_to_end(simulation *sim) {
    run(sim, END_TICK);
    close_unit(&sim->units[FAST], &SETTINGS[FAST]);
    close_unit(&sim->units[SLOW], &SETTINGS[SLOW]);
}

int main(void) {
    simulation sim, saved, first;

    memset(&sim, 0, sizeof sim);
    open_unit(&sim.units[FAST], &SETTINGS[FAST]);
    open_unit(&sim.units[SLOW], &SETTINGS[SLOW]);
    show_refusal(&sim.units[FAST].board);
    run(&sim, HALF_TICK);

    saved = sim; /* in the middle of a conversion of fast, and of the latency of slow's handler */
    run_to_end(&sim);
    first = sim;

    sim = saved;
    printf("back at tick %u\n", (unsigned)sim.now);
    run_to_end(&sim);
    must(memcmp(&first, &sim, sizeof sim) == 0, "both runs end alike, in every board and every count");
    must(sim.units[FAST].driven_by.missed == 0, "fast misses none");
    must(sim.units[SLOW].driven_by.missed != 0, "slow misses some");
    printf("both runs end alike\n");
    return 0;
}
