/* The virtual PMC330: what a C program (C99 or later, or C++) links from libpmc330_c.a.
   A simulator holds boards and steps them call by call (pmc330_board, pmc330_open and what follows it), or hands
   over a whole list of calls (pmc330_play). A bench recording, such a list with what a real board answered, is compared
   with the virtual board (pmc330_replay). A load, such a list made from a seed, is the same on every machine, to
   compare machines by (pmc330_load). Three more functions need no board: pmc330_corrected, pmc330_code and
   pmc330_window.
   Each function answers all numbers that it can be given, and ends. None fails, allocates, or keeps anything behind
   the caller's back. Pointers are the caller's to get right: none may be NULL. */
#ifndef PMC330_H
#define PMC330_H

#include <stddef.h>
#include <stdint.h>

#ifdef __cplusplus
extern "C" {
#endif

/* ---- Version ----
   The meaning of a pmc330_board's bytes. It goes up when that changes, and only then; names and functions may be
   added under the same version. Save it beside a saved board, and do not restore a board that was saved under
   another: its bytes then hold some other board. Nothing would fail, but make the calls again instead. A board of
   version 1 had 324 bytes, with other fields: refuse one that was saved so.
   Header and archive belong together: take both from the same release. */
#define PMC330_VERSION 2U

/* ---- What the board does, in short ----
   A start begins a cycle: passes over the channels Start to End, in turn. With I = prescaler * timer, in ticks,
     uniform   conversion k (from 0) begins (k + 1) * I after the start;
     burst     the first begins in the call that starts the cycle, each further one of its pass 120 ticks after the
               one before; the next pass 120 after the last one, and I more in burst continuous with the timer on;
     external trigger only   Start Convert arms. With the trigger field input, the first trigger of the cycle and each
               one 64 ticks or more after the last one taken is taken: it stores the code that the one before it in
               the cycle took, if there is one, and takes its own. On an idle board a trigger with that field arms by
               itself, unless a start would be refused with 9: it stores an old code, the last one that a conversion
               took since the reset (0 if none), in the mailbox of the Start Channel, clears no New or Missed bit, and
               takes its own. For the interrupt that store ends no pass. Write Start Convert first where the old code
               is not wanted.
   Single modes end with the last store of the first pass, and Control stays as it is. In the uniform and burst modes
   a trigger starts a cycle too, if the board is idle, the trigger field is input, and a start would be accepted.
   A conversion takes its code when it begins, that of its channel's voltage and gain then (see pmc330_code), and
   stores it 64 ticks later (external trigger only: with the next trigger taken), in Control's format, in the mailbox
   of its slot: the channel, and in differential 16 more in the second, fourth, .. pass of the cycle. The voltage is
   the channel's input, in differential too, and in a calibration acquisition that calibration's.
   A store sets its slot's New bit, and the Missed bit too if New was set already: Missed says that one or more codes
   were lost. A read of a mailbox, or pmc330_clear, drops both bits of its slot, a start (or a trigger that starts a
   uniform or burst cycle) those of all slots; codes stay until the next store or a reset.
   A store that the interrupt field names sets pending, enabled or not, and it stays until a release or a reset. The
   request line is enable and pending, so only stores, writes to Interrupt and resets move it.
   A stop (Control with scan off) drops the conversion in progress, whose code is still the last one taken; mailboxes,
   bits and pending stay. */

/* ---- Time ----
   A tick is 1/8 microsecond, 125 ns. Only an advance lets ticks pass. */
#define PMC330_TICK_NANOSECONDS       125U
#define PMC330_TICKS_PER_MICROSECOND  8U
#define PMC330_CONVERSION_TICKS       64U   /* from a conversion's beginning to its store */
#define PMC330_BURST_TICKS            120U  /* from one beginning to the next within a burst's pass */
#define PMC330_TRIGGER_TICKS          64U   /* external trigger only: the least from one trigger taken to the next */
#define PMC330_INTERVAL_MIN           64U   /* the least prescaler * timer that a start accepts, where it asks for it */

/* ---- Ranges, of a new board ---- */
#define PMC330_RANGE_PM5V     0U  /* +-5 V */
#define PMC330_RANGE_PM10V    1U  /* +-10 V */
#define PMC330_RANGE_0_TO_5V  2U
#define PMC330_RANGE_0_TO_10V 3U

/* ---- Register offsets ----
   Each register is a 16-bit word: its low byte at the offset, its high byte at offset + 1. The two bytes after
   them are unmapped. Width 8 reads or writes one byte, and a write keeps the other; width 32 reads 0 in
   bits 31-16, and a write drops them. */
#define PMC330_INTERRUPT        0x00U
#define PMC330_CONTROL          0x04U
#define PMC330_PRESCALER        0x09U  /* one byte: write it with width 8 */
#define PMC330_PRESCALER_WORD   0x08U  /* PMC330_PRESCALER_FIELD in bits 15-8; bits 7-0 read 0 and take nothing */
#define PMC330_TIMER            0x0CU
#define PMC330_CHANNELS         0x10U  /* Start and End Channel in one word, see PMC330_CHANNELS_WORD */
#define PMC330_START_CHANNEL    0x10U  /* one byte */
#define PMC330_END_CHANNEL      0x11U  /* one byte */
#define PMC330_NEW_DATA_LOW     0x14U  /* slots 0 to 15; read only, and a read clears nothing */
#define PMC330_NEW_DATA_HIGH    0x18U  /* slots 16 to 31 */
#define PMC330_MISSED_DATA_LOW  0x1CU  /* slots 0 to 15; likewise */
#define PMC330_MISSED_DATA_HIGH 0x20U  /* slots 16 to 31 */
#define PMC330_START_CONVERT    0x24U  /* write only */
#define PMC330_GAIN(group)      (0x40U + 4U * (group)) /* group 0 to 3: channels 8 * group to 8 * group + 7 */
#define PMC330_MAILBOX(slot)    (0x80U + 4U * (slot))  /* slot 0 to 31; read only, and a read of any width clears
                                                          the slot's New and Missed bits */

/* The New or Missed Data word of a slot, and the slot's bit in it. */
#define PMC330_NEW_DATA(slot)    (PMC330_NEW_DATA_LOW + 4U * ((slot) / 16U))
#define PMC330_MISSED_DATA(slot) (PMC330_MISSED_DATA_LOW + 4U * ((slot) / 16U))
#define PMC330_SLOT_BIT(slot)    (1U << ((slot) % 16U))

/* ---- Interrupt: bits ----
   The board requests an interrupt exactly when enable and pending are both 1. */
#define PMC330_INTERRUPT_ENABLE  0x0001U
#define PMC330_INTERRUPT_PENDING 0x0002U  /* read only */
#define PMC330_INTERRUPT_RELEASE 0x8000U  /* write 1: pending becomes 0; reads 0. Written alone in 16 or 32 bits, it
                                             also clears enable */

/* ---- Control: one value of each field, joined by | ----
   A field left out has its 0 value: two's complement, trigger off, differential, scan off, timer off, no
   interrupt. A value that the masks allow but that has no name here is a not-used code (refused with 7). Bits
   outside all masks are kept as 0. */
#define PMC330_FORMAT_TWOS_COMPLEMENT     0x0000U  /* the straight code with bit 15 flipped, in every range */
#define PMC330_FORMAT_STRAIGHT            0x0001U
#define PMC330_FORMAT_MASK                0x0001U

#define PMC330_TRIGGER_OFF                0x0000U
#define PMC330_TRIGGER_INPUT              0x0002U
#define PMC330_TRIGGER_OUTPUT             0x0004U  /* kept and read back; no pulse is given here */
#define PMC330_TRIGGER_MASK               0x0006U

#define PMC330_ACQUISITION_DIFFERENTIAL   0x0000U
#define PMC330_ACQUISITION_SINGLE_ENDED   0x0008U
#define PMC330_ACQUISITION_MASK           0x0038U
#define PMC330_ACQUISITION(code)          ((code) << 3)  /* with a calibration's code from below */

#define PMC330_SCAN_OFF                   0x0000U  /* ends the cycle that runs */
#define PMC330_SCAN_UNIFORM_CONTINUOUS    0x0100U
#define PMC330_SCAN_UNIFORM_SINGLE        0x0200U
#define PMC330_SCAN_BURST_CONTINUOUS      0x0300U
#define PMC330_SCAN_BURST_SINGLE          0x0400U
#define PMC330_SCAN_EXTERNAL_TRIGGER_ONLY 0x0500U
#define PMC330_SCAN_MASK                  0x0700U

#define PMC330_TIMER_ENABLE               0x0800U

#define PMC330_INTERRUPT_ON_NONE          0x0000U
#define PMC330_INTERRUPT_ON_EACH_STORE    0x1000U
#define PMC330_INTERRUPT_ON_LAST_STORE    0x2000U  /* the last store of a pass */
#define PMC330_INTERRUPT_ON_MASK          0x3000U

/* Acquisition codes of the calibrations: for pmc330_corrected as they are, for Control in PMC330_ACQUISITION. */
#define PMC330_CALIBRATION_4900000_UV 3U
#define PMC330_CALIBRATION_2450000_UV 4U
#define PMC330_CALIBRATION_1225000_UV 5U
#define PMC330_CALIBRATION_612500_UV  6U
#define PMC330_CALIBRATION_0_UV       7U

/* ---- Prescaler, Channels, Start Convert and Gain: values ---- */
#define PMC330_CHANNELS_WORD(start, end)  ((start) | (end) << 8)
#define PMC330_PRESCALER_FIELD(prescaler) ((prescaler) << 8)
#define PMC330_CHANNEL_MAX                31U
#define PMC330_CHANNEL_MAX_DIFFERENTIAL   15U
#define PMC330_START                      0x0001U  /* to Start Convert */
#define PMC330_GAIN_1                     0U
#define PMC330_GAIN_2                     1U
#define PMC330_GAIN_4                     2U
#define PMC330_GAIN_8                     3U
/* The gain word's two bits of a channel 0 to 31; PMC330_GAIN((channel) / 8U) is its word. */
#define PMC330_GAIN_FIELD(channel, gain)  ((gain) << (2U * ((channel) % 8U)))

/* ---- Limits ---- */
#define PMC330_SLOTS        32U
#define PMC330_INPUT_MIN    (-35000000)  /* microvolts */
#define PMC330_INPUT_MAX    55000000
#define PMC330_ADVANCE_MAX  16777216U    /* ticks */
#define PMC330_TRACE_MAX    16777216U    /* bytes */
#define PMC330_SUM_MAX      2097120U     /* the greatest sum of 32 codes: of a calibration, or of a window */
#define PMC330_CODE_MAX     65535U

/* ---- Results: 256 * value (or calls answered) + number ----
   Number 0: the call was accepted, and value is what a read read, for an advance the number of stores made in it,
   for a look the code with the slot's bits (PMC330_LOOK_..), for a correction its count, for a window how many codes
   the last sum holds, else 0. Otherwise the call was refused: it did nothing, value is 0, and number says why, the
   first that holds.
   Triggers and resets are always accepted; a trigger that cannot act is ignored.
   Keep a result in a variable: a call inside both macros would be made twice.
   A replay's result has another form, see PMC330_REPLAY_NUMBER. */
#define PMC330_NUMBER(result) ((uint32_t)((result) % 256U))
#define PMC330_VALUE(result)  ((uint32_t)((result) / 256U))

#define PMC330_ACCEPTED         0U
/* reads and writes */
#define PMC330_BAD_WIDTH        1U   /* a width other than 8, 16, 32 */
#define PMC330_BAD_OFFSET       2U   /* an offset of 256 or more, or no multiple of the width in bytes */
#define PMC330_UNMAPPED         3U   /* an unmapped first byte */
#define PMC330_BAD_VALUE        4U   /* a write of a value that the width cannot hold */
#define PMC330_BAD_DIRECTION    5U   /* a write to a read-only register, or a read of Start Convert */
/* writes */
#define PMC330_BUSY             6U   /* a cycle runs or is armed, and the write is neither to Interrupt, nor to Control
                                        with scan 000 as its result, nor to Start Convert without bit 0 */
#define PMC330_BAD_CODE         7U   /* a not-used code in Control, or a Start or End Channel above 31 */
/* writes to Start Convert that set bit 0 */
#define PMC330_NO_SCAN          8U   /* scan is 000 */
#define PMC330_BAD_CHANNELS     9U   /* Start Channel above End, or End above 15 in differential */
#define PMC330_BAD_INTERVAL     10U  /* a uniform mode with the timer off, or prescaler * timer below 64 in a uniform
                                        mode or in burst continuous with the timer on */
/* inputs */
#define PMC330_BAD_CHANNEL      11U  /* a channel above 31 */
#define PMC330_BAD_VOLTAGE      12U  /* outside PMC330_INPUT_MIN to PMC330_INPUT_MAX */
/* advances */
#define PMC330_BAD_TICKS        13U  /* above PMC330_ADVANCE_MAX */
/* new boards and pmc330_load */
#define PMC330_BAD_RANGE        14U  /* a range above 3 */
/* pmc330_corrected */
#define PMC330_BAD_CALIBRATION  15U
#define PMC330_BAD_CODES        16U
#define PMC330_BAD_SUMS         17U
/* pmc330_play and pmc330_replay */
#define PMC330_BAD_HEADING      18U
#define PMC330_BAD_FIELD        19U
/* pmc330_play and pmc330_window */
#define PMC330_SHORT_BUFFER     20U
/* pmc330_window, looked at before 20 */
#define PMC330_BAD_WINDOW       21U  /* a window length other than 8, 16, 32 */
/* looks and clears */
#define PMC330_BAD_SLOT         22U  /* a slot above 31 */
/* pmc330_play and pmc330_replay, looked at after 19 and before 20 */
#define PMC330_STRAY_ANSWER     26U  /* a recorded answer that does not follow a call */
/* pmc330_load: 27 is looked at before 14, and 28 after it */
#define PMC330_BAD_SEED         27U  /* a seed of 0 */
#define PMC330_NO_ROOM          28U  /* a buffer too short for the trace, or a trace longer than the player takes */

/* A look's value, PMC330_VALUE(result): the code in the mailbox, 65536 more if New and 131072 more if Missed. */
#define PMC330_LOOK_CODE(value) ((value) & 0xFFFFU)
#define PMC330_LOOK_NEW         0x10000U
#define PMC330_LOOK_MISSED      0x20000U

/* ---- A board that a simulator holds ----
   The caller owns the memory: a board is this struct and nothing else, wherever C lets it lie. It holds numbers and
   no pointer, 284 bytes and no padding: boards of equal bytes are the same board. Copying it saves the board, copying
   it back, to any place, restores it; in a file its bytes are in the machine's own order. Nothing is kept behind the
   caller's back, so any number of boards may be used, and from several threads, as long as no two calls share one at
   a time.
   pmc330_open comes first, on memory with any contents. The fields are the part's own: a debugger shows them, a program
   does not write them. A flag is set by any byte but 0. Any bytes are a board: whatever the fields contain, every call
   answers and ends, and a refused call leaves every byte as it was. */
typedef struct pmc330_board {
    int32_t inputs[32];  /* at each channel's input, microvolts */
    uint32_t lead;       /* ticks to the next beginning of a conversion; 0: none is to come */
    uint32_t lag;        /* ticks to the store of the conversion in progress, in external trigger only until a trigger
                            may be taken; 0: none */
    uint16_t codes[32];  /* in each slot's mailbox, in the format that it was stored in */
    uint16_t control;    /* the word of Control */
    uint16_t timer;      /* Timer; times the prescaler it is ticks */
    uint16_t taken;      /* the straight code last taken */
    uint8_t gains[32];   /* gain field of each channel, 0 to 3 */
    uint8_t unread[32];  /* stores in each slot since its last read, up to 2: New from 1, Missed at 2 */
    uint8_t range;       /* 0 to 3, PMC330_RANGE_.. */
    uint8_t prescaler;   /* Prescaler */
    uint8_t start;       /* first channel */
    uint8_t end;         /* last channel */
    uint8_t enable;      /* flag: board enable of Interrupt */
    uint8_t pending;     /* flag: an interrupt is pending */
    uint8_t running;     /* flag: a cycle runs or is armed */
    uint8_t waiting;     /* flag: a code was taken and is not stored yet */
    uint8_t slot;        /* of that code: its slot */
    uint8_t ends;        /* of that code, flag: its store ends a pass */
    uint8_t index;       /* the next conversion's place in its pass, from 0 */
    uint8_t odd;         /* flag, in differential alone: that pass is the second, fourth, .. of the cycle */
    uint16_t spare;      /* fills the struct and means nothing: pmc330_open sets it to 0, and no other call reads or writes it */
} pmc330_board;

/* Refused by a compiler that lays the struct out in another way. */
typedef char pmc330_board_has_284_bytes[sizeof(pmc330_board) == 284 ? 1 : -1];

/* A new board of a range: idle, with all registers, bits, codes and inputs 0. A refusal (PMC330_BAD_RANGE) makes none:
   the struct is as it was. */
uint64_t pmc330_open(pmc330_board *board, uint32_t range);

/* A register read of width 8, 16 or 32; the value is what was read. A mailbox read clears its slot's New and Missed
   bits, and no other read changes the board; pmc330_look shows a mailbox and clears nothing. */
uint64_t pmc330_read(pmc330_board *board, uint32_t width, uint32_t offset);

/* A register write of width 8, 16 or 32. */
uint64_t pmc330_write(pmc330_board *board, uint32_t width, uint32_t offset, uint32_t value);

/* The voltage at a channel, 0 to 31, in microvolts. It counts for conversions that begin in later calls; one due at
   the last tick of an advance has begun in that advance. */
uint64_t pmc330_input(pmc330_board *board, uint32_t channel, int32_t microvolts);

/* Time passes: 0 to PMC330_ADVANCE_MAX ticks; the value is the number of stores made in them. */
uint64_t pmc330_advance(pmc330_board *board, uint32_t ticks);

/* An external trigger. */
uint64_t pmc330_trigger(pmc330_board *board);

/* A reset: a new board, but with its range and its inputs. */
uint64_t pmc330_reset(pmc330_board *board);

/* A look at the mailbox of a slot, 0 to 31: the value is its code, with PMC330_LOOK_NEW and PMC330_LOOK_MISSED where
   these bits are set. It changes nothing: a front panel may look between any two calls, also while a cycle runs, and
   takes nothing from the driver that is still to read. The code is as it was stored, in Control's format then; 0 if
   nothing was stored there since the reset. */
uint64_t pmc330_look(const pmc330_board *board, uint32_t slot);

/* A clear of a slot, 0 to 31: drops its New and Missed bits, as a read of its mailbox does; the code stays. A look and
   then a clear leave the board as that read does, and a clear alone too. Pending stays; the value is 0. Accepted while a
   cycle runs. */
uint64_t pmc330_clear(pmc330_board *board, uint32_t slot);

/* The request line, 0 or 1: the interrupt is enabled and pending. */
uint32_t pmc330_line(const pmc330_board *board);

/* The ticks to the next store if only time passes, 0 if none is to come. An advance of fewer ticks makes no store,
   one of exactly that many is accepted and makes one; at 0 no advance makes any. It costs the same however far the
   store is. A simulator that jumps from next store to next store sees the line at each tick at which time moves it.
   (On contents that no calls led to, 0 says that one advance makes none.) */
uint32_t pmc330_next_store(const pmc330_board *board);

/* The two-point correction of one raw straight code to the nearest count.
     range      0: +-5 V, 1: +-10 V, 2: 0 to 5 V, 3: 0 to 10 V
     gain       the gain field: 0 to 3 for gain 1, 2, 4, 8
     high, low  acquisition codes of the two calibrations: 3: 4.9 V, 4: 2.45 V, 5: 1.225 V, 6: 0.6125 V, 7: 0 V
     high_sum, low_sum   the sums of 32 straight codes at each, 0 to 2,097,120
     raw        the straight code to correct, 0 to 65,535
   Returns 256 * value + number. Number 0: accepted, and value is the corrected count, 0 to 65,535.
   Otherwise value is 0 and number says what is wrong, the first of:
     15  range or gain above 3, a code outside 3 to 7, or a high voltage not above the low
     16  a sum above 2,097,120 or raw above 65,535
     17  a high sum not above the low */
uint64_t pmc330_corrected(uint32_t range, uint32_t gain, uint32_t high, uint32_t low,
                          uint32_t high_sum, uint32_t low_sum, uint32_t raw);

/* The straight code of a voltage in microvolts: (microvolts * gain - the range's low end) * 65536 / the range's width,
   rounded down and limited to 0 to 65,535.
   range and gain as above; of any other number the remainder by 4 counts. */
uint32_t pmc330_code(uint32_t range, uint32_t gain, int32_t microvolts);

/* The running average of a channel's readings, as sums: after each code of a run the sum of the last ones.
     length            how many codes a full window holds: 8, 16 or 32
     codes, codes_len  the run of straight codes, the oldest first; any 16-bit numbers are added as they are
     sums, sums_len    the output: at least one place a code; it must not overlap the codes
   Each call starts with an empty window. sums[k] becomes the sum of the last `length` codes up to codes[k], or of all
   so far where these are fewer: of the smaller of length and k + 1. The average is the sum over that number.
   Returns 256 * count + number. Number 0: accepted, count is how many codes the last sum holds, the smaller of length
   and codes_len (0 for an empty run), and places past the run are as they were. Otherwise every place is as it was,
   count is 0, and number says what is wrong, the first of:
     21  a length other than 8, 16 or 32
     20  fewer places than codes
   A code costs one addition and, once the window is full, one subtraction, at any length.
   To go on after a run, put in front of the next one the length - 1 codes that came before it, or all where there were
   fewer, and pass over their sums.
   codes_len or sums_len may be 0; its pointer must then still not be NULL. */
uint64_t pmc330_window(uint32_t length, const uint16_t *codes, size_t codes_len, uint32_t *sums, size_t sums_len);

/* ---- Traces: tags, lengths of the bodies, sizes ---- */
#define PMC330_TAG_HEADING     0x00U
#define PMC330_TAG_READ        0x01U
#define PMC330_TAG_WRITE       0x02U
#define PMC330_TAG_INPUT       0x03U
#define PMC330_TAG_ADVANCE     0x04U
#define PMC330_TAG_TRIGGER     0x05U
#define PMC330_TAG_RESET       0x06U
#define PMC330_TAG_LOOK        0x07U
#define PMC330_TAG_CLEAR       0x08U
#define PMC330_TAG_ANSWERED    0x09U   /* no call: a recorded answer */
#define PMC330_LENGTH_HEADING  5U
#define PMC330_LENGTH_READ     3U
#define PMC330_LENGTH_WRITE    7U
#define PMC330_LENGTH_INPUT    5U
#define PMC330_LENGTH_ADVANCE  4U
#define PMC330_LENGTH_TRIGGER  0U
#define PMC330_LENGTH_RESET    0U
#define PMC330_LENGTH_LOOK     1U
#define PMC330_LENGTH_CLEAR    1U
#define PMC330_LENGTH_ANSWERED 5U
#define PMC330_FIELD_HEAD      3U      /* bytes before a body: the tag and the length */
#define PMC330_HEADING         "A330"  /* the heading's four fixed bytes (and C's closing 0, which is not put) */
#define PMC330_ANSWER_BYTES    5U      /* of each call: number (1), value (4) */
/* bytes that have room for any load of so many calls: the heading, and a write's field a call */
#define PMC330_LOAD_BYTES_MAX(calls) (8U + 10U * (size_t)(calls))

/* Plays a trace on a new board and puts the answers of its calls into a buffer.
     trace, trace_len       the trace: at most 16,777,216 bytes
     answers, answers_len   the buffer, apart from the trace: at least 5 bytes per call, none for a recorded answer
   A trace is fields: tag (1 byte), length of the body (2), body. All numbers are low byte first.
     00H  length 5   first field, and only there: "A330", then the range, 0 to 3
     01H  length 3   read: width 8, 16 or 32 (1), offset (2)
     02H  length 7   write: width (1), offset (2), value (4)
     03H  length 5   input: channel 0 to 31 (1), microvolts in two's complement (4)
     04H  length 4   advance: ticks of 1/8 microsecond, at most 16,777,216 (4)
     05H  length 0   external trigger
     06H  length 0   reset
     07H  length 1   look: slot 0 to 31 (1)
     08H  length 1   clear: slot 0 to 31 (1)
     09H  length 5   recorded answer, after a call: number (1), value (4); what a board answered to that call.
                     It is passed over here: where the trace is not refused with 18, 19 or 26, result and buffer
                     are those of the trace without it
   Each call's answer is 5 bytes: number (1) and value (4). Number 0: the call was accepted, and value
   is the value read, for a look its code and bits (PMC330_LOOK_..), for an advance the number of stores
   made in it, else 0. Otherwise the board stays as it was, value is 0, the trace goes on, and number says
   why: 1 to 13 or 22.
   Returns 256 * calls answered + number. Number 0: the answers stand at the front of the buffer, in
   order, and the bytes beyond them are as they were. Otherwise the whole buffer is as it was, no call
   was made, and number says what is wrong, the first of:
     18  the trace is too long, or its first field is not that heading
     19  a later field is cut off, or has neither a call's tag nor 09H, or not its length
     26  a recorded answer does not follow a call: the field before it is the heading or another 09H; looked at
         only where no field of the whole trace is refused with 19
     20  the buffer has fewer than 5 bytes per call
   A length of 0 is allowed; its pointer must then still not be NULL. */
uint64_t pmc330_play(const uint8_t *trace, size_t trace_len, uint8_t *answers, size_t answers_len);

/* A replay's result, number + 2^8 * index + 2^32 * count, taken apart. */
#define PMC330_REPLAY_NUMBER(result) ((uint32_t)((result) % 256U))
#define PMC330_REPLAY_INDEX(result)  ((uint32_t)((result) / 256U % 16777216U))
#define PMC330_REPLAY_COUNT(result)  ((uint32_t)((result) / 4294967296ULL))

/* Replays a bench recording: plays the trace on a new board, as pmc330_play does, and compares each recorded answer
   (09H) with the board's own answer to the call before it. Calls without a recorded answer are made and not compared.
     trace, trace_len   the trace: at most 16,777,216 bytes; a recorded answer takes 8 of them
   Equal means the same number and the same low 16 bits of value. So a look's New and Missed do not count, and of an
   advance's stores only the remainder by 65,536 does.
   Returns number + 2^8 * index + 2^32 * count.
     Number 0, index 0: all agree. Count is how many recorded answers there are, 0 if there is none.
     Number 0, another index: the first call whose answer is not equal to the recorded one, from 1 and counting all
     calls. Count is how many recorded answers there are up to and including that call's. It stops there.
     Another number: the trace is refused with 18, 19 or 26, the first that holds, as pmc330_play says; no call was
     made, and index and count are 0.
   There is no buffer, and no 20. It costs about what the play of the same trace costs.
   A trace_len of 0 is allowed; the pointer must then still not be NULL. */
uint64_t pmc330_replay(const uint8_t *trace, size_t trace_len);

/* A load: the trace of a list of calls made from a seed. The same seed, range and number of calls give the same bytes
   on every machine, so machines can be compared by the time in which pmc330_play plays them.
     seed               1 to 4294967295
     range              of the heading, 0 to 3
     calls              how many; 0 gives the heading alone
     trace, trace_len   the buffer for the trace. PMC330_LOAD_BYTES_MAX(calls) bytes have room for it, and
                        PMC330_TRACE_MAX for every load that is accepted; the trace takes about 8 + 6.125 * calls
   A step replaces x, at first the seed, by x ^ (x << 13), then by x ^ (x >> 17), then by x ^ (x << 5), in 32 bits, and
   gives one call. With q = x / 8 and the width 16, by x % 8:
     0, 1, 2  read of offset q % 64 * 4
     3        write of q % 65536 to offset q % 64 * 4
     4        input of q % 20000001 - 10000000 microvolts at channel q % 32
     5        advance by q % 4096
     6, 7     trigger, reset
   Returns 256 * length + number. Number 0: accepted, the first `length` bytes are the trace, and those past it are as
   they were; pmc330_play accepts the trace with PMC330_ANSWER_BYTES * calls bytes or more for its answers. Otherwise
   every byte is as it was, length is 0, and number says what is wrong, the first of:
     27  the seed is 0
     14  the range is above 3
     28  the buffer is too short for the trace, or the trace has more than 16,777,216 bytes
   It goes over the calls twice, since the length must be known before the first byte is put, and stops counting once
   the trace is too long. A load is made for speed: it hardly ever starts a cycle, and it is no test of a driver.
   A trace_len of 0 is allowed; the pointer must then still not be NULL. */
uint64_t pmc330_load(uint32_t seed, uint32_t range, uint32_t calls, uint8_t *trace, size_t trace_len);

#ifdef __cplusplus
}
#endif

#endif
