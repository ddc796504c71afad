/* A driver with an interrupt handler scans four channels in uniform continuous mode. It serves the requests of the board,
   but every third time it is busy for more than two passes, so that codes are lost: the Missed bits say so at the next
   visit. test.sh builds and runs it, and compares what it prints with example.expected. */
#include <cstdio>
#include <cstdlib>
#include <tlm_utils/simple_initiator_socket.h>

#include "pmc330_tlm.h"

using sc_core::sc_time;
using sc_core::SC_US;

static const unsigned CHANNELS = 4;
static const unsigned LET_PASS = 3;      /* each so many visits the driver is busy */
static const unsigned VISITS = 6;
static const sc_time LATENCY(12, SC_US); /* from the request to the handler */
static const sc_time BUSY(700, SC_US);   /* more than two passes of 320 us */

static double us(const sc_time &time) { return time.to_seconds() * 1e6; }

struct driver : sc_core::sc_module {
    tlm_utils::simple_initiator_socket<driver> socket;
    sc_core::sc_in<bool> request;

    SC_HAS_PROCESS(driver);

    explicit driver(sc_core::sc_module_name name) : sc_core::sc_module(name), socket("socket"), request("request") {
        SC_THREAD(serve);
    }

  private:
    /* An access of 2 bytes, at once: nothing here runs ahead of time. */
    uint16_t access(tlm::tlm_command command, uint32_t offset, uint16_t value) {
        unsigned char bytes[2] = {static_cast<unsigned char>(value), static_cast<unsigned char>(value >> 8)};
        tlm::tlm_generic_payload payload;
        sc_time delay = sc_core::SC_ZERO_TIME;
        payload.set_command(command);
        payload.set_address(offset);
        payload.set_data_ptr(bytes);
        payload.set_data_length(2);
        payload.set_streaming_width(2);
        socket->b_transport(payload, delay);
        if (payload.is_response_error()) {
            std::printf("offset %02XH: %s\n", offset, payload.get_response_string().c_str());
            std::exit(1);
        }
        return static_cast<uint16_t>(bytes[0] | bytes[1] << 8);
    }

    uint16_t read(uint32_t offset) { return access(tlm::TLM_READ_COMMAND, offset, 0); }

    void write(uint32_t offset, uint32_t value) { access(tlm::TLM_WRITE_COMMAND, offset, static_cast<uint16_t>(value)); }

    void start() {
        write(PMC330_CHANNELS, PMC330_CHANNELS_WORD(0U, CHANNELS - 1U));
        write(PMC330_PRESCALER_WORD, PMC330_PRESCALER_FIELD(64U));
        write(PMC330_TIMER, 10U); /* 640 ticks, 80 us, from one conversion to the next */
        write(PMC330_CONTROL, PMC330_FORMAT_STRAIGHT | PMC330_ACQUISITION_SINGLE_ENDED | PMC330_SCAN_UNIFORM_CONTINUOUS |
                                  PMC330_TIMER_ENABLE | PMC330_INTERRUPT_ON_LAST_STORE);
        write(PMC330_INTERRUPT, PMC330_INTERRUPT_ENABLE);
        write(PMC330_START_CONVERT, PMC330_START);
    }

    void serve() {
        start();
        for (unsigned visit = 1; visit <= VISITS; visit++) {
            wait(request.posedge_event());
            const sc_time requested = sc_core::sc_time_stamp();
            wait(visit % LET_PASS == 0 ? BUSY : LATENCY);
            std::printf("requested at %8.3f us, served at %8.3f us:", us(requested), us(sc_core::sc_time_stamp()));
            collect();
            write(PMC330_INTERRUPT, PMC330_INTERRUPT_RELEASE | PMC330_INTERRUPT_ENABLE);
        }
        write(PMC330_CONTROL, PMC330_SCAN_OFF);
        sc_core::sc_stop();
    }

    /* Missed Data first: the read of a mailbox clears its bit there. */
    void collect() {
        const uint16_t missed = read(PMC330_MISSED_DATA_LOW), fresh = read(PMC330_NEW_DATA_LOW);
        for (unsigned slot = 0; slot < CHANNELS; slot++)
            if ((fresh & PMC330_SLOT_BIT(slot)) != 0)
                std::printf(" %04XH%s", read(PMC330_MAILBOX(slot)), missed & PMC330_SLOT_BIT(slot) ? ", some missed;" : ";");
        std::printf("\n");
    }
};

/* Voltages that rise: each channel by 0.1 V each 100 us. */
struct bench : sc_core::sc_module {
    pmc330_tlm &board;

    SC_HAS_PROCESS(bench);

    bench(sc_core::sc_module_name name, pmc330_tlm &of) : sc_core::sc_module(name), board(of) { SC_THREAD(rise); }

  private:
    void rise() {
        for (int step = 0;; step++) {
            for (unsigned channel = 0; channel < CHANNELS; channel++)
                board.input(channel, 1000000 * static_cast<int>(channel) + 100000 * step);
            wait(100, SC_US);
        }
    }
};

int sc_main(int, char **) {
    sc_core::sc_signal<bool> request("request"), reset("reset");
    pmc330_tlm board("board", PMC330_RANGE_PM10V);
    driver above("driver");
    bench around("bench", board);
    above.socket.bind(board.socket);
    board.request(request);
    above.request(request);
    board.reset(reset);
    sc_core::sc_start();
    return 0;
}
