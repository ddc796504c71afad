/* The cost of an access through the module beside a plain call on a board: best of a few rounds, of the same reads and
   advances. It prints figures and asserts nothing. */
#include <chrono>
#include <cstdio>
#include <tlm_utils/simple_initiator_socket.h>

#include "pmc330_tlm.h"

static const unsigned ROUNDS = 9, ACCESSES = 1000000;

static double seconds() {
    return std::chrono::duration<double>(std::chrono::steady_clock::now().time_since_epoch()).count();
}

struct bench : sc_core::sc_module {
    tlm_utils::simple_initiator_socket<bench> socket;
    double plain_read = 1, plain_step = 1, read = 1, step = 1, wait_step = 1; /* seconds a million, the best so far */

    SC_HAS_PROCESS(bench);

    explicit bench(sc_core::sc_module_name name) : sc_core::sc_module(name), socket("socket") { SC_THREAD(run); }

  private:
    pmc330_board board;
    tlm::tlm_generic_payload payload;
    uint32_t sum = 0;

    void access(tlm::tlm_command command, uint32_t offset, uint32_t value, sc_core::sc_time &delay) {
        unsigned char bytes[2] = {static_cast<unsigned char>(value), static_cast<unsigned char>(value >> 8)};
        payload.set_command(command);
        payload.set_address(offset);
        payload.set_data_ptr(bytes);
        payload.set_data_length(2);
        payload.set_streaming_width(2);
        socket->b_transport(payload, delay);
        sum += bytes[0];
    }

    void start() {
        static const uint32_t writes[][2] = {{PMC330_CHANNELS, 0x1F00}, {PMC330_PRESCALER_WORD, 0x4000}, {PMC330_TIMER, 1},
                                             {PMC330_CONTROL, 0x2909},  {PMC330_INTERRUPT, 0},           {PMC330_START_CONVERT, 1}};
        pmc330_open(&board, PMC330_RANGE_PM10V);
        for (const auto &one : writes) {
            sc_core::sc_time delay = sc_core::SC_ZERO_TIME;
            pmc330_write(&board, 16, one[0], one[1]);
            access(tlm::TLM_WRITE_COMMAND, one[0], one[1], delay);
        }
    }

    /* A million reads, each so many ticks after the one before. */
    double plain(uint32_t ticks) {
        const double before = seconds();
        for (unsigned i = 0; i < ACCESSES; i++) {
            if (ticks != 0)
                pmc330_advance(&board, ticks);
            sum += PMC330_VALUE(pmc330_read(&board, 16, PMC330_MAILBOX(i % 32)));
        }
        return seconds() - before;
    }

    double through_module(uint32_t ticks) {
        const sc_core::sc_time step(ticks * PMC330_TICK_NANOSECONDS, sc_core::SC_NS);
        sc_core::sc_time delay = sc_core::SC_ZERO_TIME;
        const double before = seconds();
        for (unsigned i = 0; i < ACCESSES; i++) {
            delay += step;
            access(tlm::TLM_READ_COMMAND, PMC330_MAILBOX(i % 32), 0, delay);
        }
        const double taken = seconds() - before;
        wait(delay);
        return taken;
    }

    /* With no delay, but a wait before each. */
    double waiting(uint32_t ticks) {
        const sc_core::sc_time step(ticks * PMC330_TICK_NANOSECONDS, sc_core::SC_NS);
        sc_core::sc_time delay = sc_core::SC_ZERO_TIME;
        const double before = seconds();
        for (unsigned i = 0; i < ACCESSES; i++) {
            wait(step);
            access(tlm::TLM_READ_COMMAND, PMC330_MAILBOX(i % 32), 0, delay);
        }
        return seconds() - before;
    }

    void run() {
        start();
        for (unsigned round = 0; round < ROUNDS; round++) {
            plain_read = std::min(plain_read, plain(0));
            read = std::min(read, through_module(0));
            plain_step = std::min(plain_step, plain(64));
            step = std::min(step, through_module(64));
            wait_step = std::min(wait_step, waiting(64));
        }
        std::printf("a read: plain %.1f ns, through the module %.1f ns\n", plain_read * 1e3, read * 1e3);
        std::printf("64 ticks with a store, and a read: plain %.1f ns, through the module %.1f ns, with a wait %.1f ns\n",
                    plain_step * 1e3, step * 1e3, wait_step * 1e3);
        std::fprintf(stderr, "%s", sum == 0 ? " " : "");
        sc_core::sc_stop();
    }
};

int sc_main(int, char **) {
    sc_core::sc_signal<bool> request("request"), reset("reset");
    pmc330_tlm board("board", PMC330_RANGE_PM10V);
    bench around("bench");
    around.socket.bind(board.socket);
    board.request(request);
    board.reset(reset);
    sc_core::sc_start();
    return 0;
}
