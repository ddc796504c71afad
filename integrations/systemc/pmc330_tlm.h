/* The virtual PMC330 as a SystemC module: a TLM-2.0 target, loosely timed, over the stepping interface of pmc330.h.

     socket     registers, at their offsets: reads and writes of 1, 2 or 4 bytes, low byte first, as little-endian hosts
                have them. One initiator, or an interconnect. An access counts at the time of the call plus its annotated
                delay, which comes back as it was: the board takes no time.
     request    the request line. It moves at the very tick of the store, or at the time of the access, trigger or reset,
                that moves it; where it moves twice at one time, in two delta cycles, one after the other.
     reset      a rising edge resets the board; its range and its inputs stay.
     input()    the voltage at a channel; trigger() is an external trigger. Both have a delay, as an access has.

   A tick is 125 ns, and ticks count from time 0. Time between two ticks is kept: an access at 130 ns finds the board at
   tick 1, and one at 250 ns at tick 2. With a delay the board goes ahead of the simulation, and it does not go back: what
   comes at an earlier time then, be it an access, an input, a trigger or a reset, is made at the board's own time.

   A refused access does nothing to the board, but for the time that has passed. refused() has its number, and its response
   is
     TLM_BURST_ERROR_RESPONSE      for 1, a length other than 1, 2, 4
     TLM_ADDRESS_ERROR_RESPONSE    for 2 and 3, an address that does not fit, or at which there is no register
     TLM_COMMAND_ERROR_RESPONSE    for 5, a write to what is read only, or a read of Start Convert
     TLM_GENERIC_ERROR_RESPONSE    for 6 to 10, what the board may not do now: see pmc330.h
   4 does not come, since a value has the width of its access. Byte enables are answered with
   TLM_BYTE_ENABLE_ERROR_RESPONSE and a streaming width below the length with TLM_BURST_ERROR_RESPONSE, TLM_IGNORE_COMMAND
   with TLM_OK_RESPONSE; these do not reach the board, and refused() stays.

   Debug transport reads the bytes of the registers as they are now, or as far ahead as the board is, 0 where there are
   none. It takes nothing: New and Missed stay. It writes nothing. There is no DMI. */
#ifndef PMC330_TLM_H
#define PMC330_TLM_H

#include <algorithm>
#include <cstdint>
#include <deque>
#include <systemc>
#include <tlm>
#include <tlm_utils/simple_target_socket.h>

#include "pmc330.h"

class pmc330_tlm : public sc_core::sc_module {
  public:
    tlm_utils::simple_target_socket<pmc330_tlm> socket;
    sc_core::sc_out<bool> request;
    sc_core::sc_in<bool> reset;

    SC_HAS_PROCESS(pmc330_tlm);

    /* A new board of a range, PMC330_RANGE_PM5V to PMC330_RANGE_0_TO_10V. */
    pmc330_tlm(sc_core::sc_module_name name, uint32_t range)
        : sc_core::sc_module(name), socket("socket"), request("request"), reset("reset"),
          tick_(PMC330_TICK_NANOSECONDS, sc_core::SC_NS) {
        if (tick_ * 8 != sc_core::sc_time(1, sc_core::SC_US))
            SC_REPORT_ERROR("pmc330", "the time resolution does not have a tick of 125 ns");
        if (PMC330_NUMBER(pmc330_open(&board_, range)) != PMC330_ACCEPTED)
            SC_REPORT_ERROR("pmc330", "refused with 14: the range is above 3");
        socket.register_b_transport(this, &pmc330_tlm::b_transport);
        socket.register_transport_dbg(this, &pmc330_tlm::transport_dbg);
        SC_METHOD(store_due);
        sensitive << store_;
        dont_initialize();
        SC_METHOD(move_request);
        sensitive << move_;
        dont_initialize();
        SC_METHOD(reset_board);
        sensitive << reset.pos();
        dont_initialize();
    }

    /* The voltage at a channel: 0, or the number of the refusal, 11 or 12. */
    uint32_t input(uint32_t channel, int32_t microvolts, const sc_core::sc_time &delay = sc_core::SC_ZERO_TIME) {
        pass(delay);
        return PMC330_NUMBER(pmc330_input(&board_, channel, microvolts));
    }

    /* An external trigger. */
    void trigger(const sc_core::sc_time &delay = sc_core::SC_ZERO_TIME) {
        pass(delay);
        pmc330_trigger(&board_);
        settle(delay);
    }

    /* The number of the last refused access, 0 before the first. */
    uint32_t refused() const { return refused_; }

    static tlm::tlm_response_status response_of(uint32_t number) {
        switch (number) {
        case PMC330_ACCEPTED: return tlm::TLM_OK_RESPONSE;
        case PMC330_BAD_WIDTH: return tlm::TLM_BURST_ERROR_RESPONSE;
        case PMC330_BAD_OFFSET:
        case PMC330_UNMAPPED: return tlm::TLM_ADDRESS_ERROR_RESPONSE;
        case PMC330_BAD_DIRECTION: return tlm::TLM_COMMAND_ERROR_RESPONSE;
        default: return tlm::TLM_GENERIC_ERROR_RESPONSE;
        }
    }

  private:
    struct level {
        sc_core::sc_time at;
        bool is_up;
    };

    const sc_core::sc_time tick_;
    pmc330_board board_;
    uint64_t ticks_ = 0; /* that the board has passed */
    uint32_t refused_ = 0;
    bool is_up_ = false;       /* the request line as the board has it */
    bool may_rise_ = false;    /* interrupts are enabled, and some stores interrupt */
    std::deque<level> levels_; /* what is still to be written to the port, in this order */
    uint64_t due_ = 0;         /* the tick for which store_ was last notified, 0 if it is not to come */
    sc_core::sc_event store_, move_;

    sc_core::sc_time at_tick(uint64_t ticks) const { return sc_core::sc_time::from_value(ticks * tick_.value()); }

    /* Ticks up to now, or to after a delay. */
    uint64_t ticks_until(const sc_core::sc_time &delay) const {
        return (sc_core::sc_time_stamp() + delay).value() / tick_.value();
    }

    void b_transport(tlm::tlm_generic_payload &access, sc_core::sc_time &delay) {
        access.set_dmi_allowed(false);
        access.set_response_status(response(access, delay));
    }

    tlm::tlm_response_status response(tlm::tlm_generic_payload &access, const sc_core::sc_time &delay) {
        if (access.get_byte_enable_ptr() != nullptr)
            return tlm::TLM_BYTE_ENABLE_ERROR_RESPONSE;
        if (access.get_streaming_width() < access.get_data_length())
            return tlm::TLM_BURST_ERROR_RESPONSE;
        if (access.get_command() == tlm::TLM_IGNORE_COMMAND)
            return tlm::TLM_OK_RESPONSE;
        pass(delay);
        const uint32_t number = access.is_read() ? read(access) : write(access);
        settle(delay);
        if (number != PMC330_ACCEPTED)
            refused_ = number;
        return response_of(number);
    }

    /* A length or an address beyond what these hold is refused as the greatest one is. */
    static uint32_t width_of(const tlm::tlm_generic_payload &access) { return 8 * std::min(access.get_data_length(), 255U); }

    static uint32_t offset_of(const tlm::tlm_generic_payload &access) {
        return static_cast<uint32_t>(std::min<uint64_t>(access.get_address(), UINT32_MAX));
    }

    uint32_t read(tlm::tlm_generic_payload &access) {
        const uint64_t result = pmc330_read(&board_, width_of(access), offset_of(access));
        if (PMC330_NUMBER(result) == PMC330_ACCEPTED)
            for (unsigned byte = 0; byte < access.get_data_length(); byte++)
                access.get_data_ptr()[byte] = static_cast<unsigned char>(PMC330_VALUE(result) >> 8 * byte);
        return PMC330_NUMBER(result);
    }

    uint32_t write(const tlm::tlm_generic_payload &access) {
        uint32_t value = 0;
        for (unsigned byte = 0; byte < std::min(access.get_data_length(), 4U); byte++)
            value |= static_cast<uint32_t>(access.get_data_ptr()[byte]) << 8 * byte;
        const uint32_t number = PMC330_NUMBER(pmc330_write(&board_, width_of(access), offset_of(access), value));
        look_at_interrupts();
        return number;
    }

    /* Only writes and resets change these registers, and these reads change nothing. */
    void look_at_interrupts() {
        const uint32_t interrupt = PMC330_VALUE(pmc330_read(&board_, 16, PMC330_INTERRUPT));
        const uint32_t control = PMC330_VALUE(pmc330_read(&board_, 16, PMC330_CONTROL));
        may_rise_ = (interrupt & PMC330_INTERRUPT_ENABLE) != 0 && (control & PMC330_INTERRUPT_ON_MASK) != 0;
    }

    /* From a copy of the board, brought to now; the words of New and Missed stand before the mailboxes. */
    unsigned transport_dbg(tlm::tlm_generic_payload &access) {
        if (!access.is_read() || access.get_address() >= 256)
            return 0;
        pmc330_board now = board_;
        for (uint64_t ticks = ticks_; ticks < ticks_until(sc_core::SC_ZERO_TIME);) {
            const uint64_t part = std::min<uint64_t>(ticks_until(sc_core::SC_ZERO_TIME) - ticks, PMC330_ADVANCE_MAX);
            pmc330_advance(&now, static_cast<uint32_t>(part));
            ticks += part;
        }
        const unsigned first = static_cast<unsigned>(access.get_address());
        const unsigned length = std::min(access.get_data_length(), 256 - first);
        for (unsigned byte = 0; byte < length; byte++)
            access.get_data_ptr()[byte] = static_cast<unsigned char>(PMC330_VALUE(pmc330_read(&now, 8, first + byte)));
        return length;
    }

    /* The board goes on to now, or to after a delay: from store to store, where one may raise the line. */
    void pass(const sc_core::sc_time &delay) {
        const uint64_t until = ticks_until(delay);
        while (ticks_ < until) {
            const uint64_t store = store_to_see();
            const uint64_t most = std::min<uint64_t>(until - ticks_, PMC330_ADVANCE_MAX);
            const uint64_t ticks = store != 0 ? std::min(store, most) : most;
            pmc330_advance(&board_, static_cast<uint32_t>(ticks));
            ticks_ += ticks;
            note_line(at_tick(ticks_));
        }
    }

    /* The ticks to the next store, 0 if there is none or it cannot move the line: none does while the line is up. */
    uint64_t store_to_see() const { return may_rise_ && !is_up_ ? pmc330_next_store(&board_) : 0; }

    /* After what may have moved the line, or the next store. */
    void settle(const sc_core::sc_time &delay) {
        note_line(std::max(sc_core::sc_time_stamp() + delay, at_tick(ticks_)));
        const uint64_t store = store_to_see();
        const uint64_t due = store != 0 ? ticks_ + store : 0;
        if (due == due_)
            return;
        due_ = due;
        store_.cancel();
        if (due != 0)
            store_.notify(at_tick(due) - sc_core::sc_time_stamp());
    }

    void note_line(const sc_core::sc_time &at) {
        const bool is_up = pmc330_line(&board_) != 0;
        if (is_up == is_up_)
            return;
        is_up_ = is_up;
        levels_.push_back({at, is_up});
        await_level();
    }

    void await_level() {
        const sc_core::sc_time now = sc_core::sc_time_stamp();
        if (!levels_.empty())
            move_.notify(std::max(levels_.front().at, now) - now);
    }

    void store_due() {
        pass(sc_core::SC_ZERO_TIME);
        settle(sc_core::SC_ZERO_TIME);
    }

    /* One at a time, so that a process that waits for an edge sees each. */
    void move_request() {
        request.write(levels_.front().is_up);
        levels_.pop_front();
        await_level();
    }

    void reset_board() {
        pass(sc_core::SC_ZERO_TIME);
        pmc330_reset(&board_);
        look_at_interrupts();
        settle(sc_core::SC_ZERO_TIME);
    }
};

#endif
