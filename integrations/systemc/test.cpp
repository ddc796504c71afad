/* The SystemC module on drawn accesses, beside two others: the player, which gets the same calls as a trace and must answer
   the same, and a plain board, stepped a tick at a time, which says where the request line has to move. */
#include <cstdio>
#include <cstdlib>
#include <cstring>
#include <random>
#include <vector>
#include <tlm_utils/simple_initiator_socket.h>

#include "pmc330_tlm.h"

using sc_core::sc_time;
using sc_core::SC_NS;

static const unsigned STEPS = 6000;
static sc_time tick() { return sc_time(125, SC_NS); }

static void must(bool holds, const char *what) {
    if (!holds) {
        std::printf("test: does not hold: %s\n", what);
        std::exit(1);
    }
}

/* A call as a trace has it, with its time and, of an access, what the module answered. */
struct call {
    sc_time at;
    uint8_t tag;
    std::vector<uint8_t> body;
    bool is_access;
    tlm::tlm_response_status status;
    uint32_t refused, value;
};

struct movement {
    sc_time at;
    bool is_up;
    bool operator==(const movement &other) const { return at == other.at && is_up == other.is_up; }
};

static std::vector<uint8_t> bytes_of(uint64_t value, unsigned count) {
    std::vector<uint8_t> bytes;
    for (unsigned i = 0; i < count; i++)
        bytes.push_back(static_cast<uint8_t>(value >> 8 * i));
    return bytes;
}

static std::vector<uint8_t> joined(std::vector<uint8_t> one, const std::vector<uint8_t> &two) {
    one.insert(one.end(), two.begin(), two.end());
    return one;
}

/* Draws what happens, makes it happen, and notes it. */
struct bench : sc_core::sc_module {
    tlm_utils::simple_initiator_socket<bench> socket;
    sc_core::sc_in<bool> request;
    sc_core::sc_out<bool> reset;
    pmc330_tlm &board;
    std::vector<call> calls;
    std::vector<movement> movements;
    std::vector<std::pair<size_t, std::vector<uint8_t>>> dumps; /* after so many calls, the 256 bytes */

    SC_HAS_PROCESS(bench);

    bench(sc_core::sc_module_name name, pmc330_tlm &of)
        : sc_core::sc_module(name), socket("socket"), request("request"), reset("reset"), board(of) {
        SC_THREAD(run);
        SC_METHOD(note_request);
        sensitive << request.value_changed();
        dont_initialize();
    }

  private:
    std::mt19937 random{330};
    sc_time ahead = sc_core::SC_ZERO_TIME; /* of the simulation's time */
    uint32_t first = 0;                    /* channel of the scan that was started last */
    uint32_t refused = 0;                  /* the number of the last refusal */

    uint32_t drawn(uint32_t below) { return static_cast<uint32_t>(random() % below); }

    void note_request() { movements.push_back({sc_core::sc_time_stamp(), request.read()}); }

    void note(uint8_t tag, std::vector<uint8_t> body) {
        calls.push_back({sc_core::sc_time_stamp() + ahead, tag, std::move(body), false, tlm::TLM_OK_RESPONSE, 0, 0});
    }

    tlm::tlm_response_status transported(tlm::tlm_command command, uint64_t address, unsigned char *data, unsigned length) {
        tlm::tlm_generic_payload payload;
        sc_time delay = ahead;
        payload.set_command(command);
        payload.set_address(address);
        payload.set_data_ptr(data);
        payload.set_data_length(length);
        payload.set_streaming_width(length + drawn(2));
        payload.set_dmi_allowed(true);
        socket->b_transport(payload, delay);
        must(delay == ahead, "the delay comes back as it was");
        must(!payload.is_dmi_allowed(), "there is no hint at DMI");
        if (payload.is_response_error())
            refused = board.refused();
        must(board.refused() == refused, "the number of the last refusal stays");
        return payload.get_response_status();
    }

    void read(unsigned length, uint32_t offset) {
        unsigned char data[8] = {0xA5, 0xA5, 0xA5, 0xA5, 0xA5, 0xA5, 0xA5, 0xA5};
        note(PMC330_TAG_READ, joined(bytes_of(8 * length, 1), bytes_of(offset, 2)));
        const tlm::tlm_response_status status = transported(tlm::TLM_READ_COMMAND, offset, data, length);
        uint32_t value = 0;
        for (unsigned i = 0; i < 8; i++) {
            if (status == tlm::TLM_OK_RESPONSE && i < length)
                value |= static_cast<uint32_t>(data[i]) << 8 * i;
            else
                must(data[i] == 0xA5, "bytes that are not read stay");
        }
        answered(status, value);
    }

    void write(unsigned length, uint32_t offset, uint32_t value) {
        std::vector<uint8_t> data = bytes_of(value, 8);
        const uint32_t held = length >= 4 ? value : value & ((1U << 8 * length) - 1);
        note(PMC330_TAG_WRITE, joined(joined(bytes_of(8 * length, 1), bytes_of(offset, 2)), bytes_of(held, 4)));
        answered(transported(tlm::TLM_WRITE_COMMAND, offset, data.data(), length), 0);
    }

    void answered(tlm::tlm_response_status status, uint32_t value) {
        calls.back().is_access = true;
        calls.back().status = status;
        calls.back().refused = status == tlm::TLM_OK_RESPONSE ? 0 : board.refused();
        calls.back().value = value;
    }

    /* Time passes: a whole number of nanoseconds, seldom of ticks. It is waited for, or run ahead of; or what follows comes
       from an initiator that is less far ahead, and may move the line. */
    void pass() {
        if (drawn(8) == 0) {
            ahead = sc_time(drawn(static_cast<uint32_t>(ahead / sc_time(1, SC_NS)) + 1), SC_NS);
            write(2, PMC330_INTERRUPT, drawn(2) | PMC330_INTERRUPT_RELEASE * drawn(2));
        }
        ahead += sc_time(drawn(4) == 0 ? drawn(300) : drawn(40000), SC_NS);
        if (drawn(3) == 0)
            catch_up();
    }

    void catch_up() {
        wait(ahead);
        ahead = sc_core::SC_ZERO_TIME;
        wait(sc_core::SC_ZERO_TIME);
        wait(sc_core::SC_ZERO_TIME);
    }

    void start() {
        if (drawn(4) != 0)
            write(2, PMC330_CONTROL, PMC330_SCAN_OFF);
        first = drawn(14);
        const uint32_t last = first + (drawn(8) == 0 ? 16 : drawn(3));
        write(2, PMC330_CHANNELS, PMC330_CHANNELS_WORD(first, last));
        write(1, PMC330_PRESCALER, 60 + drawn(20));
        write(2, PMC330_TIMER, 1 + drawn(3));
        write(2, PMC330_CONTROL, drawn(2) | drawn(2) << 1 | drawn(2) << 3 | drawn(6) << 8 | drawn(2) << 11 | drawn(3) << 12);
        write(2, PMC330_INTERRUPT, PMC330_INTERRUPT_ENABLE);
        write(2, PMC330_START_CONVERT, PMC330_START);
    }

    void serve() {
        static const uint32_t words[] = {PMC330_INTERRUPT, PMC330_NEW_DATA_LOW, PMC330_NEW_DATA_HIGH, PMC330_MISSED_DATA_LOW};
        for (uint32_t word : words)
            read(2, word);
        for (uint32_t slot = first; slot < first + 3; slot++)
            read(2, PMC330_MAILBOX(slot + 16 * drawn(2)));
        read(1U << drawn(3), PMC330_MAILBOX(drawn(32)));
        write(2, PMC330_INTERRUPT, PMC330_INTERRUPT_RELEASE | drawn(2));
    }

    void act_on_inputs() {
        const uint32_t channel = drawn(4) == 0 ? drawn(34) : first + drawn(2);
        const int32_t microvolts = static_cast<int32_t>(drawn(24000000)) - 12000000;
        note(PMC330_TAG_INPUT, joined(bytes_of(channel, 1), bytes_of(static_cast<uint32_t>(microvolts), 4)));
        must(board.input(channel, microvolts, ahead) == (channel > 31 ? 11 : 0), "question 11 of an input");
    }

    void trigger() {
        note(PMC330_TAG_TRIGGER, {});
        board.trigger(ahead);
    }

    void pulse_reset() {
        catch_up();
        note(PMC330_TAG_RESET, {});
        reset.write(true);
        wait(sc_core::SC_ZERO_TIME);
        wait(sc_core::SC_ZERO_TIME);
        if (drawn(2))
            start(); /* while the signal is still up */
        reset.write(false);
        wait(sc_core::SC_ZERO_TIME);
        wait(sc_core::SC_ZERO_TIME);
    }

    void dump() {
        catch_up();
        note(PMC330_TAG_ADVANCE, bytes_of(0, 4));
        std::vector<uint8_t> data(256);
        tlm::tlm_generic_payload payload;
        payload.set_command(tlm::TLM_READ_COMMAND);
        payload.set_address(0);
        payload.set_data_ptr(data.data());
        payload.set_data_length(256);
        must(socket->transport_dbg(payload) == 256, "all bytes are shown");
        dumps.push_back({calls.size(), data});
    }

    void step() {
        const uint32_t kind = drawn(100);
        if (kind < 40)
            pass();
        else if (kind < 50)
            start();
        else if (kind < 70)
            serve();
        else if (kind < 77)
            act_on_inputs();
        else if (kind < 84)
            trigger();
        else if (kind < 85)
            pulse_reset();
        else if (kind < 87)
            dump();
        else if (kind < 93)
            read(drawn(6), drawn(300));
        else if (kind < 97)
            write(drawn(6), drawn(300), drawn(2) ? drawn(65536) : static_cast<uint32_t>(random()));
        else
            write(2, drawn(2) ? PMC330_CONTROL : PMC330_CHANNELS, drawn(65536));
    }

    void run() {
        for (unsigned i = 0; i < STEPS; i++)
            step();
        wait_long();
        check_others();
        sc_core::sc_stop();
    }

    /* More ticks than one advance takes, in a scan. */
    void wait_long() {
        write(2, PMC330_CONTROL, PMC330_SCAN_OFF);
        write(2, PMC330_CHANNELS, PMC330_CHANNELS_WORD(0U, 1U));
        write(2, PMC330_PRESCALER_WORD, PMC330_PRESCALER_FIELD(255U));
        write(2, PMC330_TIMER, 65535);
        write(2, PMC330_CONTROL, PMC330_SCAN_UNIFORM_CONTINUOUS | PMC330_TIMER_ENABLE | PMC330_ACQUISITION_SINGLE_ENDED);
        write(2, PMC330_START_CONVERT, PMC330_START);
        ahead += PMC330_ADVANCE_MAX * tick();
        read(2, PMC330_NEW_DATA_LOW);
        ahead += 2.0 * PMC330_ADVANCE_MAX * tick();
        read(2, PMC330_NEW_DATA_LOW);
        must(calls.back().value == 3, "two conversions in a long time");
        catch_up();
    }

    /* What never reaches the board, or is not drawn. */
    void check_others() {
        unsigned char data[64] = {5, 5, 5, 5}, enabled[1] = {TLM_BYTE_ENABLED};
        tlm::tlm_generic_payload payload;
        sc_time delay = sc_core::SC_ZERO_TIME;
        tlm::tlm_dmi dmi;
        write(2, PMC330_CONTROL, PMC330_SCAN_OFF);
        write(2, PMC330_TIMER, 0x1234);
        must(transported(tlm::TLM_READ_COMMAND, 0x100000010ULL, data, 2) == tlm::TLM_ADDRESS_ERROR_RESPONSE, "a far address");
        must(board.refused() == PMC330_BAD_OFFSET, "the number of a far address");
        must(transported(tlm::TLM_WRITE_COMMAND, PMC330_TIMER, data, 33) == tlm::TLM_BURST_ERROR_RESPONSE, "a long access");
        must(transported(tlm::TLM_IGNORE_COMMAND, PMC330_TIMER, data, 2) == tlm::TLM_OK_RESPONSE, "no command");
        payload.set_command(tlm::TLM_WRITE_COMMAND);
        payload.set_address(PMC330_TIMER);
        payload.set_data_ptr(data);
        payload.set_data_length(2);
        payload.set_streaming_width(1);
        socket->b_transport(payload, delay);
        must(payload.get_response_status() == tlm::TLM_BURST_ERROR_RESPONSE, "a stream");
        payload.set_streaming_width(2);
        payload.set_byte_enable_ptr(enabled);
        payload.set_byte_enable_length(1);
        socket->b_transport(payload, delay);
        must(payload.get_response_status() == tlm::TLM_BYTE_ENABLE_ERROR_RESPONSE, "byte enables");
        must(board.refused() == PMC330_BAD_WIDTH, "these do not reach the board");
        must(!socket->get_direct_mem_ptr(payload, dmi), "no DMI");
        must(socket->transport_dbg(payload) == 0, "debug writes nothing");
        read(2, PMC330_TIMER);
        must(calls.back().value == 0x1234, "nothing of all this is written");
        payload.set_command(tlm::TLM_READ_COMMAND);
        payload.set_address(254);
        payload.set_data_length(4);
        must(socket->transport_dbg(payload) == 2, "debug ends with the registers");
    }
};

/* ---- The same calls, beside ---- */

static std::vector<uint8_t> field(uint8_t tag, const std::vector<uint8_t> &body) {
    return joined(joined({tag}, bytes_of(static_cast<uint32_t>(body.size()), 2)), body);
}

/* The calls as a trace, with the whole ticks between them as advances: how far each call's answer is in the buffer. */
static std::vector<uint8_t> trace_of(const std::vector<call> &calls, std::vector<size_t> &answers) {
    std::vector<uint8_t> trace = field(PMC330_TAG_HEADING, {'A', '3', '3', '0', PMC330_RANGE_PM10V});
    uint64_t ticks = 0;
    size_t count = 0;
    for (const call &one : calls) {
        for (const uint64_t until = one.at.value() / tick().value(); ticks < until; count++) {
            const uint64_t part = std::min<uint64_t>(until - ticks, PMC330_ADVANCE_MAX);
            const std::vector<uint8_t> bytes = field(PMC330_TAG_ADVANCE, bytes_of(part, 4));
            trace.insert(trace.end(), bytes.begin(), bytes.end());
            ticks += part;
        }
        answers.push_back(count++);
        const std::vector<uint8_t> bytes = field(one.tag, one.body);
        trace.insert(trace.end(), bytes.begin(), bytes.end());
    }
    return trace;
}

static tlm::tlm_response_status expected(uint32_t number) {
    static const tlm::tlm_response_status table[] = {
        tlm::TLM_OK_RESPONSE,            tlm::TLM_BURST_ERROR_RESPONSE,   tlm::TLM_ADDRESS_ERROR_RESPONSE,
        tlm::TLM_ADDRESS_ERROR_RESPONSE, tlm::TLM_GENERIC_ERROR_RESPONSE, tlm::TLM_COMMAND_ERROR_RESPONSE,
        tlm::TLM_GENERIC_ERROR_RESPONSE, tlm::TLM_GENERIC_ERROR_RESPONSE, tlm::TLM_GENERIC_ERROR_RESPONSE,
        tlm::TLM_GENERIC_ERROR_RESPONSE, tlm::TLM_GENERIC_ERROR_RESPONSE};
    return table[number];
}

static unsigned compare_with_player(const std::vector<call> &calls, unsigned numbers[11]) {
    std::vector<size_t> places;
    const std::vector<uint8_t> trace = trace_of(calls, places);
    std::vector<uint8_t> answers(PMC330_ANSWER_BYTES * (places.back() + 1));
    must(pmc330_play(trace.data(), trace.size(), answers.data(), answers.size()) % 256 == 0, "the trace is played");
    unsigned accesses = 0;
    for (size_t i = 0; i < calls.size(); i++) {
        const uint8_t *answer = &answers[5 * places[i]];
        const uint32_t value = answer[1] | answer[2] << 8 | answer[3] << 16 | static_cast<uint32_t>(answer[4]) << 24;
        if (!calls[i].is_access)
            continue;
        must(calls[i].status == expected(answer[0]), "the response of an access");
        must(calls[i].refused == answer[0], "the number of a refusal");
        must(calls[i].value == value, "what is read");
        numbers[answer[0]]++;
        accesses++;
    }
    return accesses;
}

static void make(pmc330_board &board, const call &one) {
    const auto number = [&one](size_t at, size_t count) {
        uint32_t value = 0;
        for (size_t i = 0; i < count; i++)
            value |= static_cast<uint32_t>(one.body[at + i]) << 8 * i;
        return value;
    };
    switch (one.tag) {
    case PMC330_TAG_READ: pmc330_read(&board, number(0, 1), number(1, 2)); break;
    case PMC330_TAG_WRITE: pmc330_write(&board, number(0, 1), number(1, 2), number(3, 4)); break;
    case PMC330_TAG_INPUT: pmc330_input(&board, number(0, 1), static_cast<int32_t>(number(1, 4))); break;
    case PMC330_TAG_TRIGGER: pmc330_trigger(&board); break;
    case PMC330_TAG_RESET: pmc330_reset(&board); break;
    default: break;
    }
}

/* A plain board a tick at a time: where its line moves, and the bytes of its registers where they were dumped. */
struct plain {
    pmc330_board board;
    std::vector<movement> movements;

    /* At this time, but not before the tick of the board or the movement before. */
    void see(sc_time at, uint64_t ticks) {
        const bool is_up = pmc330_line(&board) != 0, was_up = !movements.empty() && movements.back().is_up;
        if (is_up == was_up)
            return;
        at = std::max(at, static_cast<double>(ticks) * tick());
        movements.push_back({movements.empty() ? at : std::max(at, movements.back().at), is_up});
    }

    void dumped(const std::vector<uint8_t> &bytes) const {
        for (uint32_t offset = 0; offset < 256; offset++) {
            pmc330_board copy = board;
            must(bytes[offset] == PMC330_VALUE(pmc330_read(&copy, 8, offset)), "a byte that debug shows");
        }
    }
};

static void compare_with_plain(const bench &around) {
    plain beside;
    uint64_t ticks = 0;
    size_t next = 0;
    pmc330_open(&beside.board, PMC330_RANGE_PM10V);
    for (size_t i = 0; i < around.calls.size(); i++) {
        for (const uint64_t until = around.calls[i].at.value() / tick().value(); ticks < until;) {
            pmc330_advance(&beside.board, 1);
            beside.see(sc_core::SC_ZERO_TIME, ++ticks);
        }
        make(beside.board, around.calls[i]);
        beside.see(around.calls[i].at, ticks);
        if (next < around.dumps.size() && around.dumps[next].first == i + 1)
            beside.dumped(around.dumps[next++].second);
    }
    must(next == around.dumps.size(), "each dump is compared");
    must(beside.movements == around.movements, "the request line moves at these times, and no others");
}

static bool is_made(uint32_t range) {
    try {
        pmc330_tlm board("board_of_a_range", range);
        return true;
    } catch (const sc_core::sc_report &) {
        return false;
    }
}

int sc_main(int count, char **) {
    if (count > 1) {
        sc_core::sc_report_handler::set_actions(sc_core::SC_ID_DEFAULT_TIME_UNIT_CHANGED_, sc_core::SC_DO_NOTHING);
        sc_core::sc_set_time_resolution(10, SC_NS);
        must(!is_made(PMC330_RANGE_PM10V), "there is no board where 125 ns are none");
        return 0;
    }
    must(!is_made(4), "there is no board of range 4");
    sc_core::sc_signal<bool> request("request"), reset("reset");
    pmc330_tlm board("board", PMC330_RANGE_PM10V);
    bench around("bench", board);
    around.socket.bind(board.socket);
    board.request(request);
    around.request(request);
    board.reset(reset);
    around.reset(reset);
    sc_core::sc_start();
    unsigned numbers[11] = {0};
    const unsigned accesses = compare_with_player(around.calls, numbers);
    compare_with_plain(around);
    for (unsigned number = 0; number <= 10; number++)
        must(numbers[number] > 0 || number == 4, "each refusal of an access comes up");
    must(around.movements.size() > 100, "the request line moves");
    std::printf("%u accesses as the player answers them, %u refused; the request line moved %zu times; %zu dumps\n", accesses,
                accesses - numbers[0], around.movements.size(), around.dumps.size());
    return 0;
}
