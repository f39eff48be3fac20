// Empty C++ vectors have a NULL pointer and length 0: every call takes them, and answers as for any other length.
#include <lesungkap.h>
#include <lesungkap_tape.h>

#include <cstdio>
#include <vector>

static int faults = 0;

static void expect(unsigned answer, uint32_t result, const char *what)
{
    if (lesungkap_answer(result) != answer) {
        std::printf("%s: answer %u, not %u\n", what, lesungkap_answer(result), answer);
        faults++;
    }
}

int main()
{
    std::vector<uint8_t> none, state(LESUNGKAP_STATE_BYTES), memory(64), ack(LESUNGKAP_ACK_BYTES), calls, answers;
    if (none.data() != nullptr) {
        std::printf("an empty vector's pointer is not NULL here\n");
    }
    expect(LESUNGKAP_BAD_STATE, lesungkap_reset(none.data(), none.size(), 64), "reset of no state");
    expect(LESUNGKAP_DONE, lesungkap_reset(state.data(), state.size(), memory.size()), "reset");
    expect(LESUNGKAP_BAD_STATE, lesungkap_control(nullptr, 0, nullptr, 0, nullptr, 0), "control of nothing");
    expect(LESUNGKAP_BUFFER_TOO_SHORT, lesungkap_control(state.data(), state.size(), nullptr, 0, nullptr, 0), "control without ack");
    expect(LESUNGKAP_RECORD_LENGTH, lesungkap_control(state.data(), state.size(), none.data(), 0, ack.data(), ack.size()), "no command");
    // A page list of no entries, too: it is refused for its record, and for its count where the record is a registration.
    std::vector<uint64_t> pages;
    std::vector<uint8_t> registration(LESUNGKAP_COMMAND_MOST_BYTES), pd(LESUNGKAP_CREATE_PD_BYTES);
    const struct lesungkap_register_mr data = {0, 0, 0, 1, 0};
    const size_t length = lesungkap_put_register_mr(registration.data(), registration.size(), &data);
    expect(LESUNGKAP_BAD_STATE, lesungkap_register_pages(nullptr, 0, nullptr, 0, nullptr, 0, nullptr, 0), "page list of nothing");
    expect(LESUNGKAP_BUFFER_TOO_SHORT,
           lesungkap_register_pages(state.data(), state.size(), nullptr, 0, pages.data(), pages.size(), none.data(), 0), "page list without ack");
    expect(LESUNGKAP_RECORD_LENGTH,
           lesungkap_register_pages(state.data(), state.size(), none.data(), 0, pages.data(), pages.size(), ack.data(), ack.size()),
           "page list without a command");
    lesungkap_put_create_pd(pd.data(), pd.size());
    expect(LESUNGKAP_DONE, lesungkap_control(state.data(), state.size(), pd.data(), pd.size(), ack.data(), ack.size()), "a domain");
    expect(LESUNGKAP_RANGE,
           lesungkap_register_pages(state.data(), state.size(), registration.data(), length, pages.data(), pages.size(), ack.data(), ack.size()),
           "an empty page list");
    expect(LESUNGKAP_BAD_STATE, lesungkap_post_send(nullptr, 0, nullptr, 0, 0, nullptr, 0), "post send of nothing");
    expect(LESUNGKAP_MEMORY_LENGTH, lesungkap_post_send(state.data(), state.size(), none.data(), 0, 0, none.data(), 0), "no memory");
    expect(LESUNGKAP_RECORD_LENGTH,
           lesungkap_post_send(state.data(), state.size(), memory.data(), memory.size(), 0, none.data(), 0), "no send record");
    expect(LESUNGKAP_BAD_STATE, lesungkap_enqueue(nullptr, 0, nullptr, 0, 0, nullptr, 0), "enqueue of nothing");
    expect(LESUNGKAP_MEMORY_LENGTH, lesungkap_enqueue(state.data(), state.size(), none.data(), 0, 0, none.data(), 0), "enqueue without memory");
    expect(LESUNGKAP_RECORD_LENGTH,
           lesungkap_enqueue(state.data(), state.size(), memory.data(), memory.size(), 0, none.data(), 0), "enqueue of no send record");
    expect(LESUNGKAP_BAD_STATE, lesungkap_turn(nullptr, 0, nullptr, 0), "turn of nothing");
    expect(LESUNGKAP_MEMORY_LENGTH, lesungkap_turn(state.data(), state.size(), none.data(), 0), "turn without memory");
    expect(LESUNGKAP_BAD_STATE, lesungkap_post_receive(nullptr, 0, 0, nullptr, 0), "post receive of nothing");
    expect(LESUNGKAP_RECORD_LENGTH, lesungkap_post_receive(state.data(), state.size(), 0, none.data(), 0), "no receive record");
    expect(LESUNGKAP_BAD_STATE, lesungkap_flush(none.data(), none.size(), 0), "flush of nothing");
    expect(LESUNGKAP_BAD_STATE, lesungkap_poll(nullptr, 0, 0, nullptr, 0), "poll of nothing");
    expect(LESUNGKAP_BUFFER_TOO_SHORT, lesungkap_poll(state.data(), state.size(), 0, none.data(), 0), "poll without buffer");

    // The puts, the gets and the peeks take them too, and so does a recorder without room.
    struct lesungkap_send send = {};
    send.flags = LESUNGKAP_FLAG_INLINE;
    std::vector<uint8_t> record(LESUNGKAP_SEND_BYTES);
    expect(0, static_cast<uint32_t>(lesungkap_put_send(none.data(), none.size(), &send)), "put into nothing");
    send.inline_bytes = none.data();
    expect(LESUNGKAP_SEND_BYTES & 255, static_cast<uint32_t>(lesungkap_put_send(record.data(), record.size(), &send)), "no inline bytes");
    expect(LESUNGKAP_RECORD_LENGTH, lesungkap_get_send(none.data(), none.size(), &send), "get out of nothing");
    expect(LESUNGKAP_BAD_STATE, lesungkap_peek_pd(none.data(), none.size(), 0), "peek at nothing");
    uint64_t page = 0;
    expect(LESUNGKAP_BAD_STATE, lesungkap_peek_page(none.data(), none.size(), 0, 0, &page), "peek at a page of nothing");
    struct lesungkap_recorder recorder = lesungkap_record_to_buffers(calls.data(), calls.size(), answers.data(), answers.size());
    expect(LESUNGKAP_NOT_LIVE, lesungkap_recorded_flush(&recorder, state.data(), state.size(), 0), "a recorded flush");
    expect(1, static_cast<uint32_t>(recorder.failed), "a recorder without room");
    return faults != 0;
}
