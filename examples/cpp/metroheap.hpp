// A wrapper in C++ over metroheap.h: machines and worlds that their owners free. What isn't done is thrown:
//
//   std::invalid_argument   numbers are no configuration, a line or numbers are no event; of a line what() says why
//   std::length_error       as many events were done as may be
//   std::bad_alloc          memory was refused
//   std::logic_error        the machine was moved away, has done no event yet, kept no deeds, or is a world
//   std::runtime_error      the header is not that of the library
#ifndef METROHEAP_HPP
#define METROHEAP_HPP

#include "metroheap.h"

#include <cstddef>
#include <cstdint>
#include <new>
#include <optional>
#include <stdexcept>
#include <string>
#include <string_view>
#include <utility>
#include <vector>

// What a machine and a world have alike. It is moved and not copied, and one thread at a time uses it.
class MetroheapSessions {
public:
    MetroheapSessions(const MetroheapSessions &) = delete;
    MetroheapSessions &operator=(const MetroheapSessions &) = delete;

    // The text of the reply to a line of a script; empty for a blank line.
    std::string line(std::string_view line) {
        std::string reply(64, '\0');
        std::size_t written = 0;
        std::int32_t status = metroheap_line(&heap_, bytes(line), line.size(), reply.data(), reply.size(), &written);
        if (status == METROHEAP_WRONG) {
            throw std::invalid_argument(reason(line));
        }
        if (status == METROHEAP_SHORT) {
            // The event was done, so its text is asked for again, and not the line.
            return last_text(written);
        }
        if (status != METROHEAP_BLANK) {
            checks(status);
        }
        reply.resize(written);
        return reply;
    }

    // The text of the last reply.
    std::string last_text() { return last_text(64); }

    // The reply to an event.
    metroheap_reply step(const metroheap_event &event) {
        metroheap_reply reply{};
        checks(metroheap_step(&heap_, &event, &reply));
        return reply;
    }

    metroheap_reply last_reply() {
        metroheap_reply reply{};
        checks(metroheap_last_reply(&heap_, &reply));
        return reply;
    }

    // Does an event, and judges the reply that another collector gave to it. Nothing, or what is right if that isn't.
    std::optional<metroheap_reply> judge(const metroheap_event &event, const metroheap_reply &given) {
        metroheap_reply right{};
        std::int32_t status = metroheap_judge(&heap_, &event, &given, &right);
        if (status == METROHEAP_DIFFERS) {
            return right;
        }
        checks(status);
        return std::nullopt;
    }

    // Why a line is no event; empty if it is one, or blank.
    static std::string reason(std::string_view line) {
        std::string why(80, '\0');
        std::size_t written = 0;
        std::int32_t status = metroheap_reason(bytes(line), line.size(), why.data(), why.size(), &written);
        if (status == METROHEAP_SHORT) {
            why.resize(written);
            status = metroheap_reason(bytes(line), line.size(), why.data(), why.size(), &written);
        }
        if (status != METROHEAP_BLANK && status != METROHEAP_NO_ITEM) {
            checks(status);
        }
        why.resize(written);
        return why;
    }

protected:
    metroheap heap_ METROHEAP_INIT;

    MetroheapSessions() {
        if (metroheap_version() != METROHEAP_VERSION_NUMBER) {
            throw std::runtime_error("the header is not that of the library");
        }
    }

    MetroheapSessions(MetroheapSessions &&other) noexcept
        : heap_(std::exchange(other.heap_, metroheap METROHEAP_INIT)) {}

    MetroheapSessions &operator=(MetroheapSessions &&other) noexcept {
        std::swap(heap_, other.heap_);
        return *this;
    }

    ~MetroheapSessions() { metroheap_close(&heap_); }

    static void checks(std::int32_t status) {
        switch (status) {
        case METROHEAP_DONE:
            return;
        case METROHEAP_WRONG:
        case METROHEAP_BAD_CONFIG:
            throw std::invalid_argument(metroheap_status_text(status));
        case METROHEAP_FULL:
            throw std::length_error(metroheap_status_text(status));
        case METROHEAP_NO_MEMORY:
        case METROHEAP_NO_TEXT:
            throw std::bad_alloc();
        default:
            throw std::logic_error(metroheap_status_text(status));
        }
    }

private:
    std::string last_text(std::size_t room) {
        std::string text(room, '\0');
        std::size_t written = 0;
        std::int32_t status = metroheap_last_text(&heap_, text.data(), text.size(), &written);
        if (status == METROHEAP_SHORT) {
            text.resize(written);
            status = metroheap_last_text(&heap_, text.data(), text.size(), &written);
        }
        checks(status);
        text.resize(written);
        return text;
    }

    // The bytes of a line, whose pointer is never null.
    static const char *bytes(std::string_view line) { return line.empty() ? "" : line.data(); }
};

// A world: the heap that never collects.
class MetroheapWorld : public MetroheapSessions {
public:
    explicit MetroheapWorld(std::uint32_t rules = 2) { checks(metroheap_open_world(&heap_, rules)); }
};

// A machine of a configuration.
class Metroheap : public MetroheapSessions {
public:
    Metroheap(std::uint32_t pages, std::uint32_t quantum, std::uint32_t trigger, std::uint32_t every,
              std::uint32_t rules = 2) {
        checks(metroheap_open(&heap_, pages, quantum, trigger, every, rules));
    }

    // The items of a dump, which is an event.
    std::vector<metroheap_item> dump() {
        std::vector<metroheap_item> items(step(metroheap_control(METROHEAP_EVENT_DUMP, 0)).numbers[0]);
        for (std::size_t i = 0; i < items.size(); i++) {
            checks(metroheap_dump_item(&heap_, i, &items[i]));
        }
        return items;
    }

    // What `* stat`, `* left` and `* report WINDOW` would answer now. They are no events.
    metroheap_reply see_stat() { return sees(metroheap_see_stat); }
    metroheap_reply see_left() { return sees(metroheap_see_left); }
    metroheap_reply see_report(std::uint64_t window) {
        metroheap_reply reply{};
        checks(metroheap_see_report(&heap_, window, &reply));
        return reply;
    }

    // Makes room for the next `events` events, and for as many each time that the trace is forgotten. Then memory is
    // refused for none of them, unless it is a dump. It may be refused for their texts and deeds.
    void reserve(std::size_t events) { checks(metroheap_reserve(&heap_, events)); }

    // Forgets the trace, from which reports count on then.
    void forget() { checks(metroheap_forget(&heap_)); }

    // What the last event added to the trace.
    metroheap_units last_units() {
        metroheap_units units{};
        checks(metroheap_last_units(&heap_, &units));
        return units;
    }

    // Whether events keep their deeds, from the next one on.
    void tell(bool tells) { checks(metroheap_tell(&heap_, tells ? 1 : 0)); }

    // The deeds of the last event. That they weren't kept, or that memory was refused for one, is a std::logic_error.
    std::vector<metroheap_deed> deeds() {
        std::vector<metroheap_deed> deeds;
        metroheap_deed deed{};
        std::int32_t status;
        while ((status = metroheap_deed_item(&heap_, deeds.size(), &deed)) == METROHEAP_DONE) {
            deeds.push_back(deed);
        }
        if (status != METROHEAP_NO_ITEM) {
            checks(status);
        }
        return deeds;
    }

private:
    metroheap_reply sees(std::int32_t (*call)(metroheap *, metroheap_reply *)) {
        metroheap_reply reply{};
        checks(call(&heap_, &reply));
        return reply;
    }
};

#endif
