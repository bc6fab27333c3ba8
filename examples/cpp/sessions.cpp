// Two sessions and the board: the script under "Several sessions and the board" in docs/SCRIPTS.md. It prints its
// replies, and then tries all else that the wrapper has. At a fault it names the line, and exits 1.
#include "metroheap.hpp"

#include <cstdlib>
#include <iostream>

#define CHECK(condition) \
    do { \
        if (!(condition)) { \
            std::cerr << "sessions: line " << __LINE__ << ": " #condition "\n"; \
            std::exit(1); \
        } \
    } while (false)

// Whether a call throws this.
template <class Thrown, class Call> static bool throws(Call call) {
    try {
        call();
    } catch (const Thrown &) {
        return true;
    }
    return false;
}

static void moves(Metroheap &first) {
    Metroheap second = std::move(first);
    CHECK(throws<std::logic_error>([&] { first.line("* stat"); }));
    CHECK(second.line("# a comment").empty() && second.last_text() == "number 5" && second.dump().size() == 2);
    first = std::move(second);
    CHECK(first.line("b read 1 0\n") == "number 5" && throws<std::logic_error>([&] { second.last_reply(); }));
}

static void errors(Metroheap &heap) {
    CHECK(throws<std::invalid_argument>([] { Metroheap(4, 208, 0, 0); }));
    CHECK(throws<std::invalid_argument>([] { MetroheapWorld(3); }));
    CHECK(throws<std::logic_error>([] { Metroheap(4, 209, 0, 0).last_text(); }));
    CHECK(throws<std::invalid_argument>([&] { heap.step(metroheap_control(19, 0)); }));
    CHECK(Metroheap::reason("b read 1 0").empty() && Metroheap::reason({}).empty());
    try {
        heap.line("b reads 1 0");
        CHECK(false);
    } catch (const std::invalid_argument &error) {
        CHECK(error.what() == std::string("\"reads\" is no command"));
        CHECK(Metroheap::reason("b reads 1 0") == error.what());
    }
}

// Texts that are longer than the first buffer.
static void long_texts() {
    Metroheap heap(4096, 209, 0, 0);
    for (int i = 0; i < 100; i++) {
        heap.line("a new 0 0 60");
    }
    std::string dump = heap.line("* dump"), word(200, 'x');
    CHECK(dump.size() > 500 && heap.last_text() == dump && heap.last_reply().numbers[0] == 125);
    CHECK(Metroheap::reason("a " + word).size() > 80 && Metroheap::reason("a " + word).size() < 120);
}

static void sights() {
    Metroheap heap(4, 1000, 0, 0);
    CHECK(throws<std::logic_error>([&] { heap.deeds(); }));
    heap.tell(true);
    CHECK(heap.line("a new 0 0 61") == "ok" && heap.deeds().size() == 3);
    CHECK(heap.deeds().at(2).kind == METROHEAP_DEED_MAKE);
    metroheap_units units = heap.last_units();
    CHECK(units.at == 0 && units.mutator == 3 && units.collector == 0 && units.ran == 0);
    CHECK(units.phase == METROHEAP_PHASE_IDLE);
    heap.step(metroheap_control(METROHEAP_EVENT_START, 0));
    CHECK(heap.deeds().empty());
    CHECK(heap.step(metroheap_control(METROHEAP_EVENT_QUANTUM, 0)).kind == METROHEAP_REPLY_SPENT);
    std::uint64_t spent = 0;
    for (const metroheap_deed &deed : heap.deeds()) {
        spent += deed.units;
    }
    CHECK(spent == heap.last_reply().numbers[0] && spent == heap.last_units().collector && heap.last_units().at == 3);
    heap.tell(false);
    CHECK(heap.see_stat().numbers[METROHEAP_STAT_CYCLE] == 1 && heap.see_left().kind == METROHEAP_REPLY_LEFT);
    CHECK(heap.last_reply().kind == METROHEAP_REPLY_SPENT && heap.line("* left") == "left 0");
    CHECK(throws<std::logic_error>([&] { heap.deeds(); }));
}

static void traces() {
    Metroheap heap(16, 400, 8, 40);
    heap.reserve(3);
    CHECK(throws<std::bad_alloc>([&] { heap.reserve(SIZE_MAX); }));
    heap.step(metroheap_command(METROHEAP_EVENT_NEW, 0, 0, 0, 2340));
    metroheap_reply report = heap.see_report(420);
    CHECK(report.numbers[METROHEAP_REPORT_MUTATOR] == 40 && report.numbers[METROHEAP_REPORT_QUANTA] == 1);
    CHECK(heap.last_reply().kind == METROHEAP_REPLY_OK);
    CHECK(!heap.judge(metroheap_control(METROHEAP_EVENT_REPORT, 420), report) && heap.last_units().at == 440);
    heap.forget();
    report = heap.see_report(420);
    CHECK(report.numbers[METROHEAP_REPORT_MUTATOR] == 0 && report.numbers[METROHEAP_REPORT_QUANTA] == 0);
    CHECK(report.numbers[METROHEAP_REPORT_HAS_LEAST] == 0 && report.numbers[METROHEAP_REPORT_FLOOR] == 20);
    heap.step(metroheap_command(METROHEAP_EVENT_SHAPE, 0, 0, 0, 0));
    CHECK(heap.last_text() == "shape 0 2340" && heap.last_units().at == 0);
}

static void judging() {
    MetroheapWorld world;
    metroheap_event made = metroheap_command(METROHEAP_EVENT_NEW, 0, 0, 0, 1);
    metroheap_event shape = metroheap_command(METROHEAP_EVENT_SHAPE, 0, 0, 0, 0);
    metroheap_reply ok = {METROHEAP_REPLY_OK, {}}, full = {METROHEAP_REPLY_REFUSED, {METROHEAP_REFUSED_HEAP_FULL}};
    CHECK(!world.judge(made, full) && world.line("a shape 0") == "refused 2 null");
    CHECK(!world.judge(made, ok) && world.judge(shape, ok)->kind == METROHEAP_REPLY_SHAPE);
    CHECK(world.step(shape).numbers[1] == 1);
    CHECK(throws<std::logic_error>([&] { world.line("* stat"); }));
    Metroheap heap(4, 209, 0, 0);
    CHECK(heap.judge(made, full)->kind == METROHEAP_REPLY_OK && !heap.judge(made, ok));
}

int main() {
    Metroheap heap(4, 1000, 0, 0);
    for (auto line : {"a new 0 0 1", "a write 0 0 5", "a post 3 0", "b read 0 0", "b take 1 3", "b read 1 0", "a end",
                      "a clear 0", "b read 1 0"}) {
        std::cout << heap.line(line) << '\n';
    }
    moves(heap);
    errors(heap);
    long_texts();
    sights();
    traces();
    judging();
    return 0;
}
