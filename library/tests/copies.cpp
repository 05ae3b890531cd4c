// Copies and saved states of terminals, and buses of terminals, by rt1553.hpp. The last line is 'N passed, M failed'.
#include "rt1553.hpp"

#include <cstdio>
#include <stdexcept>
#include <type_traits>
#include <utility>
#include <vector>

namespace {

int passed, failed;

void row(const char *name, bool holds) {
    ++(holds ? passed : failed);
    if (!holds)
        std::printf("FAILED: %s\n", name);
}

constexpr std::string_view profile = R"(
    address = 5
    [[rule]]
    direction = "transmit"
    subaddresses = 3
    counts = 2
)";

// a terminal whose reply of a status word and two data words begins at the next slot
rt1553::terminal replying() {
    rt1553::terminal terminal(profile);
    terminal.write(3, 2, 0xbb);
    terminal.word(rt1553::bus::a, rt1553::sync::command, 0x2c62);
    terminal.gap(rt1553::bus::a);
    return terminal;
}

// what a terminal sends up to the first slot in which it sends nothing
std::vector<std::uint16_t> sent(rt1553::terminal &terminal) {
    std::vector<std::uint16_t> words;
    for (auto answer = terminal.slot(); answer; answer = terminal.slot())
        words.push_back(answer.bits());
    return words;
}

const std::vector<std::uint16_t> written{0x2800, 0, 0xbb}, another{0x2800, 0, 0xcc};

void copies() {
    rt1553::terminal terminal = replying(), copy = terminal, other(profile);
    copy.write(3, 2, 0xcc);
    row("a copy goes its own way", sent(copy) == another && sent(terminal) == written);
    terminal = replying();
    other = terminal;
    other.write(3, 2, 0xcc);
    row("so does what was assigned", sent(other) == another && sent(terminal) == written);
    terminal = replying();
    const rt1553::terminal &same = terminal;
    terminal = same;
    row("assigned to itself", sent(terminal) == written);
    std::vector<rt1553::terminal> many(3, replying());
    many.push_back(many.front());
    many.front() = rt1553::terminal(profile);
    many.erase(many.begin() + 1);
    row("in a vector", many.size() == 3 && sent(many[0]).empty() && sent(many[1]) == written && sent(many[2]) == written);
    static_assert(std::is_nothrow_move_constructible_v<rt1553::terminal> && std::is_nothrow_move_assignable_v<rt1553::terminal>);
}

void moved() {
    rt1553::terminal terminal = replying(), taken = std::move(terminal), copy(terminal);
    row("what was moved", sent(taken) == written);
    taken = terminal;
    terminal = replying();
    row("moved from, and assigned to", sent(terminal) == written);
    copy = terminal;
    copy = std::move(terminal);
    terminal = copy;
    taken = copy;
    std::swap(copy, taken);
    row("moved, assigned and swapped", sent(taken).empty() && sent(copy).empty() && sent(terminal).empty());
}

void states() {
    rt1553::terminal terminal = replying();
    std::string state = terminal.save();
    rt1553::terminal restored = rt1553::terminal::restore(state);
    row("saved and restored", restored.save() == state && terminal.save() == state);
    row("and goes on alike", sent(restored) == written && sent(terminal) == written && restored.save() == terminal.save());
    for (std::string_view bytes : {std::string_view(), std::string_view("\0", 1), std::string_view("rt1553-state 2\n"), profile}) {
        try {
            rt1553::terminal::restore(bytes);
            row("no saved state", false);
        } catch (const rt1553::refused &fault) {
            row("no saved state", fault.kind == RT1553_OF_STATE && fault.number == 1 && fault.line == 1
                                      && fault.what() == std::string("saved state: line 1"));
        }
    }
    try {
        restored = rt1553::terminal::restore(state + '\n');
        row("a byte too many", false);
    } catch (const rt1553::refused &fault) {
        row("a byte too many", fault.number == 2 && fault.line == 0 && fault.what() == std::string("saved state: bytes after the end"));
    }
    row("nothing was assigned", sent(restored).empty());
}

// the words that the terminals of a bus send up to the first slot in which they send nothing
std::vector<std::uint16_t> sent(rt1553::terminal_bus &bus) {
    std::vector<std::uint16_t> words;
    for (bus.play(rt1553_event_of(RT1553_SLOT)); bus.size() > 0; bus.play(rt1553_event_of(RT1553_SLOT)))
        words.push_back(bus.address(0) == 5 ? bus.answer(0).bits() : 0xffff);
    return words;
}

template <typename F> bool is_invalid(F call) {
    try {
        call();
    } catch (const std::invalid_argument &) {
        return true;
    }
    return false;
}

void buses() {
    rt1553::terminal five = replying();
    rt1553::terminal_bus bus;
    bus.join(five);
    bus.join(rt1553::terminal("address = 6"));
    row("an address that is taken", is_invalid([&] { bus.join(five); }));
    rt1553::terminal_bus copy = bus, other;
    rt1553_event write = rt1553_event_of(RT1553_WRITE);
    write.subaddress = 3;
    write.number = 2;
    write.bits = 0xcc;
    copy.play(write, 5);
    other = copy;
    row("a copy of a bus goes its own way", sent(copy) == another && sent(bus) == written && sent(five) == written);
    row("so does what was assigned", sent(other) == another);
    row("no event for all", is_invalid([&] { bus.play(write); }));
    row("no terminal 7", is_invalid([&] { bus.play(write, 7); }));
    rt1553_event words[] = {rt1553_event_of(RT1553_WORD), rt1553_event_of(RT1553_SLOT)};
    words[0].parity = RT1553_RIGHT_PARITY;
    words[0].bits = 0x3402;
    rt1553_message came = bus.message(words, 1);
    row("a message", came.sent_count == 1 && came.sent[0].address == 6 && came.sent[0].bits == 0x3000 && came.handed_count == 0);
    row("a slot in a message", is_invalid([&] { bus.message(words, 2); }));
    const std::string state = copy.save();
    row("a saved bus is restored", rt1553::terminal_bus::restore(state).save() == state);
    row("a terminal of a bus", copy.at(1).save() == rt1553::terminal_bus::restore(state).at(1).save());
    try {
        copy.at(2);
        row("no terminal there", false);
    } catch (const std::out_of_range &) {
        row("no terminal there", true);
    }
    try {
        copy = rt1553::terminal_bus::restore(state + '\n');
        row("a byte too many for a bus", false);
    } catch (const rt1553::refused &fault) {
        row("a byte too many for a bus", fault.number == 2 && fault.line == 0 && copy.save() == state);
    }
    row("no collision", !bus.collided(rt1553::bus::a) && !bus.collided(rt1553::bus::b));
    rt1553::terminal_bus moved = std::move(bus), empty = bus;
    row("a bus that was moved", moved.message(words, 1).sent_count == 1);
    bus = moved;
    row("is assigned to", bus.message(words, 1).sent_count == 1);
}

} // namespace

int main() {
    copies();
    moved();
    states();
    buses();
    std::printf("%d passed, %d failed\n", passed, failed);
    return failed > 0;
}
