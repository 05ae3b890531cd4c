// A terminal is asked for two words.
#include "rt1553.hpp"

#include <cstdio>

int main() {
    try {
        rt1553::terminal terminal(R"(
            address = 5
            [[rule]]
            direction = "transmit"
            subaddresses = 3
            counts = 2
            [[initial]]
            subaddress = 3
            words = [0x11, 0x22]
        )");
        terminal.word(rt1553::bus::a, rt1553::sync::command, 0x2c62);
        terminal.gap(rt1553::bus::a);
        // the reply: in each slot a word, till there are no more
        for (auto answer = terminal.slot(); answer; answer = terminal.slot())
            std::printf("%c %c %04x\n", "AB"[answer.on() == rt1553::bus::b], "sd"[answer.kind() == rt1553::sync::data],
                        answer.bits());
    } catch (const rt1553::refused &fault) {
        std::fprintf(stderr, "%s\n", fault.what());
        return 1;
    }
}
