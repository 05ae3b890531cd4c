/* Messages on a bus of 31 terminals: buses MESSAGES. Each tells a terminal in turn to receive or to transmit 16 words. */
#include "rt1553.h"

#include <stdio.h>

enum { WORDS = 16 };

static rt1553_event word(uint8_t sync, unsigned bits) {
    rt1553_event event = rt1553_event_of(RT1553_WORD);
    event.sync = sync;
    event.parity = RT1553_RIGHT_PARITY;
    event.bits = (uint16_t)bits;
    return event;
}

int main(int count, char **arguments) {
    rt1553_bus *bus;
    rt1553_fault fault;
    static rt1553_message came;
    rt1553_event words[WORDS + 1];
    size_t sent = 0;
    if (count != 2 || rt1553_bus_new(&bus, &fault) != RT1553_DONE)
        return 1;
    for (int address = 0; address < RT1553_MOST_TERMINALS; address++) {
        char text[128];
        rt1553_terminal *terminal;
        int length = snprintf(text, sizeof text, "address = %d\n[[rule]]\ndirection = \"both\"\nsubaddresses = 3\n", address);
        if (rt1553_terminal_new((const uint8_t *)text, (size_t)length, &terminal, &fault) != RT1553_DONE
            || rt1553_bus_join(bus, terminal) != RT1553_DONE)
            return 1;
        rt1553_terminal_free(terminal);
    }
    for (int k = 1; k <= WORDS; k++)
        words[k] = word(RT1553_DATA_SYNC, (unsigned)k);
    for (long number = 0, messages = atol(arguments[1]); number < messages; number++) {
        unsigned transmit = number & 1, address = (unsigned)(number / 2 % RT1553_MOST_TERMINALS);
        words[0] = word(RT1553_COMMAND_SYNC, address << 11 | transmit << 10 | 3 << 5 | WORDS);
        if (rt1553_bus_message(bus, words, transmit ? 1 : WORDS + 1, &came) != RT1553_DONE)
            return 1;
        sent += came.sent_count;
    }
    rt1553_bus_free(bus);
    printf("%zu\n", sent);
    return 0;
}
