/* What rt1553.h says of a bus of terminals, that no clause says or that lies on C's side: layouts, statuses, what stays as it was,
   the calls in the header and whole messages. The last line is 'N passed, M failed'. */
#include "rows.h"

static rt1553_terminal *terminal_of(int address) {
    char text[256];
    rt1553_terminal *terminal = NULL;
    rt1553_fault fault;
    int length = snprintf(text, sizeof text, "address = %d\nbroadcast = true\n[[rule]]\nto = \"both\"\ndirection = \"both\"\n"
                                             "subaddresses = \"1-30\"\n", address);
    row("a terminal", rt1553_terminal_new((const uint8_t *)text, (size_t)length, &terminal, &fault) == RT1553_DONE);
    return terminal;
}

static void join(rt1553_bus *bus, int address) {
    rt1553_terminal *terminal = terminal_of(address);
    row("joins", rt1553_bus_join(bus, terminal) == RT1553_DONE);
    rt1553_terminal_free(terminal);
}

/* A bus with the terminals of these addresses. */
static rt1553_bus *bus_of(int first, int last) {
    rt1553_bus *bus = NULL;
    rt1553_fault fault = untouched();
    row("a bus is made", rt1553_bus_new(&bus, &fault) == RT1553_DONE && bus && is_untouched(&fault));
    for (int address = first; address <= last; address++)
        join(bus, address);
    return bus;
}

static rt1553_event word(uint8_t bus, uint8_t sync, uint16_t bits) {
    rt1553_event event = rt1553_event_of(RT1553_WORD);
    event.bus = bus;
    event.sync = sync;
    event.parity = RT1553_RIGHT_PARITY;
    event.bits = bits;
    return event;
}

static rt1553_event on(uint8_t what, uint8_t bus) {
    rt1553_event event = rt1553_event_of(what);
    event.bus = bus;
    return event;
}

static rt1553_event write_of(uint8_t number, uint16_t bits) {
    rt1553_event event = rt1553_event_of(RT1553_WRITE);
    event.subaddress = 3;
    event.number = number;
    event.bits = bits;
    return event;
}

static uint16_t command(int address, int transmit, int subaddress, int count) {
    return (uint16_t)(address << 11 | transmit << 10 | subaddress << 5 | (count & 31));
}

static void ask(rt1553_bus *bus, uint8_t over, uint16_t bits) {
    row("a command", rt1553_bus_play(bus, RT1553_FOR_ALL, word(over, RT1553_COMMAND_SYNC, bits)) == RT1553_DONE);
    row("none answers it", bus->count == 0);
    row("its gap", rt1553_bus_play(bus, RT1553_FOR_ALL, on(RT1553_GAP, over)) == RT1553_DONE);
}

/* Whether in the next slot just this terminal sends just this. */
static int sends(rt1553_bus *bus, int address, uint8_t what, uint16_t bits) {
    const rt1553_bus_answer *it = bus->answers;
    return rt1553_bus_play(bus, RT1553_FOR_ALL, rt1553_event_of(RT1553_SLOT)) == RT1553_DONE && bus->count == 1 && !bus->collided_a
           && !bus->collided_b && it->address == address && it->answer.what == what && it->answer.bits == bits;
}

static int is_silent(rt1553_bus *bus) {
    return rt1553_bus_play(bus, RT1553_FOR_ALL, rt1553_event_of(RT1553_SLOT)) == RT1553_DONE && bus->count == 0;
}

static void made(void) {
    rt1553_bus *bus = bus_of(0, -1);
    row("its front", bus->event.what == RT1553_WORD && bus->to == RT1553_FOR_ALL && bus->count == 0 && !bus->collided_a
                         && !bus->collided_b);
    row("nobody answers", is_silent(bus));
    rt1553_bus_free(bus);
    rt1553_bus_free(NULL);
}

static void joined(void) {
    uint8_t state[RT1553_STATE_ROOM], again[RT1553_STATE_ROOM];
    size_t length = 0, other = 0;
    rt1553_fault fault;
    rt1553_bus *bus = bus_of(6, 7);
    rt1553_terminal *five = terminal_of(5);
    rt1553_write(five, 3, 1, 0xbb);
    rt1553_word(five, RT1553_BUS_A, RT1553_COMMAND_SYNC, command(5, 1, 3, 1));
    rt1553_gap(five, RT1553_BUS_A);
    rt1553_slot(five);
    rt1553_terminal front = *five;
    rt1553_terminal_save(five, state, sizeof state, &length, &fault);
    bus->event = write_of(1, 0x1234);
    rt1553_bus before = *bus;
    row("a terminal joins in the middle of its reply", rt1553_bus_join(bus, five) == RT1553_DONE);
    row("the front of the bus stays", memcmp(&before, bus, sizeof before) == 0);
    row("and that of the terminal", memcmp(&front, five, sizeof front) == 0);
    row("it sends the rest there", sends(bus, 5, RT1553_SENDS_DATA, 0xbb) && is_silent(bus));
    rt1553_terminal_save(five, again, sizeof again, &other, &fault);
    row("the terminal stays as it was", other == length && memcmp(state, again, length) == 0);
    row("and sends it itself", rt1553_slot(five) == RT1553_DONE && five->answer.bits == 0xbb);
    before = *bus;
    row("its address is taken", rt1553_bus_join(bus, five) == RT1553_REFUSED);
    row("nothing changes", memcmp(&before, bus, sizeof before) == 0);
    ask(bus, RT1553_BUS_A, command(5, 1, 0, 2));
    row("one alone answers", sends(bus, 5, RT1553_SENDS_STATUS, 0x2800) && is_silent(bus));
    rt1553_terminal_free(five);
    row("the bus goes on when the terminal is freed", is_silent(bus));
    rt1553_bus_free(bus);
}

static void full(void) {
    rt1553_bus *bus = bus_of(0, 30);
    for (int address = 0; address <= 30; address++) {
        rt1553_terminal *more = terminal_of(address);
        row("no more join", rt1553_bus_join(bus, more) == RT1553_REFUSED);
        rt1553_terminal_free(more);
    }
    for (int address = 0; address <= 30; address++) {
        ask(bus, RT1553_BUS_B, command(address, 1, 0, 2));
        row("each answers", sends(bus, address, RT1553_SENDS_STATUS, (uint16_t)(address << 11)) && bus->answers[0].answer.bus == 1);
        row("no more words", is_silent(bus));
    }
    rt1553_bus_play(bus, RT1553_FOR_ALL, word(RT1553_BUS_A, RT1553_COMMAND_SYNC, command(31, 0, 3, 1)));
    rt1553_bus_play(bus, RT1553_FOR_ALL, word(RT1553_BUS_A, RT1553_DATA_SYNC, 0xabcd));
    rt1553_bus_play(bus, RT1553_FOR_ALL, on(RT1553_GAP, RT1553_BUS_A));
    row("a broadcast is handed over by all", bus->count == 31);
    for (int k = 0; k < 31; k++) {
        const rt1553_bus_answer *it = &bus->answers[k];
        row("in their order", it->address == k && it->answer.what == RT1553_HANDS_RECEIVED && it->answer.broadcast
                                  && it->answer.count == 1 && it->answer.words[0] == 0xabcd);
    }
    rt1553_bus_free(bus);
}

/* Terminal 6 receives in a transfer what terminal 5 transmits, event by event. */
static void transferred(void) {
    rt1553_bus *bus = bus_of(5, 6);
    row("a word is written", rt1553_bus_play(bus, 5, write_of(1, 0x00bb)) == RT1553_DONE && bus->count == 0);
    rt1553_bus_play(bus, RT1553_FOR_ALL, word(RT1553_BUS_A, RT1553_COMMAND_SYNC, command(6, 0, 3, 1)));
    ask(bus, RT1553_BUS_A, command(5, 1, 3, 1));
    row("the transmitter", sends(bus, 5, RT1553_SENDS_STATUS, 0x2800) && sends(bus, 5, RT1553_SENDS_DATA, 0xbb) && is_silent(bus));
    rt1553_bus_play(bus, RT1553_FOR_ALL, on(RT1553_GAP, RT1553_BUS_A));
    row("handed over", bus->count == 1 && bus->answers[0].address == 6 && bus->answers[0].answer.words[0] == 0xbb);
    row("the receiver", sends(bus, 6, RT1553_SENDS_STATUS, 0x3000) && is_silent(bus));
    rt1553_bus_free(bus);
}

static void collisions(void) {
    rt1553_bus *bus = bus_of(5, 7);
    ask(bus, RT1553_BUS_B, command(5, 1, 0, 2));
    ask(bus, RT1553_BUS_B, command(6, 1, 0, 2));
    rt1553_bus_play(bus, RT1553_FOR_ALL, rt1553_event_of(RT1553_SLOT));
    row("two send at once", bus->count == 2 && bus->collided_b && !bus->collided_a);
    row("and then none", is_silent(bus) && !bus->collided_b);
    ask(bus, RT1553_BUS_A, command(5, 1, 0, 2));
    ask(bus, RT1553_BUS_B, command(6, 1, 0, 2));
    rt1553_bus_play(bus, RT1553_FOR_ALL, rt1553_event_of(RT1553_SLOT));
    row("on two buses they don't collide", bus->count == 2 && !bus->collided_a && !bus->collided_b);
    rt1553_bus_free(bus);
}

/* Numbers that mean nothing are refused, and change nothing. */
static void refused_events(void) {
    static const struct {
        uint8_t to;
        rt1553_event event;
    } bad[] = {
        {RT1553_FOR_ALL, {.what = 8}},
        {RT1553_FOR_ALL, {.what = RT1553_GAP, .bus = 2}},
        {RT1553_FOR_ALL, {.what = RT1553_WRITE, .subaddress = 1, .number = 1}},
        {RT1553_FOR_ALL, {.what = RT1553_FLAG}},
        {7, {.what = RT1553_FLAG}},
        {31, {.what = RT1553_FLAG}},
        {254, {.what = RT1553_SLOT}},
        {5, {.what = RT1553_WRITE, .subaddress = 31, .number = 1}},
    };
    rt1553_bus *bus = bus_of(5, 6);
    ask(bus, RT1553_BUS_A, command(5, 1, 3, 1));
    row("a status", sends(bus, 5, RT1553_SENDS_STATUS, 0x2800));
    for (size_t i = 0; i < sizeof bad / sizeof *bad; i++) {
        bus->to = bad[i].to;
        bus->event = bad[i].event;
        rt1553_bus before = *bus;
        row("nothing that can happen", rt1553_bus_step(bus) == RT1553_REFUSED && memcmp(&before, bus, sizeof before) == 0);
    }
    row("the reply goes on", sends(bus, 5, RT1553_SENDS_DATA, 0));
    rt1553_bus_free(bus);
}

static void copies(void) {
    rt1553_fault fault = untouched();
    rt1553_bus *bus = bus_of(5, 6), *copy = NULL, *last = NULL;
    ask(bus, RT1553_BUS_A, command(5, 1, 3, 2));
    row("a status", sends(bus, 5, RT1553_SENDS_STATUS, 0x2800));
    row("a copy", rt1553_bus_copy(bus, &copy, &fault) == RT1553_DONE && copy && copy != bus && is_untouched(&fault));
    row("with the same front", memcmp(copy, bus, sizeof *bus) == 0);
    rt1553_bus_play(copy, 5, write_of(1, 0x00cc));
    row("a copy of the copy", rt1553_bus_copy(copy, &last, &fault) == RT1553_DONE);
    row("neither knows of the other", sends(copy, 5, RT1553_SENDS_DATA, 0xcc) && sends(bus, 5, RT1553_SENDS_DATA, 0));
    rt1553_bus_free(bus);
    rt1553_bus_free(copy);
    row("nor that the others are freed", sends(last, 5, RT1553_SENDS_DATA, 0xcc));
    join(last, 7);
    rt1553_bus_free(last);
}

/* A terminal of a bus goes on alone as it does there. */
static void taken(void) {
    rt1553_fault fault = untouched();
    rt1553_bus *bus = bus_of(5, 6);
    rt1553_terminal *terminal = NULL, *none = NULL;
    ask(bus, RT1553_BUS_A, command(6, 1, 3, 1));
    row("a status of 6", sends(bus, 6, RT1553_SENDS_STATUS, 0x3000));
    row("the second that joined", rt1553_bus_terminal(bus, 1, &terminal, &fault) == RT1553_DONE && is_untouched(&fault));
    row("nothing was asked of it", terminal->event.what == RT1553_WORD && terminal->answer.what == RT1553_SILENT);
    rt1553_write(terminal, 3, 1, 0x00cc);
    row("it goes on", rt1553_slot(terminal) == RT1553_DONE && terminal->answer.what == RT1553_SENDS_DATA && terminal->answer.bits == 0xcc);
    row("and so does the bus", sends(bus, 6, RT1553_SENDS_DATA, 0));
    for (size_t place = 2; place < 40; place++)
        row("nobody there", rt1553_bus_terminal(bus, place, &none, &fault) == RT1553_REFUSED && !none && is_untouched(&fault));
    row("far away", rt1553_bus_terminal(bus, SIZE_MAX, &none, &fault) == RT1553_REFUSED && !none && is_untouched(&fault));
    rt1553_terminal_free(terminal);
    rt1553_bus_free(bus);
}

/* A bus is saved while a reply is in progress, and restored. */
static void saved(void) {
    static uint8_t state[RT1553_BUS_STATE_ROOM], again[RT1553_BUS_STATE_ROOM];
    rt1553_fault fault = untouched();
    rt1553_bus *bus = bus_of(0, 30), *restored = NULL;
    size_t length = 0, second = 0;
    ask(bus, RT1553_BUS_B, command(30, 1, 3, 2));
    rt1553_bus before = *bus;
    row("saved", rt1553_bus_save(bus, state, sizeof state, &length, &fault) == RT1553_DONE && length > 0 && is_untouched(&fault));
    row("it is as it was", memcmp(&before, bus, sizeof before) == 0);
    row("a room for it", rt1553_bus_save(bus, again, length, &second, &fault) == RT1553_DONE && second == length);
    row("the same text", memcmp(state, again, length) == 0);
    memset(again, 7, sizeof again);
    row("a byte less", rt1553_bus_save(bus, again, length - 1, &second, &fault) == RT1553_NO_ROOM && second == length);
    row("nothing is written", again[0] == 7 && again[length - 2] == 7 && is_untouched(&fault));
    row("restored", rt1553_bus_restore(state, length, &restored, &fault) == RT1553_DONE && is_untouched(&fault));
    row("nothing was answered", restored->count == 0 && restored->to == RT1553_FOR_ALL && restored->event.what == RT1553_WORD);
    row("both go on", sends(restored, 30, RT1553_SENDS_STATUS, 0xf000) && sends(bus, 30, RT1553_SENDS_STATUS, 0xf000));
    rt1553_bus_free(restored);
    rt1553_bus_free(bus);
    /* a beginning is a saved state where it is one of fewer terminals */
    size_t whole = 0;
    for (size_t cut = 0; cut <= length; cut += cut < 32 ? 1 : 31) {
        restored = NULL;
        fault = untouched();
        uint8_t status = rt1553_bus_restore(state, cut, &restored, &fault);
        row("a beginning", status == RT1553_DONE ? restored && is_untouched(&fault)
                                                 : status == RT1553_REFUSED && !restored && fault.kind == RT1553_OF_STATE
                                                       && fault.number == (fault.line > 0 ? 1 : 2));
        if (restored) {
            row("its text", rt1553_bus_save(restored, again, sizeof again, &second, &fault) == RT1553_DONE && second == cut
                                && memcmp(state, again, cut) == 0);
            whole++;
        }
        rt1553_bus_free(restored);
    }
    row("the head alone is one", whole > 0);
}

static int is_sent(const rt1553_sent *it, int address, uint8_t what, uint16_t bits) {
    return it->address == address && it->what == what && it->bits == bits;
}

static void messages(void) {
    static rt1553_message m;
    rt1553_event words[34];
    rt1553_bus *bus = bus_of(5, 7);
    words[0] = word(RT1553_BUS_B, RT1553_COMMAND_SYNC, command(5, 0, 3, 2));
    words[1] = word(RT1553_BUS_B, RT1553_DATA_SYNC, 0x11);
    words[2] = word(RT1553_BUS_B, RT1553_DATA_SYNC, 0x22);
    row("a receive message", rt1553_bus_message(bus, words, 3, &m) == RT1553_DONE && m.sent_count == 1 && m.handed_count == 1);
    row("its status", is_sent(m.sent, 5, RT1553_SENDS_STATUS, 0x2800) && m.sent[0].bus == RT1553_BUS_B);
    row("what is handed over", m.handed[0].address == 5 && m.handed[0].answer.count == 2 && m.handed[0].answer.words[1] == 0x22);
    rt1553_bus_play(bus, 5, write_of(1, 0x00bb));
    words[0] = word(RT1553_BUS_A, RT1553_COMMAND_SYNC, command(6, 0, 3, 1));
    words[1] = word(RT1553_BUS_A, RT1553_COMMAND_SYNC, command(5, 1, 3, 1));
    row("a transfer", rt1553_bus_message(bus, words, 2, &m) == RT1553_DONE && m.sent_count == 3 && m.handed_count == 1);
    row("its words", is_sent(m.sent, 5, RT1553_SENDS_STATUS, 0x2800) && is_sent(m.sent + 1, 5, RT1553_SENDS_DATA, 0xbb)
                         && is_sent(m.sent + 2, 6, RT1553_SENDS_STATUS, 0x3000));
    row("they are handed over", m.handed[0].address == 6 && m.handed[0].answer.words[0] == 0xbb);
    words[1] = word(RT1553_BUS_A, RT1553_COMMAND_SYNC, command(9, 1, 3, 1));
    row("a transfer from nobody", rt1553_bus_message(bus, words, 2, &m) == RT1553_DONE && m.sent_count == 0 && m.handed_count == 0);
    words[0] = word(RT1553_BUS_A, RT1553_COMMAND_SYNC, command(6, 1, 0, 2));
    row("it was a time-out", rt1553_bus_message(bus, words, 1, &m) == RT1553_DONE && is_sent(m.sent, 6, RT1553_SENDS_STATUS, 0x3400));
    words[0] = word(RT1553_BUS_A, RT1553_COMMAND_SYNC, command(7, 1, 3, 32));
    row("32 words", rt1553_bus_message(bus, words, 1, &m) == RT1553_DONE && m.sent_count == 33);
    words[1] = on(RT1553_NOISE, RT1553_BUS_A);
    row("noise spoils a message", rt1553_bus_message(bus, words, 2, &m) == RT1553_DONE && m.sent_count == 0);
    /* both reply at once: a gap comes during the reply of 5 */
    ask(bus, RT1553_BUS_A, command(5, 1, 3, 2));
    words[0] = word(RT1553_BUS_A, RT1553_COMMAND_SYNC, command(6, 1, 3, 1));
    row("two reply at once", rt1553_bus_message(bus, words, 1, &m) == RT1553_DONE && m.sent_count == 3);
    row("that is noise", is_sent(m.sent, 5, RT1553_NOISE_SENT, 0) && is_sent(m.sent + 1, 5, RT1553_NOISE_SENT, 0)
                             && is_sent(m.sent + 2, 5, RT1553_SENDS_DATA, 0));
    rt1553_bus before = *bus;
    rt1553_event bad[] = {rt1553_event_of(RT1553_GAP), on(RT1553_NOISE, RT1553_BUS_B), on(RT1553_NOISE, 2), words[0], words[0]};
    bad[3].sync = 2;
    bad[4].parity = 3;
    row("no word", rt1553_bus_message(bus, words, 0, &m) == RT1553_REFUSED);
    for (size_t k = 0; k < sizeof bad / sizeof *bad; k++) {
        words[1] = bad[k];
        row("no word of a message", rt1553_bus_message(bus, words, 2, &m) == RT1553_REFUSED);
    }
    row("only noise on bus 2", rt1553_bus_message(bus, bad + 2, 1, &m) == RT1553_REFUSED);
    row("nothing changes", m.sent_count == 3 && memcmp(&before, bus, sizeof before) == 0);
    row("and it goes on", rt1553_bus_message(bus, words, 1, &m) == RT1553_DONE && m.sent_count == 2);
    rt1553_bus_free(bus);
}

int main(void) {
    made();
    joined();
    full();
    transferred();
    collisions();
    refused_events();
    copies();
    taken();
    saved();
    messages();
    printf("%d passed, %d failed\n", passed, failed);
    return failed > 0;
}
