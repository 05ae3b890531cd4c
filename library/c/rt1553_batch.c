/* Many events in one call, for callers for which each call is costly; and the states of all terminals of a bus in one text. */
#include "rt1553.h"

#include <stdio.h>
#include <string.h>

size_t rt1553_terminal_play(rt1553_terminal *terminal, const rt1553_event *events, size_t count, rt1553_answer *answers,
                            size_t *places, size_t room, size_t *answered) {
    size_t filled = 0, played = 0;
    while (played < count && filled < room) {
        if (rt1553_play(terminal, events[played]) != RT1553_DONE)
            break;
        if (terminal->answer.what != RT1553_SILENT) {
            answers[filled] = terminal->answer;
            places[filled++] = played;
        }
        played++;
    }
    *answered = filled;
    return played;
}

/* Keeps in a message what came of the latest event of a bus. Returns whether a terminal sent a word. */
static bool keep(rt1553_message *message, const rt1553_bus *bus) {
    bool sends = false, noise[2] = {false, false};
    for (size_t k = 0; k < bus->count; k++) {
        const rt1553_bus_answer *it = &bus->answers[k];
        if (it->answer.what > RT1553_SENDS_DATA) {
            if (message->handed_count < RT1553_MOST_TERMINALS)
                message->handed[message->handed_count] = *it;
            message->handed_count++;
            continue;
        }
        sends = true;
        bool collided = it->answer.bus == RT1553_BUS_A ? bus->collided_a : bus->collided_b;
        if (noise[it->answer.bus])
            continue;
        noise[it->answer.bus] = collided;
        if (message->sent_count < RT1553_MOST_SENT) {
            rt1553_sent sent = {it->address, collided ? RT1553_NOISE_SENT : it->answer.what, it->answer.bus,
                                collided ? 0 : it->answer.bits};
            message->sent[message->sent_count] = sent;
        }
        message->sent_count++;
    }
    return sends;
}

/* Whether an event is a word or noise, by its numbers. */
static bool is_on_bus(const rt1553_event *it) {
    return it->bus <= RT1553_BUS_B
           && (it->what == RT1553_NOISE
               || (it->what == RT1553_WORD && it->sync <= RT1553_DATA_SYNC && it->parity <= RT1553_RIGHT_PARITY));
}

/* Plays an event for all, and keeps what comes of it. */
static bool play(rt1553_bus *bus, rt1553_event event, rt1553_message *message) {
    rt1553_bus_play(bus, RT1553_FOR_ALL, event);
    return keep(message, bus);
}

uint8_t rt1553_bus_message(rt1553_bus *bus, const rt1553_event *words, size_t count, rt1553_message *message) {
    rt1553_event gap = rt1553_event_of(RT1553_GAP), slot = rt1553_event_of(RT1553_SLOT);
    if (count == 0)
        return RT1553_REFUSED;
    for (size_t k = 0; k < count; k++)
        if (!is_on_bus(&words[k]) || words[k].bus != words[0].bus)
            return RT1553_REFUSED;
    gap.bus = words[0].bus;
    message->sent_count = message->handed_count = 0;
    for (size_t k = 0; k < count; k++)
        play(bus, words[k], message);
    play(bus, gap, message);
    bool sends;
    do {
        sends = false;
        while (play(bus, slot, message))
            sends = true;
        play(bus, gap, message);
    } while (sends);
    return RT1553_DONE;
}

/* The first line of the saved state of a bus. The saved states of its terminals follow, each with a first line of its own. */
static const char BUS_HEAD[] = "rt1553-bus-state 1\n", STATE_HEAD[] = "\nrt1553-state ", ADDRESS[] = "\naddress ";

/* Tells a fault in these words. */
static uint8_t tell(rt1553_fault *fault, uint8_t kind, uint8_t number, uint64_t line, const char *text, uint8_t status) {
    memset(fault, 0, sizeof *fault);
    fault->kind = kind;
    fault->number = number;
    fault->line = line;
    fault->length = (uint8_t)snprintf(fault->text, sizeof fault->text, "%s", text);
    return status;
}

/* Tells that the bytes are no saved state from this line on. */
static uint8_t wrong_line(rt1553_fault *fault, uint64_t line) {
    char text[64];
    snprintf(text, sizeof text, "saved state: line %llu\n", (unsigned long long)line);
    return tell(fault, RT1553_OF_STATE, 1, line, text, RT1553_REFUSED);
}

/* Writes the saved states of the terminals of a bus one behind the other, and adds their bytes to *length. */
static uint8_t save_terminals(const rt1553_bus *bus, uint8_t *to, size_t *length, rt1553_fault *fault) {
    for (size_t place = 0; place < RT1553_MOST_TERMINALS; place++) {
        rt1553_terminal *terminal;
        size_t saved;
        uint8_t status = rt1553_bus_terminal(bus, place, &terminal, fault);
        if (status == RT1553_REFUSED)
            break;
        if (status != RT1553_DONE)
            return status;
        status = rt1553_terminal_save(terminal, to + *length, RT1553_STATE_ROOM, &saved, fault);
        rt1553_terminal_free(terminal);
        if (status != RT1553_DONE)
            return status;
        *length += saved;
    }
    return RT1553_DONE;
}

uint8_t rt1553_bus_save(const rt1553_bus *bus, uint8_t *to, size_t room, size_t *length, rt1553_fault *fault) {
    uint8_t *whole = malloc(RT1553_BUS_STATE_ROOM), status;
    size_t saved = sizeof BUS_HEAD - 1;
    *length = 0;
    if (!whole)
        return tell(fault, RT1553_OF_MEMORY, 0, 0, "out of memory\n", RT1553_NO_MEMORY);
    memcpy(whole, BUS_HEAD, saved);
    status = save_terminals(bus, whole, &saved, fault);
    if (status == RT1553_DONE) {
        *length = saved;
        if (saved <= room)
            memcpy(to, whole, saved);
        else
            status = RT1553_NO_ROOM;
    }
    free(whole);
    return status;
}

/* Where a line begins in this way, behind the first, or the end; `mark` has the line feed before it in front. */
static size_t line_like(const uint8_t *text, size_t length, const char *mark) {
    size_t size = strlen(mark);
    for (size_t at = 0; at + size <= length; at++)
        if (memcmp(text + at, mark, size) == 0)
            return at + 1;
    return length;
}

/* How many lines end there. */
static uint64_t lines_in(const uint8_t *text, size_t length) {
    uint64_t count = 0;
    for (size_t at = 0; at < length; at++)
        count += text[at] == '\n';
    return count;
}

/* Puts a terminal of a saved state on a bus; `before` is the number of lines before that state. */
static uint8_t join_state(rt1553_bus *bus, const uint8_t *state, size_t length, uint64_t before, rt1553_fault *fault) {
    rt1553_terminal *terminal;
    uint8_t status = rt1553_terminal_restore(state, length, &terminal, fault);
    if (status == RT1553_REFUSED && fault->line > 0)
        return wrong_line(fault, before + fault->line);
    if (status != RT1553_DONE)
        return status;
    status = rt1553_bus_join(bus, terminal);
    rt1553_terminal_free(terminal);
    if (status != RT1553_DONE)
        return wrong_line(fault, before + 1 + lines_in(state, line_like(state, length, ADDRESS)));
    return status;
}

/* Puts the terminals of the saved state of a bus on one. */
static uint8_t join_states(rt1553_bus *bus, const uint8_t *state, size_t length, rt1553_fault *fault) {
    size_t at = sizeof BUS_HEAD - 1;
    uint64_t lines = 1;
    if (length < at || memcmp(state, BUS_HEAD, at) != 0)
        return wrong_line(fault, 1);
    while (at < length) {
        size_t size = line_like(state + at, length - at, STATE_HEAD);
        uint8_t status = join_state(bus, state + at, size, lines, fault);
        if (status != RT1553_DONE)
            return status;
        lines += lines_in(state + at, size);
        at += size;
    }
    return RT1553_DONE;
}

uint8_t rt1553_bus_restore(const uint8_t *state, size_t state_length, rt1553_bus **bus, rt1553_fault *fault) {
    rt1553_bus *made;
    uint8_t status = rt1553_bus_new(&made, fault);
    if (status != RT1553_DONE)
        return status;
    status = join_states(made, state, state_length, fault);
    if (status == RT1553_DONE)
        *bus = made;
    else
        rt1553_bus_free(made);
    return status;
}
