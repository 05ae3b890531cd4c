/* Lines of scripts as events, and answers as lines of transcripts (docs/script.md), for the tests in C and C++. */
#ifndef SCRIPT_LINE_H
#define SCRIPT_LINE_H

#include "rt1553.h"

#include <stdio.h>
#include <string.h>

/* Room for any line of a transcript. */
enum { LINE_ROOM = 200, LONGEST_LINE = 64 };

static inline int digit_of(char digit, int base) {
    const char *digits = "0123456789abcdefABCDEF", *at = digit ? strchr(digits, digit) : NULL;
    int value = at ? (int)(at - digits) : base;
    if (value > 15)
        value -= 6;
    return value < base ? value : -1;
}

/* The number of so many digits; whether these are digits. */
static inline bool read_number(const char *text, int digits, int base, uint16_t *number) {
    unsigned value = 0;
    for (int i = 0; i < digits; i++) {
        int digit = digit_of(text[i], base);
        if (digit < 0)
            return false;
        value = value * (unsigned)base + (unsigned)digit;
    }
    *number = (uint16_t)value;
    return true;
}

/* What stands behind the letter of a bus. */
static inline bool read_on_bus(const char *text, rt1553_event *event) {
    bool is_word = (text[0] == 'c' || text[0] == 'd') && text[1] == ' ' && read_number(text + 2, 4, 16, &event->bits);
    event->what = is_word ? RT1553_WORD : strcmp(text, "gap") == 0 ? RT1553_GAP : RT1553_NOISE;
    if (!is_word)
        return strcmp(text, "gap") == 0 || strcmp(text, "noise") == 0;
    event->sync = text[0] == 'd' ? RT1553_DATA_SYNC : RT1553_COMMAND_SYNC;
    event->parity = RT1553_RIGHT_PARITY;
    if (text[6] == '\0')
        return true;
    event->parity = (uint8_t)(text[6] == ' ' ? text[7] - '0' : 9);
    return event->parity <= 1 && text[8] == '\0';
}

static inline bool read_write(const char *text, rt1553_event *event) {
    uint16_t subaddress, number;
    event->what = RT1553_WRITE;
    if (!read_number(text, 2, 10, &subaddress) || text[2] != ' ' || !read_number(text + 3, 2, 10, &number) || text[5] != ' ')
        return false;
    event->subaddress = (uint8_t)subaddress;
    event->number = (uint8_t)number;
    return read_number(text + 6, 4, 16, &event->bits) && text[10] == '\0';
}

static inline bool read_flag(const char *text, rt1553_event *event) {
    static const char *const names[] = {"service ", "busy ", "subsystem ", "terminal "};
    event->what = RT1553_FLAG;
    for (uint8_t flag = 0; flag < 4; flag++) {
        size_t length = strlen(names[flag]);
        if (strncmp(text, names[flag], length) == 0) {
            event->flag = flag;
            event->value = (uint8_t)(text[length] - '0');
            return text[length] != '\0' && text[length + 1] == '\0';
        }
    }
    return false;
}

/* The event of a line that is neither empty nor a comment; whether it has the form of one. The numbers may mean none. */
static inline bool read_event(const char *text, rt1553_event *event) {
    memset(event, 0, sizeof *event);
    if ((text[0] == 'A' || text[0] == 'B') && text[1] == ' ') {
        event->bus = text[0] == 'B' ? RT1553_BUS_B : RT1553_BUS_A;
        return read_on_bus(text + 2, event);
    }
    if (strncmp(text, "write ", 6) == 0)
        return read_write(text + 6, event);
    if (strncmp(text, "flag ", 5) == 0)
        return read_flag(text + 5, event);
    if (strncmp(text, "vector ", 7) == 0) {
        event->what = RT1553_VECTOR;
        return read_number(text + 7, 4, 16, &event->bits) && text[11] == '\0';
    }
    if (strncmp(text, "bit ", 4) == 0) {
        event->what = RT1553_BIT;
        return read_number(text + 4, 4, 16, &event->bits) && text[8] == '\0';
    }
    event->what = RT1553_SLOT;
    return strcmp(text, "slot") == 0;
}

/* Writes the line of an answer, with its line feed, and gives its length; 0 where there is none. */
static inline size_t write_answer(const rt1553_answer *answer, char to[LINE_ROOM]) {
    int length = 0;
    switch (answer->what) {
    case RT1553_SENDS_STATUS:
    case RT1553_SENDS_DATA:
        length = snprintf(to, LINE_ROOM, "%c %c %04x\n", "AB"[answer->bus], "sd"[answer->what == RT1553_SENDS_DATA], answer->bits);
        break;
    case RT1553_HANDS_RECEIVED:
        length = snprintf(to, LINE_ROOM, "hand receive %s %02d", answer->broadcast ? "broadcast" : "own", answer->subaddress);
        for (int i = 0; i < answer->count; i++)
            length += snprintf(to + length, (size_t)(LINE_ROOM - length), " %04x", answer->words[i]);
        length += snprintf(to + length, (size_t)(LINE_ROOM - length), "\n");
        break;
    case RT1553_HANDS_SYNCHRONIZE:
        length = snprintf(to, LINE_ROOM, "hand sync\n");
        break;
    case RT1553_HANDS_SYNCHRONIZE_WITH:
        length = snprintf(to, LINE_ROOM, "hand sync %04x\n", answer->bits);
        break;
    case RT1553_HANDS_SELF_TEST:
        length = snprintf(to, LINE_ROOM, "hand self-test\n");
        break;
    case RT1553_HANDS_BUS_CONTROL:
        length = snprintf(to, LINE_ROOM, "hand bus-control\n");
        break;
    }
    return (size_t)length;
}

#endif
