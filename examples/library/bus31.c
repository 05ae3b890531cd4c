/* A bus of 31 terminals and a controller: what each sends is heard by all others, and is printed with who sent it. */
#include "rt1553.h"

#include <stdio.h>
#include <stdlib.h>
#include <string.h>

enum { TERMINALS = 31, BROADCAST = 31 };

static rt1553_terminal *terminals[TERMINALS];

/* The profile of a terminal: subaddress 1 in both directions, subaddress 2 by broadcast, some mode codes, and two words to
   begin with. */
static const char PROFILE[] = "address = %d\n"
                              "broadcast = true\n"
                              "vector = %d\n"
                              "[[rule]]\n"
                              "direction = \"both\"\n"
                              "subaddresses = 1\n"
                              "[[rule]]\n"
                              "to = \"broadcast\"\n"
                              "direction = \"receive\"\n"
                              "subaddresses = 2\n"
                              "[[mode]]\n"
                              "to = \"both\"\n"
                              "codes = \"1, 16, 17\"\n"
                              "[[initial]]\n"
                              "subaddress = 1\n"
                              "words = [%d, %d]\n";

static int power_up(int address) {
    char text[sizeof PROFILE + 32];
    rt1553_fault fault;
    int length = snprintf(text, sizeof text, PROFILE, address, 0x1000 + address, 0x2000 + address, 0x3000 + address);
    if (rt1553_terminal_new((const uint8_t *)text, (size_t)length, &terminals[address], &fault) == RT1553_DONE)
        return 1;
    fputs(fault.text, stderr);
    return 0;
}

static uint16_t command(int address, int transmits, int subaddress, int count) {
    return (uint16_t)(address << 11 | transmits << 10 | subaddress << 5 | (count & 31));
}

/* What a terminal hands over; its subsystem holds words of subaddress 1 ready to be transmitted. */
static void hand_over(int address) {
    rt1553_terminal *terminal = terminals[address];
    rt1553_answer answer = terminal->answer; /* a step writes another answer over it */
    switch (answer.what) {
    case RT1553_HANDS_RECEIVED:
        printf("%02d hand receive %s %02d", address, answer.broadcast ? "broadcast" : "own", answer.subaddress);
        for (int i = 0; i < answer.count; i++)
            printf(" %04x", answer.words[i]);
        printf("\n");
        for (int i = 0; i < answer.count && answer.subaddress == 1; i++)
            rt1553_write(terminal, 1, (uint8_t)(i + 1), answer.words[i]);
        break;
    case RT1553_HANDS_SYNCHRONIZE:
        printf("%02d hand sync\n", address);
        break;
    case RT1553_HANDS_SYNCHRONIZE_WITH:
        printf("%02d hand sync %04x\n", address, answer.bits);
        break;
    }
}

/* A gap, which ends a message for all terminals. */
static void gap(uint8_t bus) {
    for (int i = 0; i < TERMINALS; i++) {
        rt1553_gap(terminals[i], bus);
        hand_over(i);
    }
}

/* The time of one word. Whether a terminal sent one, which all others heard. */
static int slot(void) {
    int sent = 0;
    for (int i = 0; i < TERMINALS; i++) {
        rt1553_slot(terminals[i]);
        const rt1553_answer *answer = &terminals[i]->answer;
        if (answer->what == RT1553_SILENT)
            continue;
        int is_status = answer->what == RT1553_SENDS_STATUS;
        printf("%02d %c %c %04x\n", i, "AB"[answer->bus], is_status ? 's' : 'd', answer->bits);
        for (int k = 0; k < TERMINALS; k++)
            if (k != i)
                rt1553_word(terminals[k], answer->bus, is_status ? RT1553_COMMAND_SYNC : RT1553_DATA_SYNC, answer->bits);
        sent = 1;
    }
    return sent;
}

/* The controller sends a word. */
static void send(uint8_t bus, uint8_t sync, uint16_t bits) {
    printf("bc %c %c %04x\n", "AB"[bus], "cd"[sync], bits);
    for (int i = 0; i < TERMINALS; i++)
        rt1553_word(terminals[i], bus, sync, bits);
}

/* The controller's message has ended: replies, each ended by a gap, till the bus stays silent. */
static void replies(uint8_t bus) {
    gap(bus);
    while (slot()) {
        while (slot())
            ;
        gap(bus);
    }
}

/* A message of the controller: one or two commands, and data words. */
static void message(uint8_t bus, int commands, int count, const uint16_t *words) {
    for (int i = 0; i < commands + count; i++)
        send(bus, i < commands ? RT1553_COMMAND_SYNC : RT1553_DATA_SYNC, words[i]);
    replies(bus);
}

static void schedule(void) {
    for (int i = 0; i < TERMINALS; i++) /* transmit status word */
        message(RT1553_BUS_A, 1, 0, (uint16_t[]){command(i, 1, 0, 2)});
    message(RT1553_BUS_A, 1, 2, (uint16_t[]){command(0, 0, 1, 2), 0xcafe, 0x0001}); /* two words for terminal 0 .. */
    for (int i = 0; i < TERMINALS - 1; i++)                                         /* .. go from each to the next */
        message(RT1553_BUS_A, 2, 0, (uint16_t[]){command(i + 1, 0, 1, 2), command(i, 1, 1, 2)});
    message(RT1553_BUS_B, 1, 0, (uint16_t[]){command(30, 1, 1, 2)}); /* .. and from the last to the controller */
    /* terminal 7 transmits to all others */
    message(RT1553_BUS_A, 2, 0, (uint16_t[]){command(BROADCAST, 0, 2, 2), command(7, 1, 1, 2)});
    message(RT1553_BUS_A, 1, 1, (uint16_t[]){command(BROADCAST, 0, 0, 17), 0x0042}); /* synchronize with data word */
    message(RT1553_BUS_A, 1, 0, (uint16_t[]){command(4, 1, 0, 2)});
    rt1553_flag(terminals[9], RT1553_BUSY, true);
    message(RT1553_BUS_A, 1, 0, (uint16_t[]){command(9, 1, 1, 2)}); /* busy: its status alone */
    rt1553_flag(terminals[9], RT1553_BUSY, false);
    message(RT1553_BUS_A, 1, 0, (uint16_t[]){command(9, 1, 1, 2)});
    for (int i = 0; i < TERMINALS; i += 10) /* transmit vector word */
        message(RT1553_BUS_B, 1, 0, (uint16_t[]){command(i, 1, 0, 16)});
    message(RT1553_BUS_A, 1, 1, (uint16_t[]){command(12, 0, 1, 2), 0x0001}); /* a word too few: no reply .. */
    message(RT1553_BUS_A, 1, 0, (uint16_t[]){command(12, 1, 0, 2)});         /* .. but message error */
}

int main(void) {
    for (int i = 0; i < TERMINALS; i++)
        if (!power_up(i))
            return 1;
    schedule();
    for (int i = 0; i < TERMINALS; i++)
        rt1553_terminal_free(terminals[i]);
    return 0;
}
