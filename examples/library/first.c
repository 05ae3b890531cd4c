/* A terminal is asked for its status word. */
#include "rt1553.h"

#include <stdio.h>
#include <string.h>

int main(void) {
    const char *profile = "address = 5\n";
    rt1553_terminal *terminal;
    rt1553_fault fault;
    if (rt1553_terminal_new((const uint8_t *)profile, strlen(profile), &terminal, &fault) != RT1553_DONE) {
        fputs(fault.text, stderr);
        return 1;
    }
    /* the command word: address 5, transmit, mode code 2; then the gap that ends the message */
    rt1553_word(terminal, RT1553_BUS_A, RT1553_COMMAND_SYNC, 0x2c02);
    rt1553_gap(terminal, RT1553_BUS_A);
    /* the reply: in each slot a word, till there are no more */
    while (rt1553_slot(terminal) == RT1553_DONE && terminal->answer.what != RT1553_SILENT)
        printf("%c %c %04x\n", "AB"[terminal->answer.bus], terminal->answer.what == RT1553_SENDS_STATUS ? 's' : 'd',
               terminal->answer.bits);
    rt1553_terminal_free(terminal);
    return 0;
}
