/* 31 terminals on 31 threads, each asked by its own address and by those of the others; and one that goes from thread to
   thread. The last line is 'N passed, M failed'. */
#include "rt1553.h"

#include <pthread.h>
#include <stdio.h>
#include <string.h>

enum { TERMINALS = 31, ROUNDS = 2000 };

typedef struct {
    int address;
    rt1553_terminal *terminal;
    long answers, wrong;
} seat;

static rt1553_terminal *terminal_of(int address) {
    char text[32];
    rt1553_terminal *terminal = NULL;
    rt1553_fault fault;
    int length = snprintf(text, sizeof text, "address = %d\n", address);
    rt1553_terminal_new((const uint8_t *)text, (size_t)length, &terminal, &fault);
    return terminal;
}

/* transmit status word, to all addresses in turn */
static void *asked(void *it) {
    seat *seat = it;
    if (!seat->terminal)
        seat->terminal = terminal_of(seat->address);
    for (int round = 0; round < ROUNDS; round++) {
        int address = round % TERMINALS;
        rt1553_word(seat->terminal, RT1553_BUS_A, RT1553_COMMAND_SYNC, (uint16_t)(address << 11 | 1 << 10 | 2));
        rt1553_gap(seat->terminal, RT1553_BUS_A);
        rt1553_slot(seat->terminal);
        int sends = seat->terminal->answer.what == RT1553_SENDS_STATUS;
        seat->answers += sends;
        seat->wrong += sends != (address == seat->address) || (sends && seat->terminal->answer.bits != address << 11);
    }
    return NULL;
}

static int is_right(const seat *seat, int threads) {
    long wanted = 0;
    for (int round = 0; round < ROUNDS; round++)
        wanted += round % TERMINALS == seat->address;
    return seat->wrong == 0 && seat->answers == wanted * threads;
}

int main(void) {
    seat seats[TERMINALS];
    pthread_t threads[TERMINALS];
    int passed = 0;
    for (int i = 0; i < TERMINALS; i++) {
        seats[i] = (seat){.address = i};
        pthread_create(&threads[i], NULL, asked, &seats[i]);
    }
    for (int i = 0; i < TERMINALS; i++) {
        pthread_join(threads[i], NULL);
        passed += is_right(&seats[i], 1);
    }
    /* the last one goes on in other threads, one after the other */
    for (int i = 0; i < 3; i++) {
        pthread_create(&threads[0], NULL, asked, &seats[TERMINALS - 1]);
        pthread_join(threads[0], NULL);
    }
    passed += is_right(&seats[TERMINALS - 1], 4);
    for (int i = 0; i < TERMINALS; i++)
        rt1553_terminal_free(seats[i].terminal);
    printf("%d passed, %d failed\n", passed, TERMINALS + 1 - passed);
    return passed != TERMINALS + 1;
}
