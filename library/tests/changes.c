/* Saved states of several kinds, each byte of which is changed to every other value: the text is refused, or the terminal that is
   restored of it saves to exactly these bytes. The last line is 'N passed, M failed'. */
#include "rt1553.h"

#include <pthread.h>
#include <stdio.h>
#include <string.h>

static const char *const PROFILE = "address = 5\n"
                                   "[[rule]]\n"
                                   "direction = \"both\"\n"
                                   "subaddresses = 30\n"
                                   "counts = 2\n"
                                   "[[initial]]\n"
                                   "subaddress = 30\n"
                                   "words = [1, 2]\n";

enum { NONE = 0xffff, WORDS = 8 };

/* A kind of state, by the words that come on bus A, NONE for a gap, and by what becomes of it. */
typedef struct {
    const char *name;
    uint16_t commands[WORDS]; /* a word of command sync, or 0 for the data word in its place */
    uint16_t data[WORDS];
    int count, slots;
    int is_busy;
    long refused, accepted, wrong;
} kind;

static kind kinds[] = {
    {.name = "a reply in progress", .commands = {0x2fc2, NONE}, .count = 2, .slots = 2},
    {.name = "collecting, while busy", .commands = {0x2bc2, 0}, .data = {0, 0x1234}, .count = 2, .is_busy = 1},
    {.name = "waiting for another terminal", .commands = {0x2bc2, 0x3c42, NONE}, .count = 3},
};

static rt1553_terminal *terminal_of(const kind *it) {
    rt1553_terminal *terminal;
    rt1553_fault fault;
    if (rt1553_terminal_new((const uint8_t *)PROFILE, strlen(PROFILE), &terminal, &fault) != RT1553_DONE)
        exit(1);
    rt1553_flag(terminal, RT1553_BUSY, it->is_busy);
    for (int i = 0; i < it->count; i++) {
        if (it->commands[i] == NONE)
            rt1553_gap(terminal, RT1553_BUS_A);
        else if (it->commands[i])
            rt1553_word(terminal, RT1553_BUS_A, RT1553_COMMAND_SYNC, it->commands[i]);
        else
            rt1553_word(terminal, RT1553_BUS_A, RT1553_DATA_SYNC, it->data[i]);
    }
    for (int i = 0; i < it->slots; i++)
        rt1553_slot(terminal);
    return terminal;
}

/* Whether bytes are refused as no saved state, or are what the terminal in that state saves to. */
static void try(kind *it, const uint8_t *state, size_t length) {
    uint8_t again[RT1553_STATE_ROOM];
    size_t saved = 0;
    rt1553_terminal *terminal = NULL;
    rt1553_fault fault = {.kind = 0};
    uint8_t status = rt1553_terminal_restore(state, length, &terminal, &fault);
    if (status == RT1553_REFUSED && !terminal && fault.kind == RT1553_OF_STATE && fault.number == (fault.line ? 1 : 2)) {
        it->refused++;
    } else if (status == RT1553_DONE && rt1553_terminal_save(terminal, again, sizeof again, &saved, &fault) == RT1553_DONE
               && saved == length && memcmp(again, state, length) == 0) {
        it->accepted++;
    } else {
        if (it->wrong++ < 5)
            printf("FAILED: %s: status %d\n%.*s", it->name, status, (int)length, (const char *)state);
    }
    rt1553_terminal_free(terminal);
}

static void *changed(void *with) {
    kind *it = with;
    uint8_t state[RT1553_STATE_ROOM];
    size_t length = 0;
    rt1553_fault fault;
    rt1553_terminal *terminal = terminal_of(it);
    rt1553_terminal_save(terminal, state, sizeof state, &length, &fault);
    rt1553_terminal_free(terminal);
    for (size_t at = 0; at < length; at++) {
        uint8_t right = state[at];
        for (int byte = 0; byte < 256; byte++) {
            state[at] = (uint8_t)byte;
            try(it, state, length);
        }
        state[at] = right;
    }
    return NULL;
}

int main(void) {
    enum { KINDS = sizeof kinds / sizeof *kinds };
    pthread_t threads[KINDS];
    int passed = 0;
    for (int i = 0; i < KINDS; i++)
        pthread_create(&threads[i], NULL, changed, &kinds[i]);
    for (int i = 0; i < KINDS; i++) {
        pthread_join(threads[i], NULL);
        printf("%s: %ld refused, %ld accepted\n", kinds[i].name, kinds[i].refused, kinds[i].accepted);
        passed += kinds[i].wrong == 0 && kinds[i].refused > 0 && kinds[i].accepted > 0;
    }
    printf("%d passed, %d failed\n", passed, KINDS - passed);
    return passed != KINDS;
}
