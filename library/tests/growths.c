/* Each growth of memory refused in turn, in each call that takes some: it answers as with ample memory or says that memory
   was wanting, and gives back what it took. To be linked with --wrap for malloc, realloc and free. The last line is 'N passed,
   M failed'. */
#include "rt1553.h"

#include <stdio.h>
#include <string.h>

void *__real_malloc(size_t size);
void *__real_realloc(void *old, size_t size);
void __real_free(void *block);

static long refused, seen; /* the growth that is refused, 0 for none; and how many there were */
static long held;          /* how many blocks are held */

static int is_refused(void) { return ++seen == refused; }

void *__wrap_malloc(size_t size) {
    void *block = is_refused() ? NULL : __real_malloc(size);
    held += block != NULL;
    return block;
}

void *__wrap_realloc(void *old, size_t size) {
    void *block = is_refused() ? NULL : __real_realloc(old, size);
    held += block != NULL && old == NULL;
    return block;
}

void __wrap_free(void *block) {
    held -= block != NULL;
    __real_free(block);
}

static const char *const PROFILE = "address = 5\n"
                                   "[[rule]]\n"
                                   "direction = \"both\"\n"
                                   "subaddresses = \"1-3, 30\"\n"
                                   "[[mode]]\n"
                                   "codes = \"1, 16\"\n"
                                   "[[initial]]\n"
                                   "subaddress = 1\n"
                                   "words = [1, 2, 3]\n";
static const char *const SCRIPT = "A c 2c23\nA gap\nslot\nslot\nslot\nslot\n";

/* What a call answered. */
typedef struct {
    uint8_t status;
    uint8_t bytes[RT1553_STATE_ROOM];
    size_t length;
    rt1553_fault fault;
} answer;

#define TEXT(text) (const uint8_t *)(text), strlen(text)

static void check(answer *to) { to->status = rt1553_check(TEXT(PROFILE), &to->fault); }

static void canonical(answer *to) {
    to->status = rt1553_canonical(TEXT(PROFILE), to->bytes, sizeof to->bytes, &to->length, &to->fault);
}

static void compare(answer *to) {
    to->status = rt1553_compare(TEXT(PROFILE), TEXT("address = 5"), to->bytes, sizeof to->bytes, &to->length, &to->fault);
}

static void run(answer *to) {
    to->status = rt1553_run(TEXT(PROFILE), TEXT(SCRIPT), to->bytes, sizeof to->bytes, &to->length, &to->fault);
}

/* what a call made: its first answer */
static void made_is(answer *to, rt1553_terminal *made) {
    if (to->status == RT1553_DONE) {
        long before = seen;
        rt1553_word(made, RT1553_BUS_A, RT1553_COMMAND_SYNC, 0x2c02);
        rt1553_gap(made, RT1553_BUS_A);
        rt1553_slot(made);
        to->length = sizeof made->answer.bits;
        memcpy(to->bytes, &made->answer.bits, to->length);
        if (seen != before)
            to->status = 99; /* a step takes no memory */
        rt1553_terminal_free(made);
    } else if (made) {
        to->status = 98; /* it is left as it was */
    }
}

static void terminal(answer *to) {
    rt1553_terminal *made = NULL;
    to->status = rt1553_terminal_new(TEXT(PROFILE), &made, &to->fault);
    made_is(to, made);
}

/* the terminal that is copied and saved, and its saved state */
static rt1553_terminal *saved;
static uint8_t state[RT1553_STATE_ROOM];
static size_t state_length;

static void copy(answer *to) {
    rt1553_terminal *made = NULL;
    to->status = rt1553_terminal_copy(saved, &made, &to->fault);
    made_is(to, made);
}

static void save(answer *to) { to->status = rt1553_terminal_save(saved, to->bytes, sizeof to->bytes, &to->length, &to->fault); }

static void restore(answer *to) {
    rt1553_terminal *made = NULL;
    to->status = rt1553_terminal_restore(state, state_length, &made, &to->fault);
    made_is(to, made);
}

/* what a call made of a bus: what the terminal sends that is on it or joins it, without memory */
static void bus_is(answer *to, rt1553_bus *made) {
    if (to->status == RT1553_DONE) {
        long before = seen;
        rt1553_event word = rt1553_event_of(RT1553_WORD);
        word.parity = RT1553_RIGHT_PARITY;
        word.bits = 0x2c02;
        static rt1553_message came;
        rt1553_bus_join(made, saved);
        rt1553_bus_message(made, &word, 1, &came);
        to->length = sizeof came.sent->bits;
        memcpy(to->bytes, &came.sent->bits, to->length);
        if (seen != before)
            to->status = 99;
        rt1553_bus_free(made);
    } else if (made) {
        to->status = 98;
    }
}

static void bus(answer *to) {
    rt1553_bus *made = NULL;
    to->status = rt1553_bus_new(&made, &to->fault);
    bus_is(to, made);
}

/* the bus that is copied */
static rt1553_bus *full;

static void bus_copy(answer *to) {
    rt1553_bus *made = NULL;
    to->status = rt1553_bus_copy(full, &made, &to->fault);
    bus_is(to, made);
}

static void bus_save(answer *to) {
    static uint8_t saved_bus[RT1553_BUS_STATE_ROOM];
    size_t length = 0;
    to->status = rt1553_bus_save(full, saved_bus, sizeof saved_bus, &length, &to->fault);
    to->length = length < sizeof to->bytes ? length : sizeof to->bytes;
    memcpy(to->bytes, saved_bus, to->length);
}

static void bus_restore(answer *to) {
    rt1553_bus *made = NULL;
    static uint8_t saved_bus[RT1553_BUS_STATE_ROOM];
    memcpy(saved_bus, "rt1553-bus-state 1\n", 19);
    memcpy(saved_bus + 19, state, state_length);
    to->status = rt1553_bus_restore(saved_bus, 19 + state_length, &made, &to->fault);
    if (made) {
        rt1553_bus_step(made);
        to->length = made->count;
        rt1553_bus_free(made);
    }
}

static void bus_terminal(answer *to) {
    rt1553_terminal *made = NULL;
    to->status = rt1553_bus_terminal(full, 0, &made, &to->fault);
    to->length = made != NULL;
    rt1553_terminal_free(made);
}

static int is_same(const answer *one, const answer *other) {
    return one->status == other->status && one->length == other->length && memcmp(one->bytes, other->bytes, one->length) == 0;
}

/* out of memory is told, by a beginning of a transcript at most */
static int is_want(const answer *it, const answer *ample, int is_run) {
    return it->status == RT1553_NO_MEMORY && (it->fault.kind == RT1553_OF_MEMORY || (is_run && it->fault.kind == RT1553_OF_SCRIPT))
           && it->length <= ample->length && memcmp(it->bytes, ample->bytes, it->length) == 0;
}

static int swept(const char *name, void (*call)(answer *)) {
    static answer ample, it;
    memset(&ample, 0, sizeof ample);
    refused = 0;
    call(&ample);
    for (long number = 1; number < 1000; number++) {
        memset(&it, 0, sizeof it);
        refused = number;
        seen = held = 0;
        call(&it);
        int met = seen >= number;
        if (held != 0 || !(is_same(&it, &ample) || (met && is_want(&it, &ample, call == run)))) {
            printf("FAILED: %s, growth %ld refused: status %d, %ld blocks held\n", name, number, it.status, held);
            return 0;
        }
        if (!met)
            return number > 1;
    }
    return 0;
}

int main(void) {
    static const struct {
        const char *name;
        void (*call)(answer *);
    } calls[] = {{"check", check}, {"canonical", canonical}, {"compare", compare}, {"run", run}, {"terminal", terminal},
                 {"copy", copy},   {"save", save},           {"restore", restore}, {"bus", bus}, {"copy of a bus", bus_copy},
                 {"saved bus", bus_save}, {"restored bus", bus_restore}, {"terminal of a bus", bus_terminal}};
    int passed = 0, all = sizeof calls / sizeof *calls;
    rt1553_fault fault;
    if (rt1553_terminal_new(TEXT(PROFILE), &saved, &fault) != RT1553_DONE
        || rt1553_terminal_save(saved, state, sizeof state, &state_length, &fault) != RT1553_DONE
        || rt1553_bus_new(&full, &fault) != RT1553_DONE || rt1553_bus_join(full, saved) != RT1553_DONE)
        return 1;
    for (int i = 0; i < all; i++)
        passed += swept(calls[i].name, calls[i].call);
    rt1553_terminal_free(saved);
    rt1553_bus_free(full);
    printf("%d passed, %d failed\n", passed, all - passed);
    return passed != all;
}
