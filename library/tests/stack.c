/* How much stack the calls take: of ordinary texts, and of texts that nest as deep as the reader of TOML lets them. A call runs
   on a thread whose stack is painted before, and is measured by the paint that is left. The bounds are those of rt1553.h. What
   each call took is printed; the last line is 'N passed, M failed'. */
#define _POSIX_C_SOURCE 200809L
#include "rt1553.h"

#include <pthread.h>
#include <stdio.h>
#include <string.h>

enum { STACK = 8 << 20, PAINT = 0xa5, DEPTH = 80, LONGEST = 1 << 20 };

/* The bounds: of a step, of ordinary texts, of a copy of a bus, of any text of up to 1 MiB, and of a text by its length. */
enum { OF_STEP = 4 << 10, OF_ORDINARY = 128 << 10, OF_COPY = 512 << 10, OF_ANY = 4 << 20, OF_BYTE = 180, OF_CALL = 256 << 10 };

static int passed, failed;

static void row(const char *name, const char *of, int holds) {
    passed += holds != 0;
    failed += holds == 0;
    if (!holds)
        printf("FAILED: %s of %s\n", name, of);
}

/* --- the calls, over one text ----------------------------------------------------------------------------------------- */

static char text[LONGEST];
static size_t length;
static uint8_t room[RT1553_STATE_ROOM];
static size_t written;
static rt1553_fault fault;
static rt1553_terminal *terminal;
static rt1553_bus *bus;

#define TEXT (const uint8_t *)text, length

static uint8_t check(void) { return rt1553_check(TEXT, &fault); }

static uint8_t canonical(void) { return rt1553_canonical(TEXT, room, sizeof room, &written, &fault); }

static uint8_t compare(void) { return rt1553_compare(TEXT, TEXT, room, sizeof room, &written, &fault); }

static uint8_t run(void) {
    static const char script[] = "A c 2c23\nA gap\nslot\nslot\nslot\nslot\nB c 2822\nB d 0011\nB d 0022\nB gap\nslot\n";
    return rt1553_run(TEXT, (const uint8_t *)script, strlen(script), room, sizeof room, &written, &fault);
}

static uint8_t terminal_new(void) {
    uint8_t status = rt1553_terminal_new(TEXT, &terminal, &fault);
    if (status == RT1553_DONE)
        rt1553_terminal_free(terminal);
    return status;
}

/* a message of each kind, with all its words */
static uint8_t steps(void) {
    for (int command = 0; command < 1 << 11; command++) {
        rt1553_word(terminal, RT1553_BUS_A, RT1553_COMMAND_SYNC, (uint16_t)(5 << 11 | command));
        for (int word = 0; word < 32 && !(command >> 10); word++)
            rt1553_word(terminal, RT1553_BUS_A, RT1553_DATA_SYNC, (uint16_t)word);
        rt1553_gap(terminal, RT1553_BUS_A);
        for (int slot = 0; slot < 33; slot++)
            rt1553_slot(terminal);
        rt1553_write(terminal, 1, 1, (uint16_t)command);
        rt1553_flag(terminal, RT1553_BUSY, command & 1);
    }
    return RT1553_DONE;
}

static uint8_t copy(void) {
    rt1553_terminal *copied = NULL;
    uint8_t status = rt1553_terminal_copy(terminal, &copied, &fault);
    rt1553_terminal_free(copied);
    return status;
}

static uint8_t save(void) { return rt1553_terminal_save(terminal, room, sizeof room, &written, &fault); }

/* of what was saved */
static uint8_t restore(void) {
    rt1553_terminal *restored = NULL;
    uint8_t status = rt1553_terminal_restore(room, written, &restored, &fault);
    rt1553_terminal_free(restored);
    return status;
}

/* of bytes that are refused in their last line */
static uint8_t refused_state(void) {
    rt1553_terminal *restored = NULL;
    return rt1553_terminal_restore(room, written - 1, &restored, &fault) == RT1553_REFUSED ? RT1553_DONE : RT1553_REFUSED;
}

static uint8_t bus_new(void) { return rt1553_bus_new(&bus, &fault); }

static uint8_t bus_join(void) { return rt1553_bus_join(bus, terminal); }

/* a message of each kind, each with 32 words, and events of the subsystem */
static uint8_t bus_steps(void) {
    static rt1553_event words[33];
    static rt1553_message came;
    for (int command = 0; command < 1 << 11; command++) {
        for (int word = 0; word < 33; word++) {
            words[word] = rt1553_event_of(RT1553_WORD);
            words[word].parity = RT1553_RIGHT_PARITY;
            words[word].sync = word > 0;
            words[word].bits = (uint16_t)(5 << 11 | command);
        }
        if (rt1553_bus_message(bus, words, command >> 10 ? 1 : 33, &came) != RT1553_DONE)
            return RT1553_REFUSED;
        rt1553_event event = rt1553_event_of(RT1553_VECTOR);
        if (rt1553_bus_play(bus, 5, event) != RT1553_DONE)
            return RT1553_REFUSED;
    }
    return RT1553_DONE;
}

static uint8_t bus_copy(void) {
    rt1553_bus *copied = NULL;
    uint8_t status = rt1553_bus_copy(bus, &copied, &fault);
    rt1553_bus_free(copied);
    return status;
}

static uint8_t bus_terminal(void) {
    rt1553_terminal *one = NULL;
    uint8_t status = rt1553_bus_terminal(bus, 0, &one, &fault);
    rt1553_terminal_free(one);
    return status;
}

static uint8_t bus_state[RT1553_BUS_STATE_ROOM];
static size_t bus_written;

static uint8_t bus_save(void) { return rt1553_bus_save(bus, bus_state, sizeof bus_state, &bus_written, &fault); }

static uint8_t bus_restore(void) {
    rt1553_bus *restored = NULL;
    uint8_t status = rt1553_bus_restore(bus_state, bus_written, &restored, &fault);
    rt1553_bus_free(restored);
    return status;
}

static struct {
    const char *name;
    uint8_t (*call)(void);
    size_t ordinary, most;
} calls[] = {{"rt1553_check", check, 0, 0},
             {"rt1553_canonical", canonical, 0, 0},
             {"rt1553_compare", compare, 0, 0},
             {"rt1553_run", run, 0, 0},
             {"rt1553_terminal_new", terminal_new, 0, 0}};

enum { CALLS = sizeof calls / sizeof *calls };

/* --- the stack -------------------------------------------------------------------------------------------------------- */

static uint8_t *stack;
static uint8_t *entered; /* where the stack of the call begins */
static uint8_t (*called)(void);
static uint8_t status;

static void *thread(void *unused) {
    entered = __builtin_frame_address(0);
    status = called();
    return unused;
}

/* The bytes of stack that a call takes; its status goes to `status`. */
static size_t taken(uint8_t (*call)(void)) {
    pthread_attr_t attributes;
    pthread_t it;
    const uint8_t *at = stack;
    memset(stack, PAINT, STACK);
    called = call;
    pthread_attr_init(&attributes);
    if (pthread_attr_setstack(&attributes, stack, STACK) != 0 || pthread_create(&it, &attributes, thread, NULL) != 0) {
        puts("no thread");
        exit(1);
    }
    pthread_join(it, NULL);
    pthread_attr_destroy(&attributes);
    while (at < entered && *at == PAINT)
        at++;
    return (size_t)(entered - at);
}

/* --- texts ------------------------------------------------------------------------------------------------------------ */

static void put(const char *it) {
    size_t size = strlen(it);
    if (length + size > LONGEST)
        exit(1);
    memcpy(text + length, it, size);
    length += size;
}

/* a dotted key of so many parts; no key of a text here is less, so that it stands at the very bottom of its map */
static void key(int parts) {
    for (int i = 1; i < parts; i++)
        put("-.");
    put("-");
}

/* tables in the first `wide` tables of an inline table, as many as make their maps higher */
static void siblings(int wide) {
    for (int table = 0; table < wide; table++)
        for (const char *name = "0123456789ABCDE"; *name; name++) {
            for (int i = 0; i < table; i++)
                put("-.");
            put((char[]){*name, '=', '1', ',', '\0'});
        }
}

/* a table 80 deep by its header, 80 by a dotted key, and 80 times 80 by dotted keys of inline tables */
static void deep(int wide) {
    put("[");
    key(DEPTH);
    put("]\n");
    key(DEPTH);
    put("=");
    for (int i = 0; i < DEPTH; i++) {
        put("{");
        siblings(wide);
        key(DEPTH);
        put("=");
    }
    put("1");
    for (int i = 0; i < DEPTH; i++)
        put("}");
}

static void ordinary(void) {
    put("address = 5\nbroadcast = true\n[[rule]]\ndirection = \"both\"\nsubaddresses = \"1-3, 30\"\ncounts = \"1-8\"\n"
        "[[mode]]\nto = \"both\"\ncodes = \"0-31\"\n[[initial]]\nsubaddress = 1\nwords = [1, 2, 3]\n");
}

static void arrays(void) {
    put("a = ");
    while (length < LONGEST)
        put("[");
}

static void dots(void) {
    while (length + 2 < LONGEST)
        put("-.");
}

/* headers, each in an array of tables of the one before, and a dotted key */
static void headers(void) {
    for (int i = 1; i <= DEPTH; i++) {
        put("[[");
        key(i);
        put("]]\n");
    }
    key(DEPTH);
    put(" = 1\n");
}

static void unknown_key(void) { deep(0); }

static void trailing(void) {
    deep(0);
    put(" 1");
}

/* the key of the deep table once more */
static void duplicate(int wide) {
    deep(wide);
    put("\n");
    key(DEPTH);
    put(" = 1\n");
}

static void small_duplicate(void) { duplicate(0); }

static void large_duplicate(void) { duplicate(27); }

static const struct {
    const char *name;
    void (*put)(void);
} hostile[] = {{"arrays", arrays},
               {"dots", dots},
               {"headers", headers},
               {"an unknown key", unknown_key},
               {"what trails a deep table", trailing},
               {"a deep table that is defined twice", small_duplicate},
               {"the same with large tables", large_duplicate}};

/* --- what they take ------------------------------------------------------------------------------------------------- */

static void of_texts(void) {
    ordinary();
    for (int i = 0; i < CALLS; i++) {
        calls[i].ordinary = taken(calls[i].call);
        row(calls[i].name, "an ordinary text", status == RT1553_DONE && calls[i].ordinary <= OF_ORDINARY);
    }
    for (size_t of = 0; of < sizeof hostile / sizeof *hostile; of++) {
        length = 0;
        hostile[of].put();
        for (int i = 0; i < CALLS; i++) {
            size_t took = taken(calls[i].call);
            row(calls[i].name, hostile[of].name, status == RT1553_REFUSED && took <= OF_ANY && took <= OF_BYTE * length + OF_CALL);
            if (took > calls[i].most)
                calls[i].most = took;
        }
    }
}

static void of_terminals(void) {
    length = 0;
    ordinary();
    if (rt1553_terminal_new(TEXT, &terminal, &fault) != RT1553_DONE)
        exit(1);
    static const struct {
        const char *name;
        uint8_t (*call)(void);
        size_t most;
    } rows[] = {{"rt1553_terminal_step", steps, OF_STEP},
                {"rt1553_terminal_copy", copy, OF_ORDINARY},
                {"rt1553_terminal_save", save, OF_ORDINARY},
                {"rt1553_terminal_restore", restore, OF_ORDINARY},
                {"rt1553_terminal_restore, refused", refused_state, OF_ORDINARY},
                {"rt1553_bus_new", bus_new, OF_ORDINARY},
                {"rt1553_bus_join", bus_join, OF_ORDINARY},
                {"rt1553_bus_step", bus_steps, OF_STEP},
                {"rt1553_bus_copy", bus_copy, OF_COPY},
                {"rt1553_bus_terminal", bus_terminal, OF_ORDINARY},
                {"rt1553_bus_save", bus_save, OF_ORDINARY},
                {"rt1553_bus_restore", bus_restore, OF_ORDINARY}};
    for (size_t i = 0; i < sizeof rows / sizeof *rows; i++) {
        size_t took = taken(rows[i].call);
        row(rows[i].name, "a terminal", status == RT1553_DONE && took <= rows[i].most);
        printf("%s: %zu bytes\n", rows[i].name, took);
    }
    rt1553_terminal_free(terminal);
    rt1553_bus_free(bus);
}

int main(void) {
    /* its place is as stacks want it: a multiple of the size of a page */
    stack = aligned_alloc(STACK, STACK);
    if (!stack)
        return 1;
    of_texts();
    of_terminals();
    for (int i = 0; i < CALLS; i++)
        printf("%s: %zu bytes, %zu at most\n", calls[i].name, calls[i].ordinary, calls[i].most);
    free(stack);
    printf("%d passed, %d failed\n", passed, failed);
    return failed != 0;
}
