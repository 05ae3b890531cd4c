/* What rt1553.h says of each call, that no clause says or that lies on C's side: layouts, statuses, rooms, what stays as it
   was, the calls in the header and the batch. The last line is 'N passed, M failed'. */
#include "rows.h"

static const uint8_t *bytes(const char *text) { return (const uint8_t *)text; }

#define TEXT(text) bytes(text), strlen(text)

static const char *const FIVE = "address = 5\n";
static const char *const SIX = "address = 6\n";
static const char *const REFUSED = "adress = 5\n";
static const char *const WHOLE = "address = 5\n"
                                 "broadcast = true\n"
                                 "accept_bus_control = true\n"
                                 "bit = 1\n"
                                 "[[rule]]\n"
                                 "to = \"both\"\n"
                                 "direction = \"both\"\n"
                                 "subaddresses = \"1-30\"\n"
                                 "[[mode]]\n"
                                 "to = \"both\"\n"
                                 "codes = \"0-31\"\n";

static int tells(const rt1553_fault *fault, uint8_t kind, uint8_t number, uint64_t line, const char *text) {
    return fault->kind == kind && fault->number == number && fault->line == line && strcmp(fault->text, text) == 0
           && fault->length == strlen(text);
}

static int has_zeros(const rt1553_fault *fault) {
    for (size_t at = fault->length; at < sizeof fault->text; at++)
        if (fault->text[at] != 0) return 0;
    return 1;
}

static rt1553_terminal *terminal_of(const char *text) {
    rt1553_terminal *terminal = NULL;
    rt1553_fault fault = untouched();
    row("a terminal is made", rt1553_terminal_new(TEXT(text), &terminal, &fault) == RT1553_DONE && terminal);
    row("and no fault is told", is_untouched(&fault));
    return terminal;
}

static void version(void) {
    rt1553_versions versions;
    rt1553_version(&versions);
    row("the version", versions.major == 0 && versions.minor == 1 && versions.canonical_text == 2);
}

static void checks(void) {
    rt1553_fault fault = untouched();
    row("an accepted text", rt1553_check(TEXT(FIVE), &fault) == RT1553_DONE && is_untouched(&fault));
    row("a refused profile", rt1553_check(TEXT(REFUSED), &fault) == RT1553_REFUSED);
    row("its fault", tells(&fault, RT1553_OF_PROFILE, 2, 0, "profile: root: unknown key\n"));
    row("a refused canonical text", rt1553_check(TEXT("rt1553 2\naddress 31\n"), &fault) == RT1553_REFUSED);
    row("its line", tells(&fault, RT1553_OF_CANONICAL_TEXT, 1, 2, "canonical text: line 2\n"));
    row("no text", rt1553_check(bytes(""), 0, &fault) == RT1553_REFUSED);
    row("its address is missing", tells(&fault, RT1553_OF_PROFILE, 3, 0, "profile: root: address is missing\n"));
}

static void canonical_texts(void) {
    uint8_t to[RT1553_CANONICAL_ROOM], again[RT1553_CANONICAL_ROOM];
    size_t length = 0, other = 7;
    rt1553_fault fault = untouched();
    row("canonical bytes", rt1553_canonical(TEXT(WHOLE), to, sizeof to, &length, &fault) == RT1553_DONE);
    row("no fault is told", is_untouched(&fault));
    row("they are their own", rt1553_canonical(to, length, again, sizeof again, &other, &fault) == RT1553_DONE
                                  && other == length && memcmp(to, again, length) == 0);
    memset(again, 0xa5, sizeof again);
    row("a byte of room too few", rt1553_canonical(TEXT(WHOLE), again, length - 1, &other, &fault) == RT1553_NO_ROOM);
    row("what is needed is told", other == length && is_untouched(&fault) && again[0] == 0xa5 && again[length - 2] == 0xa5);
    row("just enough room", rt1553_canonical(TEXT(WHOLE), again, length, &other, &fault) == RT1553_DONE && other == length);
    row("no room", rt1553_canonical(TEXT(FIVE), again, 0, &other, &fault) == RT1553_NO_ROOM && other > 0);
    row("a refused text", rt1553_canonical(TEXT(REFUSED), to, sizeof to, &other, &fault) == RT1553_REFUSED && other == 0);
    row("its fault", fault.kind == RT1553_OF_PROFILE && fault.number == 2);
}

static void comparisons(void) {
    static const char script[] = "A c 2c02\nA gap\nslot\n";
    uint8_t to[RT1553_SCRIPT_ROOM];
    size_t length = 7;
    rt1553_fault fault = untouched();
    row("the same", rt1553_compare(TEXT(FIVE), TEXT("address = 0x05"), to, sizeof to, &length, &fault) == RT1553_DONE);
    row("not the same", rt1553_compare(TEXT(FIVE), TEXT(SIX), to, sizeof to, &length, &fault) == RT1553_DIFFER);
    row("the script", length == strlen(script) && memcmp(to, script, length) == 0 && is_untouched(&fault));
    memset(to, 0xa5, sizeof to);
    row("no room for it", rt1553_compare(TEXT(FIVE), TEXT(SIX), to, length - 1, &length, &fault) == RT1553_NO_ROOM);
    row("what is needed for it is told", length == strlen(script) && to[0] == 0xa5 && is_untouched(&fault));
    row("the first is refused", rt1553_compare(TEXT(REFUSED), TEXT("x"), to, sizeof to, &length, &fault) == RT1553_REFUSED
                                    && fault.number == 2);
    row("the second is refused", rt1553_compare(TEXT(FIVE), TEXT("x"), to, sizeof to, &length, &fault) == RT1553_REFUSED
                                     && tells(&fault, RT1553_OF_PROFILE, 1, 0, "profile: not TOML\n"));
}

static void runs(void) {
    static const char script[] = "A c 2c02\nA gap\nslot\n", wrong[] = "A c 2c02\nA gap\nslot\nslots\n";
    uint8_t to[64];
    size_t length = 7;
    rt1553_fault fault = untouched();
    row("a run", rt1553_run(TEXT(FIVE), TEXT(script), to, sizeof to, &length, &fault) == RT1553_DONE);
    row("its transcript", length == 9 && memcmp(to, "A s 2800\n", 9) == 0 && is_untouched(&fault));
    row("just enough room", rt1553_run(TEXT(FIVE), TEXT(script), to, 9, &length, &fault) == RT1553_DONE && length == 9);
    memset(to, 0xa5, sizeof to);
    row("no room", rt1553_run(TEXT(FIVE), TEXT(script), to, 8, &length, &fault) == RT1553_NO_ROOM);
    row("what is needed for a transcript is told", length == 9 && to[0] == 0xa5 && is_untouched(&fault));
    row("no room before a refused line", rt1553_run(TEXT(FIVE), TEXT(wrong), to, 8, &length, &fault) == RT1553_NO_ROOM
                                             && length == 9 && to[0] == 0xa5 && is_untouched(&fault));
    row("a refused line", rt1553_run(TEXT(FIVE), TEXT(wrong), to, sizeof to, &length, &fault) == RT1553_REFUSED);
    row("its number", length == 9 && tells(&fault, RT1553_OF_SCRIPT, 1, 4, "script: line 4\n"));
    row("zero bytes behind its text", has_zeros(&fault));
    row("a refused text", rt1553_run(TEXT(REFUSED), TEXT(script), to, sizeof to, &length, &fault) == RT1553_REFUSED && length == 0);
    row("no script", rt1553_run(TEXT(FIVE), TEXT(""), to, 0, &length, &fault) == RT1553_DONE && length == 0);
}

static int is_answer(const rt1553_terminal *terminal, uint8_t what, uint8_t bus, uint16_t bits) {
    return terminal->answer.what == what && terminal->answer.bus == bus && terminal->answer.bits == bits;
}

static void steps(void) {
    rt1553_terminal *t = terminal_of(WHOLE);
    row("nothing was answered yet", t->answer.what == RT1553_SILENT);
    row("a slot without a reply", rt1553_slot(t) == RT1553_DONE && t->answer.what == RT1553_SILENT);
    rt1553_word(t, RT1553_BUS_A, RT1553_COMMAND_SYNC, 0x2862);
    rt1553_word(t, RT1553_BUS_A, RT1553_DATA_SYNC, 0x0011);
    rt1553_word(t, RT1553_BUS_A, RT1553_DATA_SYNC, 0x0022);
    row("a gap", rt1553_gap(t, RT1553_BUS_A) == RT1553_DONE && t->answer.what == RT1553_HANDS_RECEIVED);
    row("words are handed over", !t->answer.broadcast && t->answer.subaddress == 3 && t->answer.count == 2
                                     && t->answer.words[0] == 0x11 && t->answer.words[1] == 0x22);
    row("the status", rt1553_slot(t) == RT1553_DONE && is_answer(t, RT1553_SENDS_STATUS, RT1553_BUS_A, 0x2800));
    row("and no more", rt1553_slot(t) == RT1553_DONE && t->answer.what == RT1553_SILENT);
    rt1553_write(t, 3, 2, 0x00bb);
    rt1553_flag(t, RT1553_SERVICE_REQUEST, true);
    rt1553_word(t, RT1553_BUS_B, RT1553_COMMAND_SYNC, 0x2c62);
    rt1553_gap(t, RT1553_BUS_B);
    row("a status with service request", rt1553_slot(t) == RT1553_DONE && is_answer(t, RT1553_SENDS_STATUS, RT1553_BUS_B, 0x2900));
    row("the first word", rt1553_slot(t) == RT1553_DONE && is_answer(t, RT1553_SENDS_DATA, RT1553_BUS_B, 0));
    row("the word that was written", rt1553_slot(t) == RT1553_DONE && is_answer(t, RT1553_SENDS_DATA, RT1553_BUS_B, 0xbb));
    rt1553_flag(t, RT1553_SERVICE_REQUEST, false);
    rt1553_vector(t, 0x0123);
    rt1553_bit(t, 0x4567);
    rt1553_word(t, RT1553_BUS_A, RT1553_COMMAND_SYNC, 0x2c10);
    rt1553_gap(t, RT1553_BUS_A);
    rt1553_slot(t);
    row("the vector word", rt1553_slot(t) == RT1553_DONE && is_answer(t, RT1553_SENDS_DATA, RT1553_BUS_A, 0x0123));
    rt1553_word(t, RT1553_BUS_A, RT1553_COMMAND_SYNC, 0x2c13);
    rt1553_gap(t, RT1553_BUS_A);
    rt1553_slot(t);
    row("the BIT word", rt1553_slot(t) == RT1553_DONE && is_answer(t, RT1553_SENDS_DATA, RT1553_BUS_A, 0x4567));
    rt1553_word(t, RT1553_BUS_A, RT1553_COMMAND_SYNC, 0x2862);
    rt1553_noise(t, RT1553_BUS_A);
    rt1553_gap(t, RT1553_BUS_A);
    row("noise spoils a message", rt1553_slot(t) == RT1553_DONE && t->answer.what == RT1553_SILENT);
    static const struct {
        uint16_t command, word;
        int words;
        uint8_t what;
    } codes[] = {{0x2c01, 0, 0, RT1553_HANDS_SYNCHRONIZE},
                 {0x2811, 0x0042, 1, RT1553_HANDS_SYNCHRONIZE_WITH},
                 {0x2c03, 0, 0, RT1553_HANDS_SELF_TEST},
                 {0x2c00, 0, 0, RT1553_HANDS_BUS_CONTROL}};
    for (size_t i = 0; i < sizeof codes / sizeof *codes; i++) {
        rt1553_word(t, RT1553_BUS_A, RT1553_COMMAND_SYNC, codes[i].command);
        for (int k = 0; k < codes[i].words; k++)
            rt1553_word(t, RT1553_BUS_A, RT1553_DATA_SYNC, codes[i].word);
        rt1553_gap(t, RT1553_BUS_A);
        row("what is handed over", t->answer.what == codes[i].what && (!codes[i].words || t->answer.bits == codes[i].word));
        rt1553_slot(t);
    }
    rt1553_terminal_free(t);
}

/* A terminal whose reply of a status word and two data words begins at the next slot. */
static rt1553_terminal *replying(void) {
    rt1553_terminal *t = terminal_of(WHOLE);
    rt1553_write(t, 3, 2, 0x00bb);
    rt1553_word(t, RT1553_BUS_A, RT1553_COMMAND_SYNC, 0x2c62);
    rt1553_gap(t, RT1553_BUS_A);
    return t;
}

/* Whether a terminal sends its status and two words, the second of them this one, and no more. */
static int sends(rt1553_terminal *t, uint16_t word) {
    int status = rt1553_slot(t) == RT1553_DONE && is_answer(t, RT1553_SENDS_STATUS, RT1553_BUS_A, 0x2800);
    int first = rt1553_slot(t) == RT1553_DONE && is_answer(t, RT1553_SENDS_DATA, RT1553_BUS_A, 0);
    int second = rt1553_slot(t) == RT1553_DONE && is_answer(t, RT1553_SENDS_DATA, RT1553_BUS_A, word);
    return status && first && second && rt1553_slot(t) == RT1553_DONE && t->answer.what == RT1553_SILENT;
}

static void copies(void) {
    rt1553_fault fault = untouched();
    rt1553_terminal *t = replying(), *copy = NULL, *last = NULL;
    t->event.bits = 0x1234;
    rt1553_gap(t, RT1553_BUS_B);
    row("a copy", rt1553_terminal_copy(t, &copy, &fault) == RT1553_DONE && copy && copy != t && is_untouched(&fault));
    row("with the same event and answer", memcmp(copy, t, sizeof *t) == 0);
    row("a copy of the copy", rt1553_terminal_copy(copy, &last, &fault) == RT1553_DONE);
    rt1553_write(copy, 3, 2, 0x00cc);
    rt1553_flag(t, RT1553_BUSY, true);
    row("neither knows of the other", sends(copy, 0xcc) && sends(t, 0xbb));
    rt1553_terminal_free(t);
    rt1553_terminal_free(copy);
    row("nor that the others are freed", sends(last, 0xbb));
    rt1553_terminal_free(last);
}

static void states(void) {
    uint8_t state[RT1553_STATE_ROOM], again[RT1553_STATE_ROOM];
    size_t length = 7, other = 7;
    rt1553_fault fault = untouched();
    rt1553_terminal *t = replying(), *restored = NULL, *none = NULL;
    row("a saved state", rt1553_terminal_save(t, state, sizeof state, &length, &fault) == RT1553_DONE && is_untouched(&fault));
    row("it begins with its version", length <= RT1553_STATE_ROOM && memcmp(state, "rt1553-state 1\nbits 01 0000 0000 ", 33) == 0);
    row("the terminal stays as it was", t->event.what == RT1553_GAP && t->answer.what == RT1553_SILENT);
    memset(again, 0xa5, sizeof again);
    row("a byte of room too few", rt1553_terminal_save(t, again, length - 1, &other, &fault) == RT1553_NO_ROOM);
    row("what is needed for it is told", other == length && again[0] == 0xa5 && again[length - 2] == 0xa5 && is_untouched(&fault));
    row("no room", rt1553_terminal_save(t, again, 0, &other, &fault) == RT1553_NO_ROOM && other == length);
    row("just enough room", rt1553_terminal_save(t, again, length, &other, &fault) == RT1553_DONE && memcmp(again, state, length) == 0);
    row("restored", rt1553_terminal_restore(state, length, &restored, &fault) == RT1553_DONE && restored && is_untouched(&fault));
    row("its event and its answer", restored->event.what == RT1553_WORD && restored->answer.what == RT1553_SILENT);
    row("it saves to the same bytes", rt1553_terminal_save(restored, again, sizeof again, &other, &fault) == RT1553_DONE
                                          && other == length && memcmp(again, state, length) == 0);
    rt1553_write(restored, 3, 2, 0x00cc);
    row("both go on", sends(restored, 0xcc) && sends(t, 0xbb));
    for (size_t few = 0; few < length; few++)
        if (rt1553_terminal_restore(state, few, &none, &fault) != RT1553_REFUSED || fault.kind != RT1553_OF_STATE || fault.number != 1)
            row("a beginning is refused", 0);
    row("nothing was made", !none);
    row("no bytes", rt1553_terminal_restore(bytes(""), 0, &none, &fault) == RT1553_REFUSED
                        && tells(&fault, RT1553_OF_STATE, 1, 1, "saved state: line 1\n") && has_zeros(&fault));
    state[length] = '\n';
    row("a byte too many", rt1553_terminal_restore(state, length + 1, &none, &fault) == RT1553_REFUSED
                               && tells(&fault, RT1553_OF_STATE, 2, 0, "saved state: bytes after the end\n") && !none);
    rt1553_terminal_free(t);
    rt1553_terminal_free(restored);
}

/* Numbers that mean no event are refused, and change nothing: the terminal answers as one that never met them. */
static void refused_events(void) {
    static const rt1553_event bad[] = {
        {.what = 8},
        {.what = 255},
        {.what = RT1553_WORD, .bus = 2, .parity = RT1553_RIGHT_PARITY},
        {.what = RT1553_WORD, .sync = 2, .parity = RT1553_RIGHT_PARITY},
        {.what = RT1553_WORD, .parity = 3},
        {.what = RT1553_NOISE, .bus = 2},
        {.what = RT1553_GAP, .bus = 255},
        {.what = RT1553_WRITE, .subaddress = 0, .number = 1},
        {.what = RT1553_WRITE, .subaddress = 31, .number = 1},
        {.what = RT1553_WRITE, .subaddress = 1, .number = 0},
        {.what = RT1553_WRITE, .subaddress = 1, .number = 33},
        {.what = RT1553_FLAG, .flag = 4},
        {.what = RT1553_FLAG, .value = 2},
    };
    rt1553_terminal *t = terminal_of(FIVE);
    rt1553_word(t, RT1553_BUS_A, RT1553_COMMAND_SYNC, 0x2c02);
    rt1553_gap(t, RT1553_BUS_A);
    rt1553_slot(t);
    for (size_t i = 0; i < sizeof bad / sizeof *bad; i++) {
        row("no event", rt1553_play(t, bad[i]) == RT1553_REFUSED);
        row("nothing changes", is_answer(t, RT1553_SENDS_STATUS, RT1553_BUS_A, 0x2800));
        row("also not its numbers", memcmp(&t->event, &bad[i], sizeof bad[i]) == 0);
    }
    rt1553_terminal_free(t);
    t = NULL;
    rt1553_fault fault = untouched();
    row("no terminal of a refused text", rt1553_terminal_new(TEXT(REFUSED), &t, &fault) == RT1553_REFUSED && !t);
    row("its fault", tells(&fault, RT1553_OF_PROFILE, 2, 0, "profile: root: unknown key\n"));
    rt1553_terminal_free(t);
}

static void batches(void) {
    rt1553_event events[9] = {{.what = RT1553_WORD, .parity = RT1553_RIGHT_PARITY, .bits = 0x2c02},
                              {.what = RT1553_GAP},
                              {.what = RT1553_SLOT},
                              {.what = RT1553_SLOT},
                              {.what = RT1553_WORD, .parity = RT1553_RIGHT_PARITY, .bits = 0x2c02},
                              {.what = RT1553_GAP},
                              {.what = RT1553_SLOT},
                              {.what = 8},
                              {.what = RT1553_SLOT}};
    rt1553_answer answers[4];
    size_t places[4], answered = 7;
    rt1553_terminal *t = terminal_of(FIVE);
    row("events up to one that is none", rt1553_terminal_play(t, events, 9, answers, places, 4, &answered) == 7);
    row("their answers", answered == 2 && places[0] == 2 && places[1] == 6 && answers[1].bits == 0x2800);
    row("a full room", rt1553_terminal_play(t, events, 7, answers, places, 1, &answered) == 3 && answered == 1);
    row("those behind", rt1553_terminal_play(t, events + 3, 4, answers, places, 1, &answered) == 4 && places[0] == 3);
    row("no room", rt1553_terminal_play(t, events, 7, answers, places, 0, &answered) == 0 && answered == 0);
    rt1553_terminal_free(t);
}

int main(void) {
    version();
    checks();
    canonical_texts();
    comparisons();
    runs();
    steps();
    copies();
    states();
    refused_events();
    batches();
    printf("%d passed, %d failed\n", passed, failed);
    return failed > 0;
}
