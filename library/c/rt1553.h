/* The remote terminal of MIL-STD-1553B that `rt1553` proves: calls for C and C++.

   Texts. A text is bytes and their number. It needs no zero byte at its end, and may hold any
   bytes. Every call that takes the text of a terminal accepts a profile text (docs/profile.md) or a
   canonical text (docs/canonical-text.md).

   Statuses. A call that returns uint8_t returns RT1553_DONE, RT1553_DIFFER, RT1553_REFUSED,
   RT1553_NO_MEMORY or RT1553_NO_ROOM. With RT1553_REFUSED and RT1553_NO_MEMORY *fault, if the call
   has one, says why; with the others it stays as it was.

   Pointers. No pointer may be null, not even one with a length or a room of 0. A call reads and
   writes only what its pointers name, and keeps none of them. What it writes to may not overlap
   with anything else that it is given.

   Threads. There is no global state, so any number of threads may make calls at once. A terminal
   or a bus takes one call at a time. It may be handed from thread to thread if the threads order
   that, by a lock or a join.

   Stack. A step needs up to 4 KiB. A call that copies, saves or restores a terminal needs up to 128
   KiB, whatever the bytes; a call for a bus too, but rt1553_bus_copy up to 512 KiB. Each other call
   needs as much for a text whose tables nest as those of a profile do, and up to 128 KiB more if
   memory runs out. A text whose tables nest deeper needs more, even if it is refused: the texts of
   N bytes that were tried needed up to 180 N bytes and 256 KiB, and none of up to 1 MiB needed more
   than 4 MiB. If a thread has less, a signal ends the process. So give a thread that reads texts of
   others 4 MiB, and refuse longer texts first. This is measured and not proved (docs/library.md).

   Memory comes from malloc and realloc, and goes back by free. Only a terminal or a bus outlives the
   call that makes it. A step, rt1553_bus_join and rt1553_version take no memory. Calls that take
   memory may not be made in a signal handler, nor in the forked child of a process with threads.

   Proved, and what you owe. Each call does what its contract in crates/rt1553_c says, in a program
   that keeps to this page; docs/library.md says what the contracts are. */
#ifndef RT1553_H
#define RT1553_H

#include <stdbool.h>
#include <stddef.h>
#include <stdint.h>
#include <stdlib.h>

#ifdef __cplusplus
extern "C" {
#define RT1553_ASSERT(fact) static_assert(fact, "this compiler lays out a struct of rt1553.h in another way than the library")
#else
#define RT1553_ASSERT(fact) _Static_assert(fact, "this compiler lays out a struct of rt1553.h in another way than the library")
#endif

/* Statuses. */
enum {
    RT1553_DONE = 0,      /* done; from rt1553_compare: the same terminal */
    RT1553_DIFFER = 1,    /* from rt1553_compare: not the same terminal */
    RT1553_REFUSED = 2,   /* a text, a saved state or a terminal is refused, or numbers mean no event */
    RT1553_NO_MEMORY = 4, /* out of memory, which says nothing about the texts */
    RT1553_NO_ROOM = 5    /* what is to be written is longer than its room */
};

/* --- the version ------------------------------------------------------------------------------ */

/* The versions of the library and of the canonical texts that it writes. It also reads canonical
   texts of earlier versions. */
typedef struct {
    uint16_t major;
    uint16_t minor;
    uint16_t canonical_text;
} rt1553_versions;

/* Writes the versions of the library that the program runs with. */
void rt1553_version(rt1553_versions *version);

/* --- faults ----------------------------------------------------------------------------------- */

/* The kind of a fault: what it is about. */
enum {
    RT1553_OF_PROFILE = 1,        /* a profile text */
    RT1553_OF_CANONICAL_TEXT = 2, /* a canonical text */
    RT1553_OF_MEMORY = 3,         /* out of memory */
    RT1553_OF_SCRIPT = 4,         /* a script, or writing its transcript */
    RT1553_OF_STATE = 5           /* a saved state */
};

/* Why a call was refused. docs/faults.md lists the numbers, which stay when texts change. */
typedef struct {
    uint8_t kind;   /* RT1553_OF_PROFILE, .. */
    uint8_t number; /* of ProfileFault, CanonFault, RunFault or StateFault; 0 for RT1553_OF_MEMORY */
    uint8_t length; /* the number of bytes of the line in `text` */
    uint64_t line;  /* the line of a canonical text, script or saved state, from 1; 0 if none */
    char text[136]; /* the line that `rt1553` prints, with its line feed, then zero bytes */
} rt1553_fault;

/* --- texts ------------------------------------------------------------------------------------ */

/* Room for any canonical text, and for any script that rt1553_compare writes. */
enum { RT1553_CANONICAL_ROOM = 7680, RT1553_SCRIPT_ROOM = 4608 };

/* RT1553_DONE: the text is accepted. RT1553_REFUSED: it is refused, and *fault is its first fault.
   RT1553_NO_MEMORY. */
uint8_t rt1553_check(const uint8_t *text, size_t text_length, rt1553_fault *fault);

/* Writes the canonical bytes of a text to the front of `to`, and their number to *length. Two texts
   have the same canonical bytes exactly if they mean the same terminal. RT1553_NO_ROOM: the text is
   accepted, *length bytes are needed, and `to` stays as it was. RT1553_REFUSED and
   RT1553_NO_MEMORY: `to` stays as it was, and *length is 0. */
uint8_t rt1553_canonical(const uint8_t *text, size_t text_length, uint8_t *to, size_t room, size_t *length,
                         rt1553_fault *fault);

/* RT1553_DONE: two texts mean the same terminal, so both answer alike for ever. RT1553_DIFFER: they
   do not. Then the front of `to` has a script that the two answer differently from power-up, and
   *length is its number of bytes. RT1553_NO_ROOM: they differ too, *length bytes are needed, and
   `to` stays as it was. A room of RT1553_SCRIPT_ROOM is always enough. RT1553_REFUSED: *fault is
   the fault of the first text or, if that is accepted, of the second. RT1553_NO_MEMORY. */
uint8_t rt1553_compare(const uint8_t *first, size_t first_length, const uint8_t *second, size_t second_length, uint8_t *to,
                       size_t room, size_t *length, rt1553_fault *fault);

/* Plays a script (docs/script.md) to the terminal of a text, from power-up. Writes the transcript
   to the front of `to`, and its number of bytes to *length. RT1553_DONE: this is the whole
   transcript. RT1553_REFUSED: the text is refused, and *length is 0; or a line of the script is
   refused, and the transcript of the lines before it is written. RT1553_NO_ROOM: that transcript,
   of the whole script or of the lines before a refused one, has *length bytes, and `to` stays as it
   was. RT1553_NO_MEMORY: a beginning of the transcript is written, which says nothing about the
   rest of the script. The transcript is gathered in memory of its own before it is written to `to`;
   if that memory runs out, the fault is RT1553_OF_SCRIPT, number 5. */
uint8_t rt1553_run(const uint8_t *text, size_t text_length, const uint8_t *script, size_t script_length, uint8_t *to,
                   size_t room, size_t *length, rt1553_fault *fault);

/* --- a terminal ------------------------------------------------------------------------------- */

/* The buses. */
enum { RT1553_BUS_A = 0, RT1553_BUS_B = 1 };

/* The sync of a word: command and status sync, or data sync. */
enum { RT1553_COMMAND_SYNC = 0, RT1553_DATA_SYNC = 1 };

/* Instead of a parity bit: the right one. */
enum { RT1553_RIGHT_PARITY = 2 };

/* The flags that the subsystem sets and the status word shows. */
enum { RT1553_SERVICE_REQUEST = 0, RT1553_BUSY = 1, RT1553_SUBSYSTEM_FLAG = 2, RT1553_TERMINAL_FLAG = 3 };

/* The kinds of events, each with the fields that it uses. */
enum {
    RT1553_WORD = 0,   /* a word on a bus: `bus`, `sync`, `parity`, `bits` */
    RT1553_NOISE = 1,  /* something on a bus that is not a word: `bus` */
    RT1553_GAP = 2,    /* a gap on a bus, which ends a message: `bus` */
    RT1553_WRITE = 3,  /* the subsystem writes a word to transmit: `subaddress`, `number`, `bits` */
    RT1553_VECTOR = 4, /* the subsystem gives a new vector word: `bits` */
    RT1553_BIT = 5,    /* the subsystem gives a new BIT word: `bits` */
    RT1553_FLAG = 6,   /* the subsystem sets or clears a flag: `flag`, `value` */
    RT1553_SLOT = 7    /* the time of one word of a reply: the next word is sent */
};

/* An event. Only the fields that its kind names are read. */
typedef struct {
    uint8_t what;       /* RT1553_WORD, .. */
    uint8_t bus;        /* RT1553_BUS_A or RT1553_BUS_B */
    uint8_t sync;       /* RT1553_COMMAND_SYNC or RT1553_DATA_SYNC */
    uint8_t parity;     /* 0, 1 or RT1553_RIGHT_PARITY */
    uint8_t subaddress; /* 1 to 30 */
    uint8_t number;     /* 1 to 32 */
    uint8_t flag;       /* RT1553_SERVICE_REQUEST, .. */
    uint8_t value;      /* 0 or 1 */
    uint16_t bits;      /* the 16 bits of a word */
} rt1553_event;

/* The kinds of answers, each with the fields that it uses. A word is sent only in a slot. Something
   is handed over only at a gap. */
enum {
    RT1553_SILENT = 0,                 /* nothing: the answer to most events */
    RT1553_SENDS_STATUS = 1,           /* a status word is sent: `bus`, `bits` */
    RT1553_SENDS_DATA = 2,             /* a data word is sent: `bus`, `bits` */
    RT1553_HANDS_RECEIVED = 3,         /* received: `broadcast`, `subaddress`, `count`, `words` */
    RT1553_HANDS_SYNCHRONIZE = 4,      /* synchronize */
    RT1553_HANDS_SYNCHRONIZE_WITH = 5, /* synchronize with a word: `bits` */
    RT1553_HANDS_SELF_TEST = 6,        /* initiate self test */
    RT1553_HANDS_BUS_CONTROL = 7       /* the offer of dynamic bus control was accepted */
};

/* The answer to an event. Fields that its kind does not name mean nothing. */
typedef struct {
    uint8_t what;       /* RT1553_SILENT, .. */
    uint8_t bus;        /* RT1553_BUS_A or RT1553_BUS_B */
    uint16_t bits;      /* the 16 bits of a word */
    bool broadcast;     /* whether the words came by broadcast */
    uint8_t subaddress; /* 1 to 30 */
    uint8_t count;      /* the number of words, 1 to 32 */
    uint16_t words[32]; /* the words, in order, from the front */
} rt1553_answer;

/* A terminal. After these two fields comes memory that only the library reads and writes. So only
   rt1553_terminal_new, rt1553_terminal_copy and rt1553_terminal_restore make a terminal, and the
   struct itself is never copied. A program writes to `event`, reads `answer`, and touches nothing
   else. */
typedef struct {
    rt1553_event event;
    rt1553_answer answer;
} rt1553_terminal;

/* Makes the terminal of a text, at power-up, and writes its address to *terminal. The caller owns
   it and frees it by rt1553_terminal_free. Its event is a word, its answer RT1553_SILENT.
   RT1553_REFUSED and RT1553_NO_MEMORY: *terminal stays as it was. */
uint8_t rt1553_terminal_new(const uint8_t *text, size_t text_length, rt1553_terminal **terminal, rt1553_fault *fault);

/* Plays terminal->event, and leaves the answer to it in terminal->answer: RT1553_DONE. If the
   numbers mean no event: RT1553_REFUSED, and nothing changes. Read the answer before the next step,
   which writes another one. */
uint8_t rt1553_terminal_step(rt1553_terminal *terminal);

/* Frees a terminal, which may not be used afterwards. Does nothing if it is null. */
static inline void rt1553_terminal_free(rt1553_terminal *terminal) { free(terminal); }

/* Makes a terminal with the same event and answer, which answers every further event as the other
   does, and writes its address to *copy. The caller owns it and frees it by rt1553_terminal_free.
   RT1553_NO_MEMORY: *copy stays as it was. */
uint8_t rt1553_terminal_copy(const rt1553_terminal *terminal, rt1553_terminal **copy, rt1553_fault *fault);

/* Room for any saved state. */
enum { RT1553_STATE_ROOM = 13056 };

/* Writes the saved state of a terminal (docs/library.md) to the front of `to`, and its number of
   bytes to *length. A room of RT1553_STATE_ROOM is always enough. RT1553_NO_ROOM: *length bytes are
   needed, and `to` stays as it was. RT1553_NO_MEMORY: `to` stays as it was, and *length is 0. */
uint8_t rt1553_terminal_save(const rt1553_terminal *terminal, uint8_t *to, size_t room, size_t *length, rt1553_fault *fault);

/* Makes a terminal in a saved state, which answers every further event as the saved terminal does,
   and writes its address to *terminal. The caller owns it and frees it by rt1553_terminal_free. Its
   event is a word, its answer RT1553_SILENT. RT1553_REFUSED: the bytes are no saved state.
   RT1553_REFUSED and RT1553_NO_MEMORY: *terminal stays as it was. */
uint8_t rt1553_terminal_restore(const uint8_t *state, size_t state_length, rt1553_terminal **terminal, rt1553_fault *fault);

/* Plays events one after the other, up to the first whose numbers mean none, and returns how many
   were played. Each answer other than RT1553_SILENT goes to `answers`, and the number of its event,
   from 0, to `places`; *answered is the number of these answers. When there are `room` of them, no
   more events are played: call again for the rest. The room is 1 or more. */
size_t rt1553_terminal_play(rt1553_terminal *terminal, const rt1553_event *events, size_t count, rt1553_answer *answers,
                            size_t *places, size_t room, size_t *answered);

/* --- one call an event ------------------------------------------------------------------------ */

/* Each sets terminal->event and plays it, as rt1553_terminal_step does. */

static inline uint8_t rt1553_play(rt1553_terminal *terminal, rt1553_event event) {
    terminal->event = event;
    return rt1553_terminal_step(terminal);
}

static inline rt1553_event rt1553_event_of(uint8_t what) {
    rt1553_event event = {0, 0, 0, 0, 0, 0, 0, 0, 0};
    event.what = what;
    return event;
}

/* a word with the right parity bit */
static inline uint8_t rt1553_word(rt1553_terminal *terminal, uint8_t bus, uint8_t sync, uint16_t bits) {
    rt1553_event event = rt1553_event_of(RT1553_WORD);
    event.bus = bus;
    event.sync = sync;
    event.parity = RT1553_RIGHT_PARITY;
    event.bits = bits;
    return rt1553_play(terminal, event);
}

static inline uint8_t rt1553_noise(rt1553_terminal *terminal, uint8_t bus) {
    rt1553_event event = rt1553_event_of(RT1553_NOISE);
    event.bus = bus;
    return rt1553_play(terminal, event);
}

static inline uint8_t rt1553_gap(rt1553_terminal *terminal, uint8_t bus) {
    rt1553_event event = rt1553_event_of(RT1553_GAP);
    event.bus = bus;
    return rt1553_play(terminal, event);
}

static inline uint8_t rt1553_slot(rt1553_terminal *terminal) {
    return rt1553_play(terminal, rt1553_event_of(RT1553_SLOT));
}

static inline uint8_t rt1553_write(rt1553_terminal *terminal, uint8_t subaddress, uint8_t number, uint16_t bits) {
    rt1553_event event = rt1553_event_of(RT1553_WRITE);
    event.subaddress = subaddress;
    event.number = number;
    event.bits = bits;
    return rt1553_play(terminal, event);
}

static inline uint8_t rt1553_vector(rt1553_terminal *terminal, uint16_t bits) {
    rt1553_event event = rt1553_event_of(RT1553_VECTOR);
    event.bits = bits;
    return rt1553_play(terminal, event);
}

static inline uint8_t rt1553_bit(rt1553_terminal *terminal, uint16_t bits) {
    rt1553_event event = rt1553_event_of(RT1553_BIT);
    event.bits = bits;
    return rt1553_play(terminal, event);
}

static inline uint8_t rt1553_flag(rt1553_terminal *terminal, uint8_t flag, bool value) {
    rt1553_event event = rt1553_event_of(RT1553_FLAG);
    event.flag = flag;
    event.value = value;
    return rt1553_play(terminal, event);
}

/* --- a bus of terminals ----------------------------------------------------------------------- */

/* Instead of the address of a terminal: all terminals of a bus. And how many these are at most. */
enum { RT1553_FOR_ALL = 255, RT1553_MOST_TERMINALS = 31 };

/* What a terminal of a bus sent or handed over. */
typedef struct {
    uint8_t address;      /* the address of the terminal, 0 to 30 */
    rt1553_answer answer; /* never RT1553_SILENT */
} rt1553_bus_answer;

/* A bus with up to 31 terminals of different addresses. After these fields comes memory that only
   the library reads and writes. So only rt1553_bus_new, rt1553_bus_copy and rt1553_bus_restore make
   a bus, and the struct itself is never copied. A program writes to `event` and `to`, reads the other fields, and
   touches nothing else. */
typedef struct {
    rt1553_event event;
    uint8_t to;                                       /* RT1553_FOR_ALL: a word, noise or a gap on a bus, or a slot.
                                                         The address of a terminal of the bus: an event for it alone,
                                                         such as those of its subsystem */
    uint8_t count;                                    /* how many terminals sent or handed over something */
    bool collided_a;                                  /* whether two or more sent a word on bus A at once */
    bool collided_b;                                  /* whether two or more did on bus B */
    rt1553_bus_answer answers[RT1553_MOST_TERMINALS]; /* the first `count`: what they sent or handed over, in the
                                                         order in which they joined */
} rt1553_bus;

/* Makes a bus without terminals, and writes its address to *bus. The caller owns it and frees it by
   rt1553_bus_free. Its event is a word for all. RT1553_NO_MEMORY: *bus stays as it was. */
uint8_t rt1553_bus_new(rt1553_bus **bus, rt1553_fault *fault);

/* Puts a terminal on a bus, behind the others: RT1553_DONE. What joins is a copy, in the state in
   which the terminal is; the terminal stays the caller's, and as it is. RT1553_REFUSED: a terminal
   of the bus has its address, and nothing changes. So a bus never has more than 31. */
uint8_t rt1553_bus_join(rt1553_bus *bus, const rt1553_terminal *terminal);

/* Plays bus->event, and leaves in the other fields what comes of it: RT1553_DONE. If the numbers
   mean nothing that can happen: RT1553_REFUSED, and nothing changes. A word, noise or a gap comes
   to every terminal. In a slot each sends the next word of its reply; then each hears what the
   others sent on a bus, unless it sent there itself: the word, or noise if two or more sent. */
uint8_t rt1553_bus_step(rt1553_bus *bus);

/* Frees a bus, which may not be used afterwards. Does nothing if it is null. */
static inline void rt1553_bus_free(rt1553_bus *bus) { free(bus); }

/* Makes a bus whose fields are the same and whose terminals answer every further event as those of
   the other, and writes its address to *copy. The caller owns it and frees it by rt1553_bus_free.
   RT1553_NO_MEMORY: *copy stays as it was. */
uint8_t rt1553_bus_copy(const rt1553_bus *bus, rt1553_bus **copy, rt1553_fault *fault);

/* Makes a terminal that goes on as one of a bus, in the state in which that is, and writes its
   address to *terminal. The place of that one is the number of those that joined before it. The
   caller owns what is made, and frees it by rt1553_terminal_free; the bus stays as it is.
   RT1553_REFUSED: the bus has no terminal there, and *fault stays as it was. RT1553_REFUSED and
   RT1553_NO_MEMORY: *terminal stays as it was. */
uint8_t rt1553_bus_terminal(const rt1553_bus *bus, size_t place, rt1553_terminal **terminal, rt1553_fault *fault);

/* Room for the saved state of any bus. */
enum { RT1553_BUS_STATE_ROOM = 32 + RT1553_MOST_TERMINALS * RT1553_STATE_ROOM };

/* Writes the saved state of a bus (docs/library.md) to the front of `to`, and its number of bytes to
   *length. A room of RT1553_BUS_STATE_ROOM is always enough. RT1553_NO_ROOM: *length bytes are
   needed, and `to` stays as it was. RT1553_NO_MEMORY: `to` stays as it was, and *length is 0. This
   and rt1553_bus_restore are plain C over the calls for terminals, so no contract speaks of them. */
uint8_t rt1553_bus_save(const rt1553_bus *bus, uint8_t *to, size_t room, size_t *length, rt1553_fault *fault);

/* Makes a bus in a saved state, whose terminals answer every further event as those of the saved bus
   do, and writes its address to *bus. The caller owns it and frees it by rt1553_bus_free. Its event is
   a word for all, and nothing was answered yet. RT1553_REFUSED: the bytes are no saved state of a
   bus. RT1553_REFUSED and RT1553_NO_MEMORY: *bus stays as it was. */
uint8_t rt1553_bus_restore(const uint8_t *state, size_t state_length, rt1553_bus **bus, rt1553_fault *fault);

/* Sets bus->to and bus->event, and plays it as rt1553_bus_step does. */
static inline uint8_t rt1553_bus_play(rt1553_bus *bus, uint8_t to, rt1553_event event) {
    bus->to = to;
    bus->event = event;
    return rt1553_bus_step(bus);
}

/* How many words of a message are kept: a transfer has two status words and 32 data words. */
enum { RT1553_MOST_SENT = 66 };

/* A word that terminals sent. */
typedef struct {
    uint8_t address; /* of the terminal that sent it; the first of them if words collided */
    uint8_t what;    /* RT1553_SENDS_STATUS or RT1553_SENDS_DATA; RT1553_NOISE_SENT if words collided */
    uint8_t bus;     /* RT1553_BUS_A or RT1553_BUS_B */
    uint16_t bits;   /* the 16 bits of the word; 0 if words collided */
} rt1553_sent;

/* Instead of RT1553_SENDS_STATUS: two or more terminals sent at once, so all hear noise. */
enum { RT1553_NOISE_SENT = 255 };

/* What came of a message. */
typedef struct {
    size_t sent_count;                               /* how many words were sent */
    size_t handed_count;                             /* how often something was handed over */
    rt1553_sent sent[RT1553_MOST_SENT];              /* the first of these words, in order */
    rt1553_bus_answer handed[RT1553_MOST_TERMINALS]; /* the first that was handed over, in order */
} rt1553_message;

/* Plays a whole message on a bus of terminals: the words of the controller, each an event of kind
   RT1553_WORD or RT1553_NOISE on one bus, for all; then a gap there, slots until none sends
   anything, and a gap; and slots and a gap again until in a slot none sends anything. So the reply
   to a transfer is in it, and the time-out if there is none. RT1553_REFUSED: there is no word, or an
   event has another kind or bus, or its numbers mean none; nothing changes. It is plain C that uses
   rt1553_bus_step, so no contract speaks of it. */
uint8_t rt1553_bus_message(rt1553_bus *bus, const rt1553_event *words, size_t count, rt1553_message *message);

/* --- the layout that the library uses --------------------------------------------------------- */

RT1553_ASSERT(sizeof(rt1553_versions) == 6);
RT1553_ASSERT(sizeof(rt1553_fault) == 152 && offsetof(rt1553_fault, line) == 8 && offsetof(rt1553_fault, text) == 16);
RT1553_ASSERT(sizeof(rt1553_event) == 10 && offsetof(rt1553_event, value) == 7 && offsetof(rt1553_event, bits) == 8);
RT1553_ASSERT(sizeof(bool) == 1 && sizeof(rt1553_answer) == 72 && offsetof(rt1553_answer, bits) == 2);
RT1553_ASSERT(offsetof(rt1553_answer, broadcast) == 4 && offsetof(rt1553_answer, count) == 6);
RT1553_ASSERT(offsetof(rt1553_answer, words) == 8);
RT1553_ASSERT(offsetof(rt1553_terminal, answer) == 10);
RT1553_ASSERT(sizeof(rt1553_bus_answer) == 74 && offsetof(rt1553_bus_answer, answer) == 2);
RT1553_ASSERT(offsetof(rt1553_bus, to) == 10 && offsetof(rt1553_bus, collided_a) == 12);
RT1553_ASSERT(offsetof(rt1553_bus, answers) == 14 && sizeof(rt1553_bus) == 2308);

#undef RT1553_ASSERT
#ifdef __cplusplus
}
#endif
#endif
