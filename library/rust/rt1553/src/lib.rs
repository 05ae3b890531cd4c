//! A proved remote terminal of MIL-STD-1553B, and the canonical texts of its profiles: a safe
//! interface to the calls of `rt1553.h`.
//!
//! ```
//! use rt1553::{Answer, Bus, Event, Sync, Terminal};
//!
//! let mut terminal = Terminal::new("address = 5")?;
//! terminal.step(Event::word(Bus::A, Sync::Command, 0x2c02))?;
//! terminal.step(Event::Gap(Bus::A))?;
//! let status = terminal.step(Event::Slot)?;
//! assert_eq!(status, Answer::Sends { bus: Bus::A, sync: Sync::Command, bits: 0x2800 });
//! # Ok::<(), Box<dyn std::error::Error>>(())
//! ```

use rt1553_sys as sys;
use std::alloc::{alloc_zeroed, handle_alloc_error, Layout};
use std::error::Error;
use std::fmt;
use std::mem::MaybeUninit;
use std::ptr::{self, NonNull};

/// Why a call was not done.
#[derive(Clone, Debug, PartialEq, Eq)]
pub enum Fault {
    /// A text or a saved state is refused, for its first fault.
    Refused {
        /// The kind of text: 1 a profile text, 2 a canonical text, 4 a script, 5 a saved state.
        kind: u8,
        /// Its number among the faults of its kind.
        number: u8,
        /// The line of a canonical text, script or saved state, from 1; 0 if there is none.
        line: u64,
        /// The line that the program `rt1553` prints, without its line feed.
        text: String,
    },
    /// Out of memory, which says nothing about the texts.
    NoMemory,
    /// What was to be written is longer than its room.
    NoRoom,
    /// The numbers mean no event.
    NoEvent,
    /// A terminal of the bus has this address.
    SameAddress,
}

impl fmt::Display for Fault {
    fn fmt(&self, f: &mut fmt::Formatter<'_>) -> fmt::Result {
        f.write_str(match self {
            Fault::Refused { text, .. } => text,
            Fault::NoMemory => "out of memory",
            Fault::NoRoom => "no room",
            Fault::NoEvent => "no event",
            Fault::SameAddress => "a terminal of the bus has this address",
        })
    }
}

impl Error for Fault {}

/// The fault of a call with this status. With other statuses the call does not write it, so it must
/// not be read then.
fn told(status: u8, fault: &MaybeUninit<sys::rt1553_fault>) -> Fault {
    match status {
        sys::RT1553_REFUSED => {
            // the call has written it
            let fault = unsafe { fault.assume_init_ref() };
            let text = String::from_utf8_lossy(&fault.text[..fault.length.into()]);
            let (kind, number, line) = (fault.kind, fault.number, fault.line);
            Fault::Refused { kind, number, line, text: text.trim_end_matches('\n').to_owned() }
        }
        sys::RT1553_NO_ROOM => Fault::NoRoom,
        _ => Fault::NoMemory,
    }
}

/// This many zero bytes; None if there is no memory for them.
fn zeros(room: usize) -> Option<Vec<u8>> {
    let layout = Layout::array::<u8>(room).ok()?;
    if room == 0 {
        return Some(Vec::new());
    }
    // the layout is not empty, and it is the one that a Vec has
    unsafe { NonNull::new(alloc_zeroed(layout)).map(|at| Vec::from_raw_parts(at.as_ptr(), room, room)) }
}

/// Makes a call that writes into a room of this many bytes. Returns its status, what it wrote, and
/// its fault.
fn written(room: usize, call: impl FnOnce(*mut u8, usize, *mut usize, *mut sys::rt1553_fault) -> u8) -> (u8, Vec<u8>, Option<Fault>) {
    let mut to = match zeros(room) {
        Some(to) => to,
        None => return (sys::RT1553_NO_MEMORY, Vec::new(), Some(Fault::NoMemory)),
    };
    let (mut length, mut fault) = (0, MaybeUninit::uninit());
    let status = call(to.as_mut_ptr(), to.len(), &mut length, fault.as_mut_ptr());
    let is_done = matches!(status, sys::RT1553_DONE | sys::RT1553_DIFFER);
    // where there is no room, nothing is written
    to.truncate(if status == sys::RT1553_NO_ROOM { 0 } else { length });
    (status, to, (!is_done).then(|| told(status, &fault)))
}

/// The version of the library, major and minor, and the version of the canonical texts that it
/// writes.
pub fn version() -> (u16, u16, u16) {
    let mut version = sys::rt1553_versions::default();
    unsafe { sys::rt1553_version(&mut version) };
    (version.major, version.minor, version.canonical_text)
}

/// Whether a profile text or a canonical text is accepted.
pub fn check(text: impl AsRef<[u8]>) -> Result<(), Fault> {
    let (text, mut fault) = (text.as_ref(), MaybeUninit::uninit());
    match unsafe { sys::rt1553_check(text.as_ptr(), text.len(), fault.as_mut_ptr()) } {
        sys::RT1553_DONE => Ok(()),
        status => Err(told(status, &fault)),
    }
}

/// The canonical bytes of a text. Two texts have the same ones exactly if they mean the same
/// terminal.
pub fn canonical(text: impl AsRef<[u8]>) -> Result<Vec<u8>, Fault> {
    let text = text.as_ref();
    let (_, bytes, fault) = written(sys::RT1553_CANONICAL_ROOM, |to, room, length, fault| unsafe {
        sys::rt1553_canonical(text.as_ptr(), text.len(), to, room, length, fault)
    });
    fault.map_or(Ok(bytes), Err)
}

/// None if two texts mean the same terminal, else a script that the two answer differently from
/// power-up.
pub fn compare(first: impl AsRef<[u8]>, second: impl AsRef<[u8]>) -> Result<Option<Vec<u8>>, Fault> {
    let (one, other) = (first.as_ref(), second.as_ref());
    let (status, script, fault) = written(sys::RT1553_SCRIPT_ROOM, |to, room, length, fault| unsafe {
        sys::rt1553_compare(one.as_ptr(), one.len(), other.as_ptr(), other.len(), to, room, length, fault)
    });
    fault.map_or(Ok((status == sys::RT1553_DIFFER).then_some(script)), Err)
}

/// Plays a script to the terminal of a text, from power-up. Returns the transcript, of at most `room`
/// bytes, and the fault that stopped it, if any. `NoMemory` if there is no memory for the room; then
/// nothing is played.
pub fn run(text: impl AsRef<[u8]>, script: impl AsRef<[u8]>, room: usize) -> (Vec<u8>, Option<Fault>) {
    let (text, script) = (text.as_ref(), script.as_ref());
    let (_, transcript, fault) = written(room, |to, room, length, fault| unsafe {
        sys::rt1553_run(text.as_ptr(), text.len(), script.as_ptr(), script.len(), to, room, length, fault)
    });
    (transcript, fault)
}

/// One of the two buses.
#[derive(Clone, Copy, Debug, PartialEq, Eq)]
pub enum Bus {
    A,
    B,
}

/// The sync of a word: command and status sync, or data sync.
#[derive(Clone, Copy, Debug, PartialEq, Eq)]
pub enum Sync {
    Command,
    Data,
}

/// A condition that the subsystem reports and the status word shows.
#[derive(Clone, Copy, Debug, PartialEq, Eq)]
pub enum Flag {
    Service,
    Busy,
    Subsystem,
    Terminal,
}

/// What comes to a terminal.
#[derive(Clone, Copy, Debug, PartialEq, Eq)]
pub enum Event {
    /// A word on a bus, with the given parity bit or with the right one.
    Word { bus: Bus, sync: Sync, bits: u16, parity: Option<bool> },
    /// Something on a bus that is not a word.
    Noise(Bus),
    /// A gap on a bus, which ends a message.
    Gap(Bus),
    /// The subsystem writes word `number`, 1 to 32, of `subaddress`, 1 to 30.
    Write { subaddress: u8, number: u8, bits: u16 },
    /// The subsystem gives a new vector word.
    Vector(u16),
    /// The subsystem gives a new BIT word.
    Bit(u16),
    /// The subsystem sets or clears a flag.
    Flag(Flag, bool),
    /// The time of one word of a reply: the next word is sent.
    Slot,
}

impl Event {
    /// A word with the right parity bit.
    pub fn word(bus: Bus, sync: Sync, bits: u16) -> Event {
        Event::Word { bus, sync, bits, parity: None }
    }

    fn plain(self) -> sys::rt1553_event {
        let none = sys::rt1553_event::default();
        match self {
            Event::Word { bus, sync, bits, parity } => sys::rt1553_event {
                what: sys::RT1553_WORD,
                bus: bus as u8,
                sync: sync as u8,
                parity: parity.map_or(sys::RT1553_RIGHT_PARITY, u8::from),
                bits,
                ..none
            },
            Event::Noise(bus) => sys::rt1553_event { what: sys::RT1553_NOISE, bus: bus as u8, ..none },
            Event::Gap(bus) => sys::rt1553_event { what: sys::RT1553_GAP, bus: bus as u8, ..none },
            Event::Write { subaddress, number, bits } => {
                sys::rt1553_event { what: sys::RT1553_WRITE, subaddress, number, bits, ..none }
            }
            Event::Vector(bits) => sys::rt1553_event { what: sys::RT1553_VECTOR, bits, ..none },
            Event::Bit(bits) => sys::rt1553_event { what: sys::RT1553_BIT, bits, ..none },
            Event::Flag(flag, value) => {
                sys::rt1553_event { what: sys::RT1553_FLAG, flag: flag as u8, value: u8::from(value), ..none }
            }
            Event::Slot => sys::rt1553_event { what: sys::RT1553_SLOT, ..none },
        }
    }
}

/// The answer to an event. It borrows the words that are handed over from the terminal, so it lasts
/// until the next event.
#[derive(Clone, Copy, Debug, PartialEq, Eq)]
pub enum Answer<'a> {
    /// Nothing: the answer to most events.
    Silent,
    /// A word is sent. The status word has command sync.
    Sends { bus: Bus, sync: Sync, bits: u16 },
    /// Words that were received are handed over.
    Received { broadcast: bool, subaddress: u8, words: &'a [u16] },
    /// Synchronize is handed over.
    Synchronize,
    /// Synchronize with a word is handed over.
    SynchronizeWith(u16),
    /// Initiate self test is handed over.
    SelfTest,
    /// The offer of dynamic bus control was accepted.
    BusControl,
}

fn shown(answer: &sys::rt1553_answer) -> Answer<'_> {
    let bus = if answer.bus == 0 { Bus::A } else { Bus::B };
    match answer.what {
        sys::RT1553_SENDS_STATUS => Answer::Sends { bus, sync: Sync::Command, bits: answer.bits },
        sys::RT1553_SENDS_DATA => Answer::Sends { bus, sync: Sync::Data, bits: answer.bits },
        sys::RT1553_HANDS_RECEIVED => Answer::Received {
            broadcast: answer.broadcast,
            subaddress: answer.subaddress,
            words: &answer.words[..answer.count.into()],
        },
        sys::RT1553_HANDS_SYNCHRONIZE => Answer::Synchronize,
        sys::RT1553_HANDS_SYNCHRONIZE_WITH => Answer::SynchronizeWith(answer.bits),
        sys::RT1553_HANDS_SELF_TEST => Answer::SelfTest,
        sys::RT1553_HANDS_BUS_CONTROL => Answer::BusControl,
        _ => Answer::Silent,
    }
}

/// A remote terminal, from power-up. A clone answers every further event as the other does, and
/// neither knows of the other.
pub struct Terminal(NonNull<sys::rt1553_terminal>);

// It is one block of plain values without pointers, and each call has exclusive access by `&mut`.
unsafe impl Send for Terminal {}

impl Terminal {
    /// The terminal that a call makes, or the fault of the call.
    fn made(call: impl FnOnce(*mut *mut sys::rt1553_terminal, *mut sys::rt1553_fault) -> u8) -> Result<Terminal, Fault> {
        let (mut made, mut fault) = (ptr::null_mut(), MaybeUninit::uninit());
        let status = call(&mut made, fault.as_mut_ptr());
        NonNull::new(made).map(Terminal).ok_or_else(|| told(status, &fault))
    }

    /// Makes the terminal of a profile text or a canonical text.
    pub fn new(text: impl AsRef<[u8]>) -> Result<Terminal, Fault> {
        let text = text.as_ref();
        Terminal::made(|made, fault| unsafe { sys::rt1553_terminal_new(text.as_ptr(), text.len(), made, fault) })
    }

    /// A terminal in a saved state, which answers every further event as the saved one does.
    pub fn restore(state: impl AsRef<[u8]>) -> Result<Terminal, Fault> {
        let state = state.as_ref();
        Terminal::made(|made, fault| unsafe { sys::rt1553_terminal_restore(state.as_ptr(), state.len(), made, fault) })
    }

    /// Its saved state, a text of ASCII.
    pub fn save(&self) -> Result<Vec<u8>, Fault> {
        let (_, state, fault) = written(sys::RT1553_STATE_ROOM, |to, room, length, fault| unsafe {
            sys::rt1553_terminal_save(self.0.as_ptr(), to, room, length, fault)
        });
        fault.map_or(Ok(state), Err)
    }

    /// A clone, or `NoMemory`.
    pub fn try_clone(&self) -> Result<Terminal, Fault> {
        Terminal::made(|made, fault| unsafe { sys::rt1553_terminal_copy(self.0.as_ptr(), made, fault) })
    }

    /// Plays an event. `NoEvent` if one of its numbers is out of range; then nothing changes.
    pub fn step(&mut self, event: Event) -> Result<Answer<'_>, Fault> {
        let terminal = self.0.as_ptr();
        // the library made it, and the caller may use the event and the answer
        unsafe {
            (*terminal).event = event.plain();
            match sys::rt1553_terminal_step(terminal) {
                sys::RT1553_DONE => Ok(shown(&(*terminal).answer)),
                _ => Err(Fault::NoEvent),
            }
        }
    }
}

impl Clone for Terminal {
    /// Ends the process if there is no memory for the clone, as the collections of `std` do.
    fn clone(&self) -> Terminal {
        self.try_clone().unwrap_or_else(|_| handle_alloc_error(Layout::new::<sys::rt1553_terminal>()))
    }
}

impl Drop for Terminal {
    fn drop(&mut self) {
        // the library made it, and it is not used again
        unsafe { sys::rt1553_terminal_free(self.0.as_ptr()) }
    }
}

/// What the terminals of a bus sent and handed over, in the order in which they joined.
#[derive(Clone, Copy)]
pub struct Answers<'a>(&'a [sys::rt1553_bus_answer]);

impl<'a> Answers<'a> {
    /// Each answer with the address of its terminal.
    pub fn iter(self) -> impl Iterator<Item = (u8, Answer<'a>)> {
        self.0.iter().map(|it| (it.address, shown(&it.answer)))
    }
}

/// What came of a whole message: at most the first 66 words, and the first 31 times that something was
/// handed over.
pub struct Message(Box<sys::rt1553_message>);

impl Message {
    /// The words that terminals sent, as the others heard them, each with the address of its terminal.
    /// In place of words that collided there is noise, with the address of the first that sent one.
    pub fn sent(&self) -> impl Iterator<Item = (u8, Event)> + '_ {
        self.0.sent[..self.0.sent_count.min(sys::RT1553_MOST_SENT)].iter().map(|it| {
            let bus = if it.bus == 0 { Bus::A } else { Bus::B };
            let heard = match it.what {
                sys::RT1553_SENDS_STATUS => Event::word(bus, Sync::Command, it.bits),
                sys::RT1553_SENDS_DATA => Event::word(bus, Sync::Data, it.bits),
                _ => Event::Noise(bus),
            };
            (it.address, heard)
        })
    }

    /// What was handed over, in order.
    pub fn handed(&self) -> Answers<'_> {
        Answers(&self.0.handed[..self.0.handed_count.min(sys::RT1553_MOST_TERMINALS)])
    }
}

/// A bus with up to 31 terminals of different addresses, which are stepped together. A clone answers
/// every further event as the other does, and neither knows of the other.
pub struct TerminalBus(NonNull<sys::rt1553_bus>);

// It is one block of plain values without pointers, and each call has exclusive access by `&mut`.
unsafe impl Send for TerminalBus {}

impl TerminalBus {
    /// The bus that a call makes, or the fault of the call.
    fn made(call: impl FnOnce(*mut *mut sys::rt1553_bus, *mut sys::rt1553_fault) -> u8) -> Result<TerminalBus, Fault> {
        let (mut made, mut fault) = (ptr::null_mut(), MaybeUninit::uninit());
        let status = call(&mut made, fault.as_mut_ptr());
        NonNull::new(made).map(TerminalBus).ok_or_else(|| told(status, &fault))
    }

    /// A bus without terminals, or `NoMemory`.
    pub fn new() -> Result<TerminalBus, Fault> {
        TerminalBus::made(|made, fault| unsafe { sys::rt1553_bus_new(made, fault) })
    }

    /// A clone, or `NoMemory`.
    pub fn try_clone(&self) -> Result<TerminalBus, Fault> {
        TerminalBus::made(|made, fault| unsafe { sys::rt1553_bus_copy(self.0.as_ptr(), made, fault) })
    }

    /// A copy of the terminal joins, in the state in which it is. `SameAddress` if a terminal of the bus
    /// has its address; then nothing changes.
    pub fn join(&mut self, terminal: &Terminal) -> Result<(), Fault> {
        match unsafe { sys::rt1553_bus_join(self.0.as_ptr(), terminal.0.as_ptr()) } {
            sys::RT1553_DONE => Ok(()),
            _ => Err(Fault::SameAddress),
        }
    }

    fn play(&mut self, to: u8, event: Event) -> Result<Answers<'_>, Fault> {
        let bus = self.0.as_ptr();
        // the library made it, and the caller may use what stands before its terminals
        unsafe {
            (*bus).to = to;
            (*bus).event = event.plain();
            match sys::rt1553_bus_step(bus) {
                sys::RT1553_DONE => Ok(Answers(&(&(*bus).answers)[..(*bus).count.into()])),
                _ => Err(Fault::NoEvent),
            }
        }
    }

    /// Plays a word, noise, a gap or a slot for all terminals. `NoEvent` for another event; then nothing
    /// changes.
    pub fn step(&mut self, event: Event) -> Result<Answers<'_>, Fault> {
        self.play(sys::RT1553_FOR_ALL, event)
    }

    /// Plays an event for the terminal with this address alone. `NoEvent` if the bus has none, or one of
    /// the event's numbers is out of range; then nothing changes.
    pub fn step_one(&mut self, address: u8, event: Event) -> Result<Answer<'_>, Fault> {
        let to = if address == sys::RT1553_FOR_ALL { 254 } else { address };
        self.play(to, event).map(|answers| answers.iter().next().map_or(Answer::Silent, |it| it.1))
    }

    /// Plays a whole message: words and noise of the controller, on one bus; a gap; and slots and gaps
    /// until no terminal sends anything. `NoEvent` if there is none, one is another event or on another
    /// bus, or the numbers of one are out of range; then nothing is played.
    pub fn message(&mut self, words: &[Event]) -> Result<Message, Fault> {
        let events: Vec<_> = words.iter().map(|it| it.plain()).collect();
        let mut came = MaybeUninit::zeroed();
        match unsafe { sys::rt1553_bus_message(self.0.as_ptr(), events.as_ptr(), events.len(), came.as_mut_ptr()) } {
            // its fields are numbers and booleans, for which zeros are values, and the call has written the rest
            sys::RT1553_DONE => Ok(Message(Box::new(unsafe { came.assume_init() }))),
            _ => Err(Fault::NoEvent),
        }
    }

    /// A terminal that goes on as one of the bus does, which stays. Its place is the number of those that
    /// joined before it. None if the bus has no terminal there; `NoMemory`.
    pub fn terminal(&self, place: usize) -> Result<Option<Terminal>, Fault> {
        let (mut made, mut fault) = (ptr::null_mut(), MaybeUninit::uninit());
        match unsafe { sys::rt1553_bus_terminal(self.0.as_ptr(), place, &mut made, fault.as_mut_ptr()) } {
            sys::RT1553_NO_MEMORY => Err(Fault::NoMemory),
            _ => Ok(NonNull::new(made).map(Terminal)),
        }
    }

    /// The bus in a saved state, whose terminals answer every further event as those of the saved one do.
    pub fn restore(state: impl AsRef<[u8]>) -> Result<TerminalBus, Fault> {
        let state = state.as_ref();
        TerminalBus::made(|made, fault| unsafe { sys::rt1553_bus_restore(state.as_ptr(), state.len(), made, fault) })
    }

    /// Its saved state, a text of ASCII.
    pub fn save(&self) -> Result<Vec<u8>, Fault> {
        let (_, state, fault) = written(sys::RT1553_BUS_STATE_ROOM, |to, room, length, fault| unsafe {
            sys::rt1553_bus_save(self.0.as_ptr(), to, room, length, fault)
        });
        fault.map_or(Ok(state), Err)
    }

    /// Whether words of two or more terminals collided on a bus, in the latest slot.
    pub fn collided(&self, bus: Bus) -> bool {
        let it = unsafe { self.0.as_ref() };
        if bus == Bus::A { it.collided_a } else { it.collided_b }
    }
}

impl Clone for TerminalBus {
    /// Ends the process if there is no memory for the clone, as the collections of `std` do.
    fn clone(&self) -> TerminalBus {
        self.try_clone().unwrap_or_else(|_| handle_alloc_error(Layout::new::<sys::rt1553_bus>()))
    }
}

impl Drop for TerminalBus {
    fn drop(&mut self) {
        // the library made it, and it is not used again
        unsafe { sys::rt1553_bus_free(self.0.as_ptr()) }
    }
}

#[cfg(test)]
mod tests {
    use super::*;

    const PROFILE: &str = "address = 5\n[[rule]]\ndirection = \"both\"\nsubaddresses = 3\ncounts = 2\n[[mode]]\ncodes = \"1, 17\"\n";

    fn is_send<T: Send>(_: &T) {}

    #[test]
    fn words_go_in_and_out() {
        let mut terminal = Terminal::new(PROFILE).unwrap();
        is_send(&terminal);
        for (sync, bits) in [(Sync::Command, 0x2862), (Sync::Data, 0x11), (Sync::Data, 0x22)] {
            assert_eq!(terminal.step(Event::word(Bus::A, sync, bits)), Ok(Answer::Silent));
        }
        let words = &[0x11, 0x22][..];
        assert_eq!(terminal.step(Event::Gap(Bus::A)), Ok(Answer::Received { broadcast: false, subaddress: 3, words }));
        assert_eq!(terminal.step(Event::Slot), Ok(Answer::Sends { bus: Bus::A, sync: Sync::Command, bits: 0x2800 }));
        terminal.step(Event::Write { subaddress: 3, number: 2, bits: 0xbb }).unwrap();
        terminal.step(Event::word(Bus::B, Sync::Command, 0x2c62)).unwrap();
        terminal.step(Event::Gap(Bus::B)).unwrap();
        let reply = [(Sync::Command, 0x2800), (Sync::Data, 0), (Sync::Data, 0xbb)];
        for (sync, bits) in reply {
            assert_eq!(terminal.step(Event::Slot), Ok(Answer::Sends { bus: Bus::B, sync, bits }));
        }
        assert_eq!(terminal.step(Event::Slot), Ok(Answer::Silent));
    }

    /// A terminal whose reply of a status word and two data words begins at the next slot.
    fn replying() -> Terminal {
        let mut terminal = Terminal::new(PROFILE).unwrap();
        terminal.step(Event::Write { subaddress: 3, number: 2, bits: 0xbb }).unwrap();
        terminal.step(Event::word(Bus::A, Sync::Command, 0x2c62)).unwrap();
        terminal.step(Event::Gap(Bus::A)).unwrap();
        terminal
    }

    /// What a terminal sends in three slots.
    fn sent(terminal: &mut Terminal) -> Vec<u16> {
        let bits = |_| match terminal.step(Event::Slot) {
            Ok(Answer::Sends { bits, .. }) => bits,
            answer => panic!("{answer:?}"),
        };
        (0..3).map(bits).collect()
    }

    #[test]
    fn a_clone_goes_its_own_way() {
        let mut terminal = replying();
        let (mut clone, mut tried) = (terminal.clone(), terminal.try_clone().unwrap());
        is_send(&clone);
        clone.step(Event::Write { subaddress: 3, number: 2, bits: 0xcc }).unwrap();
        terminal.step(Event::Flag(Flag::Busy, true)).unwrap();
        assert_eq!(sent(&mut clone), [0x2800, 0, 0xcc]);
        assert_eq!(sent(&mut terminal), [0x2800, 0, 0xbb]);
        drop(terminal);
        assert_eq!(sent(&mut tried), [0x2800, 0, 0xbb]);
        assert_eq!(tried.step(Event::Slot), Ok(Answer::Silent));
    }

    #[test]
    fn a_saved_state_is_restored() {
        let mut terminal = replying();
        let state = terminal.save().unwrap();
        assert_eq!(terminal.save(), Ok(state.clone()));
        let mut restored = Terminal::restore(&state).unwrap();
        assert_eq!(restored.save(), Ok(state));
        assert_eq!(sent(&mut restored), sent(&mut terminal));
        assert_eq!(restored.save(), terminal.save());
    }

    #[test]
    fn bytes_that_are_no_saved_state_are_refused() {
        let mut state = replying().save().unwrap();
        let refused = |bytes: &[u8]| match Terminal::restore(bytes).err() {
            Some(Fault::Refused { kind: 5, number, line, text }) => (number, line, text),
            fault => panic!("{fault:?}"),
        };
        for bytes in [&b""[..], b"\0", b"\xff\xfe", b"address = 5", b"rt1553-state 2\n", &[b'x'; 2_000_000], &[b'\n'; 4096]] {
            assert_eq!(refused(bytes), (1, 1, "saved state: line 1".to_owned()));
        }
        state.push(b'\n');
        assert_eq!(refused(&state), (2, 0, "saved state: bytes after the end".to_owned()));
        state.truncate(state.len() - 2);
        let lines = state.split(|byte| *byte == b'\n').count() as u64;
        assert_eq!(refused(&state), (1, lines, format!("saved state: line {lines}")));
    }

    #[test]
    fn terminals_on_a_bus() {
        let mut bus = TerminalBus::new().unwrap();
        is_send(&bus);
        let mut five = replying();
        assert_eq!(bus.join(&five), Ok(()));
        assert_eq!(bus.join(&five), Err(Fault::SameAddress));
        bus.join(&Terminal::new("address = 6").unwrap()).unwrap();
        let status = |address, bits| (address, Answer::Sends { bus: Bus::A, sync: Sync::Command, bits });
        assert!(bus.step(Event::Slot).unwrap().iter().eq([status(5, 0x2800)]));
        let mut clone = bus.clone();
        assert_eq!(clone.step_one(5, Event::Write { subaddress: 3, number: 2, bits: 0xcc }), Ok(Answer::Silent));
        for (it, second) in [(&mut clone, 0xcc), (&mut bus, 0xbb)] {
            for bits in [0, second] {
                let sent = Answer::Sends { bus: Bus::A, sync: Sync::Data, bits };
                assert!(it.step(Event::Slot).unwrap().iter().eq([(5, sent)]));
            }
        }
        drop(bus);
        clone.step(Event::word(Bus::A, Sync::Command, 0x2c62)).unwrap();
        clone.step(Event::Gap(Bus::A)).unwrap();
        clone.step(Event::word(Bus::A, Sync::Command, 0x3402)).unwrap();
        clone.step(Event::Gap(Bus::A)).unwrap();
        assert!(clone.step(Event::Slot).unwrap().iter().eq([status(5, 0x2800), status(6, 0x3000)]));
        assert!(clone.collided(Bus::A) && !clone.collided(Bus::B));
        assert_eq!(sent(&mut five), [0x2800, 0, 0xbb]);
        for address in [7, 31, 254, 255] {
            assert_eq!(clone.step_one(address, Event::Slot), Err(Fault::NoEvent));
        }
        assert!(matches!(clone.step(Event::Vector(1)).err(), Some(Fault::NoEvent)));
    }

    #[test]
    fn messages_on_a_bus() {
        let mut bus = TerminalBus::new().unwrap();
        for address in [5, 6] {
            bus.join(&Terminal::new(PROFILE.replace("= 5", &format!("= {address}"))).unwrap()).unwrap();
        }
        bus.step_one(5, Event::Write { subaddress: 3, number: 1, bits: 0xbb }).unwrap();
        let command = |bits| Event::word(Bus::A, Sync::Command, bits);
        let came = bus.message(&[command(0x3062), command(0x2c62)]).unwrap();
        let data = |bits| (5, Event::word(Bus::A, Sync::Data, bits));
        assert!(came.sent().eq([(5, command(0x2800)), data(0xbb), data(0), (6, command(0x3000))]));
        let words = &[0xbb, 0][..];
        assert!(came.handed().iter().eq([(6, Answer::Received { broadcast: false, subaddress: 3, words })]));
        assert!(matches!(bus.message(&[command(0x2c02), Event::Slot]).err(), Some(Fault::NoEvent)));
        assert!(matches!(bus.message(&[]).err(), Some(Fault::NoEvent)));
    }

    #[test]
    fn a_bus_is_saved_and_its_terminals_are_taken() {
        let mut bus = TerminalBus::new().unwrap();
        bus.join(&Terminal::new("address = 6").unwrap()).unwrap();
        bus.join(&replying()).unwrap();
        let state = bus.save().unwrap();
        let mut restored = TerminalBus::restore(&state).unwrap();
        assert_eq!(restored.save(), Ok(state.clone()));
        assert_eq!(sent(&mut restored.terminal(1).unwrap().unwrap()), [0x2800, 0, 0xbb]);
        assert!(restored.terminal(2).unwrap().is_none());
        assert_eq!(restored.step(Event::Slot).unwrap().iter().count(), 1);
        assert_eq!(bus.save(), Ok(state.clone()));
        let lines = state.split(|byte| *byte == b'\n').count() as u64 - 1;
        match TerminalBus::restore(&state[..state.len() - 1]).err() {
            Some(Fault::Refused { kind: 5, number: 1, line, .. }) => assert_eq!(line, lines),
            fault => panic!("{fault:?}"),
        }
    }

    #[test]
    fn modes_and_flags() {
        let mut terminal = Terminal::new(PROFILE).unwrap();
        terminal.step(Event::Flag(Flag::Service, true)).unwrap();
        terminal.step(Event::word(Bus::A, Sync::Command, 0x2c01)).unwrap();
        assert_eq!(terminal.step(Event::Gap(Bus::A)), Ok(Answer::Synchronize));
        assert_eq!(terminal.step(Event::Slot), Ok(Answer::Sends { bus: Bus::A, sync: Sync::Command, bits: 0x2900 }));
        terminal.step(Event::word(Bus::A, Sync::Command, 0x2811)).unwrap();
        terminal.step(Event::word(Bus::A, Sync::Data, 0x42)).unwrap();
        assert_eq!(terminal.step(Event::Gap(Bus::A)), Ok(Answer::SynchronizeWith(0x42)));
        assert_eq!(terminal.step(Event::Write { subaddress: 31, number: 1, bits: 0 }), Err(Fault::NoEvent));
    }

    #[test]
    fn a_fault_has_its_number_and_its_text() {
        let text = "profile: root: unknown key".to_owned();
        let fault = Fault::Refused { kind: 1, number: 2, line: 0, text };
        assert_eq!(Terminal::new("adress = 5").err(), Some(fault.clone()));
        assert_eq!(check("adress = 5"), Err(fault.clone()));
        assert_eq!(canonical("adress = 5"), Err(fault.clone()));
        assert_eq!(compare("address = 5", "adress = 5"), Err(fault.clone()));
        assert_eq!(run("adress = 5", "", 9), (vec![], Some(fault)));
        let (transcript, fault) = run("address = 5", "A c 2c02\nA gap\nslot\nslots\n", 99);
        assert_eq!(transcript, b"A s 2800\n");
        assert!(matches!(fault, Some(Fault::Refused { kind: 4, number: 1, line: 4, .. })));
        assert_eq!(run("address = 5", "A c 2c02\nA gap\nslot\n", 8).1, Some(Fault::NoRoom));
    }

    #[test]
    fn a_room_that_cannot_be_had_is_an_error() {
        let script = "A c 2c02\nA gap\nslot\n";
        let (done, no_memory) = ((b"A s 2800\n".to_vec(), None), (vec![], Some(Fault::NoMemory)));
        for room in [usize::MAX, usize::MAX - 1, isize::MAX as usize + 1, isize::MAX as usize, 1 << 62] {
            assert_eq!(run("address = 5", script, room), no_memory);
            assert_eq!(run("adress = 5", "", room), no_memory);
        }
        // a system that promises more memory than there is gives this one
        let found = run("address = 5", script, 1 << 46);
        assert!(found == no_memory || found == done);
        assert_eq!(run("address = 5", script, 9), done);
        assert_eq!(run("address = 5", script, 1 << 28), done);
        assert_eq!(run("address = 5", script, 0), (vec![], Some(Fault::NoRoom)));
        assert_eq!(run("address = 5", "", 0), (vec![], None));
    }

    #[test]
    fn numbers_that_mean_no_event_change_nothing() {
        let mut terminal = Terminal::new(PROFILE).unwrap();
        terminal.step(Event::word(Bus::A, Sync::Command, 0x2c02)).unwrap();
        terminal.step(Event::Gap(Bus::A)).unwrap();
        for (subaddress, number) in [(0, 1), (31, 1), (32, 1), (255, 1), (1, 0), (1, 33), (1, 255), (0, 0), (255, 255)] {
            assert_eq!(terminal.step(Event::Write { subaddress, number, bits: 0 }), Err(Fault::NoEvent));
        }
        assert_eq!(terminal.step(Event::Slot), Ok(Answer::Sends { bus: Bus::A, sync: Sync::Command, bits: 0x2800 }));
    }

    #[test]
    fn any_bytes_are_a_text_or_are_refused() {
        for text in [&b""[..], b"\0", b"\xff\xfe", &[b'x'; 2_000_000], &[0; 4096]] {
            assert!(matches!(check(text), Err(Fault::Refused { .. })));
            assert!(matches!(Terminal::new(text).err(), Some(Fault::Refused { .. })));
            assert!(matches!(canonical(text), Err(Fault::Refused { .. })));
            assert!(matches!(compare("address = 5", text), Err(Fault::Refused { .. })));
            assert!(matches!(run(text, "", 9).1, Some(Fault::Refused { .. })));
        }
        for (script, number) in [(&b"\xff"[..], 1), (b"\0", 1), (b"A gap\r\n", 1), (&[b'#'; 65], 2), (&[b'\n'; 1_048_577], 3)] {
            assert!(matches!(run("address = 5", script, 9).1, Some(Fault::Refused { kind: 4, number: found, .. }) if found == number));
        }
    }

    #[test]
    fn texts_are_compared() {
        assert_eq!(version(), (0, 1, 2));
        assert_eq!(check("address = 5"), Ok(()));
        assert_eq!(compare("address = 5", "address = 0x05"), Ok(None));
        assert_eq!(compare("address = 5", "address = 6"), Ok(Some(b"A c 2c02\nA gap\nslot\n".to_vec())));
        let bytes = canonical("address = 5").unwrap();
        assert_eq!(canonical(&bytes), Ok(bytes));
    }
}
