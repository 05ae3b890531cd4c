//! The terminal as a machine of registers. Its rules are those of docs/terminal.md; the sections in
//! brackets are those of MIL-STD-1553B.
use crate::profile::Profile;

/// Masks of the bits of a status word (4.3.3.5.3).
mod status {
    pub const MESSAGE_ERROR: u16 = 0x0400;
    pub const SERVICE_REQUEST: u16 = 0x0100;
    pub const BROADCAST_RECEIVED: u16 = 0x0010;
    pub const BUSY: u16 = 0x0008;
    pub const SUBSYSTEM_FLAG: u16 = 0x0004;
    pub const BUS_CONTROL_ACCEPTED: u16 = 0x0002;
    pub const TERMINAL_FLAG: u16 = 0x0001;
}

/// Mode codes that do something of their own (4.3.3.5.1.7).
mod code {
    pub const DYNAMIC_BUS_CONTROL: u16 = 0;
    pub const SYNCHRONIZE: u16 = 1;
    pub const TRANSMIT_STATUS: u16 = 2;
    pub const SELF_TEST: u16 = 3;
    pub const SHUTDOWN: u16 = 4;
    pub const OVERRIDE_SHUTDOWN: u16 = 5;
    pub const INHIBIT_FLAG: u16 = 6;
    pub const OVERRIDE_INHIBIT: u16 = 7;
    pub const RESET: u16 = 8;
    pub const TRANSMIT_VECTOR: u16 = 16;
    pub const SYNCHRONIZE_WITH: u16 = 17;
    pub const TRANSMIT_LAST_COMMAND: u16 = 18;
    pub const TRANSMIT_BIT: u16 = 19;
}

/// The address of commands to all terminals.
const BROADCAST: u16 = 31;
/// How many words a subaddress holds, and a message has at most.
const WORDS: usize = 32;

#[derive(Clone, Copy, Debug, PartialEq, Eq)]
pub enum Bus {
    A,
    B,
}

impl Bus {
    fn other(self) -> Bus {
        match self {
            Bus::A => Bus::B,
            Bus::B => Bus::A,
        }
    }
}

/// A word of the bus. A word with the wrong parity is not valid.
#[derive(Clone, Copy, Debug)]
pub struct Word {
    /// Whether its sync is that of commands and status words, or else that of data words.
    pub is_command: bool,
    pub bits: u16,
    pub is_valid: bool,
}

/// The flags that the subsystem sets and takes back.
#[derive(Clone, Copy, Debug)]
pub enum Flag {
    Service,
    Busy,
    Subsystem,
    Terminal,
}

#[derive(Clone, Copy, Debug)]
pub enum Event {
    Word(Bus, Word),
    Noise(Bus),
    Gap(Bus),
    /// The time in which the terminal sends one word.
    Slot,
    /// The subsystem writes a word: the subaddress, 1 to 30; the number of the word, 1 to 32; the word.
    Write(u8, u8, u16),
    Vector(u16),
    Bit(u16),
    Flag(Flag, bool),
}

/// What an event is answered with.
pub enum Answer<'a> {
    Silent,
    /// In a slot.
    Sends(Sent),
    /// At a gap.
    Hands(Hand<'a>),
}

/// One word of a reply: its status word, or a data word.
#[derive(Clone, Copy)]
pub struct Sent {
    pub bus: Bus,
    pub is_status: bool,
    pub bits: u16,
}

/// What is handed over to the subsystem.
pub enum Hand<'a> {
    Received {
        broadcast: bool,
        subaddress: u8,
        words: &'a [u16],
    },
    Synchronize,
    SynchronizeWith(u16),
    SelfTest,
    BusControl,
}

/// A command word (4.3.3.5.1).
#[derive(Clone, Copy)]
struct Command(u16);

impl Command {
    fn address(self) -> u16 {
        self.0 >> 11
    }

    fn is_transmit(self) -> bool {
        self.0 & 0x0400 != 0
    }

    fn subaddress(self) -> usize {
        usize::from(self.0 >> 5 & 31)
    }

    fn is_mode(self) -> bool {
        matches!(self.subaddress(), 0 | 31)
    }

    fn is_broadcast(self) -> bool {
        self.address() == BROADCAST
    }

    fn code(self) -> u16 {
        self.0 & 31
    }

    /// Its word count; a field of 0 means 32.
    fn count(self) -> usize {
        match self.0 & 31 {
            0 => WORDS,
            count => usize::from(count),
        }
    }

    fn receives_data(self) -> bool {
        !self.is_transmit() && !self.is_mode()
    }

    /// How many data words are to follow it.
    fn expected(self) -> usize {
        match (self.is_transmit(), self.is_mode()) {
            (false, false) => self.count(),
            (false, true) if self.code() >= 16 => 1,
            _ => 0,
        }
    }

    /// Whether the mode code has the T/R bit that the table of mode codes gives: 0 for code 17 alone.
    fn has_direction_of_code(self) -> bool {
        self.is_transmit() == (self.code() != code::SYNCHRONIZE_WITH)
    }
}

/// A message in progress.
#[derive(Clone, Copy)]
struct Message {
    bus: Bus,
    command: Command,
    /// How many data words are to follow its command.
    expected: usize,
    is_legal: bool,
    phase: Phase,
    followed: Followed,
}

/// How far a message is.
#[derive(Clone, Copy)]
enum Phase {
    /// It collects what follows its command.
    Command,
    /// It waits for the status word of this address, the transmitter's (4.3.3.8, 4.3.3.9).
    Waiting(u16),
    /// It collects what follows the awaited status.
    Status,
}

/// What has followed the command, or the awaited status.
#[derive(Clone, Copy)]
enum Followed {
    /// So many valid data words, not more than are expected.
    Data(usize),
    /// One transmit command to another terminal, of this address.
    Transmitter(u16),
    /// Anything else: the message can only end in error.
    Wrong,
}

impl Message {
    /// Whether its command reports the kept status and leaves it as it is: own mode codes 2 and 18, where
    /// they are legal.
    fn reports_kept(&self) -> bool {
        self.is_legal
            && self.command.is_mode()
            && matches!(
                self.command.code(),
                code::TRANSMIT_STATUS | code::TRANSMIT_LAST_COMMAND
            )
    }
}

/// A reply in progress.
#[derive(Clone, Copy)]
struct Reply {
    bus: Bus,
    after: AfterStatus,
    /// The number of the word that is sent next; the status is number 0.
    next: usize,
}

/// What comes after the status of a reply.
#[derive(Clone, Copy)]
enum AfterStatus {
    Nothing,
    /// The terminal is reset.
    Reset,
    /// So many words that are held for a subaddress.
    Held(usize, usize),
    Vector,
    LastCommand,
    Bit,
}

impl AfterStatus {
    /// How many data words are sent.
    fn count(self) -> usize {
        match self {
            AfterStatus::Nothing | AfterStatus::Reset => 0,
            AfterStatus::Held(_, count) => count,
            AfterStatus::Vector | AfterStatus::LastCommand | AfterStatus::Bit => 1,
        }
    }
}

/// A remote terminal.
pub struct Terminal {
    profile: Profile,
    /// For each bus, whether the words since its last gap hold one for the terminal.
    heard: [bool; 2],
    /// The message in progress: there is at most one on both buses.
    message: Option<Message>,
    reply: Option<Reply>,
    /// The data words of the message in progress, as far as they came.
    received: [u16; WORDS],
    held: [[u16; WORDS]; 31],
    vector: u16,
    bit: u16,
    /// The flags, in the order of `Flag`.
    flags: [bool; 4],
    /// Whether the transmitter of each bus is shut down.
    shut_down: [bool; 2],
    flag_is_inhibited: bool,
    kept: u16,
    last_command: u16,
}

impl Terminal {
    /// The terminal of this profile at power-up.
    pub fn power_up(profile: Profile) -> Terminal {
        Terminal {
            heard: [false; 2],
            message: None,
            reply: None,
            received: [0; WORDS],
            held: profile.initial,
            vector: profile.vector,
            bit: profile.bit,
            flags: [false; 4],
            shut_down: [false; 2],
            flag_is_inhibited: false,
            kept: profile.address << 11,
            last_command: 0,
            profile,
        }
    }

    /// Takes an event and answers it.
    #[inline]
    pub fn step(&mut self, event: Event) -> Answer<'_> {
        match event {
            Event::Word(bus, word) => {
                if !self.replies_on(bus) {
                    self.take_word(bus, word);
                }
            }
            Event::Noise(bus) => {
                if !self.replies_on(bus) {
                    self.take_other(bus, None);
                }
            }
            Event::Gap(bus) => {
                if !self.replies_on(bus) {
                    return self.take_gap(bus);
                }
            }
            Event::Slot => return self.take_slot(),
            Event::Write(subaddress, number, word) => {
                self.held[usize::from(subaddress)][usize::from(number) - 1] = word;
            }
            Event::Vector(word) => self.vector = word,
            Event::Bit(word) => self.bit = word,
            Event::Flag(flag, is_set) => self.flags[flag as usize] = is_set,
        }
        Answer::Silent
    }

    /// Whether a reply is in progress on a bus: then nothing is heard there.
    #[inline]
    fn replies_on(&self, bus: Bus) -> bool {
        matches!(self.reply, Some(reply) if reply.bus == bus)
    }

    fn take_word(&mut self, bus: Bus, word: Word) {
        match (word.is_valid, word.is_command) {
            (true, true) => self.take_command(bus, Command(word.bits)),
            (true, false) => self.take_other(bus, Some(word.bits)),
            (false, _) => self.take_other(bus, None),
        }
    }

    /// Takes what is neither a command nor a status word: the bits of a data word, or None for noise and
    /// for words that are not valid, which are the same to a terminal.
    #[inline]
    fn take_other(&mut self, bus: Bus, data: Option<u16>) {
        let Some(message) = self.message.as_mut().filter(|message| message.bus == bus) else {
            return;
        };
        match (message.phase, message.followed, data) {
            (Phase::Waiting(_), ..) => {
                let message = *message;
                self.end_in_error(message);
            }
            (_, Followed::Data(count), Some(bits)) if count < message.expected => {
                self.received[count] = bits;
                message.followed = Followed::Data(count + 1);
            }
            _ => message.followed = Followed::Wrong,
        }
    }

    /// Takes a valid word with the sync of commands and status words.
    fn take_command(&mut self, bus: Bus, command: Command) {
        let is_for_us = self.is_address_heard(command);
        let was_heard = self.heard[bus as usize];
        self.heard[bus as usize] |= is_for_us;
        let starts = match self.message.filter(|message| message.bus == bus) {
            None => is_for_us && !was_heard,
            Some(mut message) => match message.phase {
                Phase::Waiting(address) if command.address() == address => {
                    message.phase = Phase::Status;
                    self.message = Some(message);
                    false
                }
                // any other word ends the waiting, and is then taken as without a message
                Phase::Waiting(_) => {
                    self.end_in_error(message);
                    is_for_us
                }
                _ if self.is_broadcast_transmitter(message, command) => true,
                _ => {
                    message.followed = self.follow(message, command);
                    self.message = Some(message);
                    false
                }
            },
        };
        if starts {
            self.start(bus, command);
        }
    }

    fn is_address_heard(&self, command: Command) -> bool {
        command.address() == self.profile.address
            || command.is_broadcast() && self.profile.broadcast
    }

    /// Whether this command, right after a broadcast receive command, makes this terminal the transmitter
    /// of a broadcast transfer (4.3.3.6.7.2).
    fn is_broadcast_transmitter(&self, message: Message, command: Command) -> bool {
        command.is_transmit()
            && command.address() == self.profile.address
            && message.command.is_broadcast()
            && message.command.receives_data()
            && matches!(
                (message.phase, message.followed),
                (Phase::Command, Followed::Data(0))
            )
    }

    /// What a second word with the sync of commands makes of a message: a transfer from another terminal,
    /// if it tells that terminal to transmit and nothing else has come (4.3.3.6.3).
    fn follow(&self, message: Message, second: Command) -> Followed {
        let is_other = second.address() != self.profile.address && !second.is_broadcast();
        let is_transfer = message.command.receives_data() && second.is_transmit() && is_other;
        match (message.phase, message.followed) {
            (Phase::Command, Followed::Data(0)) if is_transfer => {
                Followed::Transmitter(second.address())
            }
            _ => Followed::Wrong,
        }
    }

    fn take_gap(&mut self, bus: Bus) -> Answer<'_> {
        self.heard[bus as usize] = false;
        let Some(mut message) = self.message.filter(|message| message.bus == bus) else {
            return Answer::Silent;
        };
        match (message.phase, message.followed) {
            (Phase::Command | Phase::Status, Followed::Data(count))
                if count == message.expected =>
            {
                self.message = None;
                return self.complete(message);
            }
            (Phase::Command, Followed::Transmitter(address)) => {
                message.phase = Phase::Waiting(address);
                message.followed = Followed::Data(0);
                self.message = Some(message);
            }
            _ => self.end_in_error(message),
        }
        Answer::Silent
    }

    /// Sends the next word of the reply, as it is now. A reset acts when its status has been sent.
    fn take_slot(&mut self) -> Answer<'static> {
        let Some(reply) = self.reply else {
            return Answer::Silent;
        };
        let Reply { bus, after, next } = reply;
        let bits = match after {
            _ if next == 0 => self.kept,
            AfterStatus::Held(subaddress, _) => self.held[subaddress][next - 1],
            AfterStatus::Vector => self.vector,
            AfterStatus::LastCommand => self.last_command,
            AfterStatus::Bit => self.bit,
            AfterStatus::Nothing | AfterStatus::Reset => 0,
        };
        self.reply = (next < after.count()).then_some(Reply {
            next: next + 1,
            ..reply
        });
        if let AfterStatus::Reset = after {
            self.reset();
        }
        Answer::Sends(Sent {
            bus,
            is_status: next == 0,
            bits,
        })
    }

    /// Starts a message, which drops the one in progress on either bus (4.4.3.2), and the rest of a reply.
    /// That is on the other bus: on its own no word is heard.
    fn start(&mut self, bus: Bus, command: Command) {
        let is_legal = self.is_legal(command);
        let message = Message {
            bus,
            command,
            expected: command.expected(),
            is_legal,
            phase: Phase::Command,
            followed: Followed::Data(0),
        };
        if !self.is_own_code(command, code::TRANSMIT_LAST_COMMAND) {
            self.last_command = command.0;
        }
        if !message.reports_kept() {
            self.kept = self.address_and_broadcast(command);
        }
        self.message = Some(message);
        self.reply = None;
    }

    /// Whether the command is of this mode code to the own address, with the T/R bit of the code.
    fn is_own_code(&self, command: Command, code: u16) -> bool {
        command.is_mode()
            && command.code() == code
            && command.has_direction_of_code()
            && !command.is_broadcast()
    }

    /// Whether the profile has the command legal. No table has a code or a command legal that can't be.
    fn is_legal(&self, command: Command) -> bool {
        let profile = &self.profile;
        if command.is_mode() {
            let codes = if command.is_broadcast() {
                profile.broadcast_modes
            } else {
                profile.own_modes
            };
            return command.has_direction_of_code() && codes >> command.code() & 1 == 1;
        }
        let counts = match (command.is_broadcast(), command.is_transmit()) {
            (false, false) => &profile.own_receive,
            (false, true) => &profile.own_transmit,
            (true, false) => &profile.broadcast_receive,
            (true, true) => return false,
        };
        counts[command.subaddress()] >> command.count() & 1 == 1
    }

    /// Ends a message in error: nothing is sent, and message error is kept (4.4.3.6).
    fn end_in_error(&mut self, message: Message) {
        self.message = None;
        if message.reports_kept() {
            self.kept |= status::MESSAGE_ERROR;
        } else {
            self.kept = self.formed(message.command) | status::MESSAGE_ERROR;
        }
    }

    /// The status word that answers this command, without message error and acceptance.
    fn formed(&self, command: Command) -> u16 {
        let flag = |flag: Flag, mask: u16| if self.flags[flag as usize] { mask } else { 0 };
        let terminal_flag = if self.flag_is_inhibited {
            0
        } else {
            status::TERMINAL_FLAG
        };
        self.address_and_broadcast(command)
            | flag(Flag::Service, status::SERVICE_REQUEST)
            | flag(Flag::Busy, status::BUSY)
            | flag(Flag::Subsystem, status::SUBSYSTEM_FLAG)
            | flag(Flag::Terminal, terminal_flag)
    }

    fn address_and_broadcast(&self, command: Command) -> u16 {
        let received = if command.is_broadcast() {
            status::BROADCAST_RECEIVED
        } else {
            0
        };
        self.profile.address << 11 | received
    }

    /// Takes a message that ended well: as illegal, as stopped by busy, or as done.
    fn complete(&mut self, message: Message) -> Answer<'_> {
        let command = message.command;
        if !message.is_legal {
            self.kept = self.formed(command) | status::MESSAGE_ERROR;
            self.begin_reply(message, AfterStatus::Nothing);
            return Answer::Silent;
        }
        if self.is_stopped_by_busy(command) {
            self.kept = self.formed(command);
            self.begin_reply(message, AfterStatus::Nothing);
            return Answer::Silent;
        }
        if command.is_mode() {
            return self.do_mode_code(message);
        }
        self.kept = self.formed(command);
        let subaddress = command.subaddress();
        if command.is_transmit() {
            self.begin_reply(message, AfterStatus::Held(subaddress, command.count()));
            return Answer::Silent;
        }
        self.begin_reply(message, AfterStatus::Nothing);
        let words = &self.received[..command.count()];
        if self.profile.wraparound == subaddress {
            self.held[subaddress][..words.len()].copy_from_slice(words);
        }
        Answer::Hands(Hand::Received {
            broadcast: command.is_broadcast(),
            subaddress: subaddress as u8,
            words,
        })
    }

    /// Whether a legal command is answered by its status alone, since the subsystem is busy (4.3.3.5.3.8).
    fn is_stopped_by_busy(&self, command: Command) -> bool {
        let is_data = !command.is_mode()
            || matches!(
                command.code(),
                code::TRANSMIT_VECTOR | code::SYNCHRONIZE_WITH
            );
        self.flags[Flag::Busy as usize] && is_data
    }

    /// Begins the reply to a command, if it is answered at all. Where it isn't, a reset acts at once.
    fn begin_reply(&mut self, message: Message, after: AfterStatus) {
        if !message.command.is_broadcast() && !self.shut_down[message.bus as usize] {
            self.reply = Some(Reply {
                bus: message.bus,
                after,
                next: 0,
            });
        } else if let AfterStatus::Reset = after {
            self.reset();
        }
    }

    /// Does what a legal mode code says (4.3.3.5.1.7).
    fn do_mode_code(&mut self, message: Message) -> Answer<'_> {
        let code = message.command.code();
        match code {
            code::INHIBIT_FLAG => self.flag_is_inhibited = true,
            code::OVERRIDE_INHIBIT => self.flag_is_inhibited = false,
            code::SHUTDOWN => self.shut_down[message.bus.other() as usize] = true,
            code::OVERRIDE_SHUTDOWN => self.shut_down[message.bus.other() as usize] = false,
            _ => {}
        }
        if !message.reports_kept() {
            self.kept = self.formed(message.command);
        }
        if code == code::DYNAMIC_BUS_CONTROL && self.profile.accepts_bus_control {
            self.kept |= status::BUS_CONTROL_ACCEPTED;
        }
        let after = match code {
            code::TRANSMIT_VECTOR => AfterStatus::Vector,
            code::TRANSMIT_BIT => AfterStatus::Bit,
            code::TRANSMIT_LAST_COMMAND => AfterStatus::LastCommand,
            code::RESET => AfterStatus::Reset,
            _ => AfterStatus::Nothing,
        };
        self.begin_reply(message, after);
        match code {
            code::DYNAMIC_BUS_CONTROL if self.profile.accepts_bus_control => {
                Answer::Hands(Hand::BusControl)
            }
            code::SYNCHRONIZE => Answer::Hands(Hand::Synchronize),
            code::SELF_TEST => Answer::Hands(Hand::SelfTest),
            code::SYNCHRONIZE_WITH => Answer::Hands(Hand::SynchronizeWith(self.received[0])),
            _ => Answer::Silent,
        }
    }

    /// Takes back all but the flags and what the buses carry.
    fn reset(&mut self) {
        self.held = self.profile.initial;
        self.vector = self.profile.vector;
        self.bit = self.profile.bit;
        self.shut_down = [false; 2];
        self.flag_is_inhibited = false;
        self.kept = self.profile.address << 11;
        self.last_command = 0;
    }
}

#[allow(dead_code)]
#[path = "whole.rs"]
pub mod whole;
