//! Whole messages at once, for the program `best`: what a command, its data words and the gap after them do to a
//! terminal together. Each call does what the events do one by one.
use super::{
    code, status, AfterStatus, Answer, Bus, Command, Flag, Followed, Message, Phase, Reply,
    Terminal, WORDS,
};

/// What a whole message is.
pub mod kind {
    /// Not found out yet.
    pub const UNKNOWN: u8 = 0;
    /// One that is taken event by event.
    pub const EVENTS: u8 = 1;
    /// One that isn't for this terminal.
    pub const OTHER: u8 = 2;
    pub const ILLEGAL: u8 = 3;
    /// Words to the own address.
    pub const RECEIVE: u8 = 4;
    /// Words by broadcast.
    pub const HEARD: u8 = 5;
    pub const TRANSMIT: u8 = 6;
    /// Transmit status word.
    pub const STATUS: u8 = 7;
    /// Any other mode code.
    pub const MODE: u8 = 8;
}

/// What of a command doesn't change.
#[derive(Clone, Copy)]
pub struct Entry {
    pub kind: u8,
    expected: u8,
    asked: u8,
    /// Whether its data words are held to be sent.
    pub turns_round: bool,
}

impl Entry {
    /// How many data words are to follow the command.
    #[inline(always)]
    pub fn expected(self) -> usize {
        // so the compiler knows how far a message reaches
        usize::from(self.expected & 63)
    }

    /// How many data words it asks for.
    #[inline(always)]
    pub fn asked(self) -> usize {
        usize::from(self.asked & 63)
    }
}

/// What all commands are. Each is found out when it comes first, so memory is taken for those alone that come.
pub struct Commands(Box<[[u8; 4]; 65_536]>);

impl Commands {
    pub fn new() -> Commands {
        Commands(vec![[0; 4]; 65_536].into_boxed_slice().try_into().unwrap())
    }

    #[inline(always)]
    pub fn entry(&mut self, bits: u16, terminal: &Terminal) -> Entry {
        let entry = &mut self.0[usize::from(bits)];
        if entry[0] == kind::UNKNOWN {
            *entry = terminal.find_out(Command(bits));
        }
        let [kind, expected, asked, turns_round] = *entry;
        Entry {
            kind,
            expected,
            asked,
            turns_round: turns_round != 0,
        }
    }
}

/// What the next slots are answered with.
pub enum Next {
    Nothing,
    /// Words that are held for this subaddress: from this number on, up to this one; the status is number 0.
    Held(Bus, usize, usize, usize),
    /// One word, by an event.
    Event,
}

/// Held words that may be changed.
pub enum Held {
    Nothing,
    /// Those of this subaddress.
    One(usize),
    All,
}

impl Terminal {
    #[cold]
    fn find_out(&self, command: Command) -> [u8; 4] {
        let kind = match (self.is_legal(command), command.is_mode()) {
            _ if !self.is_address_heard(command) => kind::OTHER,
            // illegal or not, this one isn't kept as the last command
            _ if self.is_own_code(command, code::TRANSMIT_LAST_COMMAND) => kind::EVENTS,
            (false, _) => kind::ILLEGAL,
            (true, true) => match command.code() {
                // a reset may act at once
                code::RESET => kind::EVENTS,
                code::TRANSMIT_STATUS => kind::STATUS,
                _ => kind::MODE,
            },
            (true, false) if command.is_transmit() => kind::TRANSMIT,
            (true, false) if command.is_broadcast() => kind::HEARD,
            (true, false) => kind::RECEIVE,
        };
        let turns_round = command.subaddress() == self.profile.wraparound;
        let (expected, asked) = (command.expected(), command.count());
        [kind, expected as u8, asked as u8, u8::from(turns_round)]
    }

    /// Whether nothing is in progress on either bus.
    #[inline]
    pub fn is_quiet(&self) -> bool {
        self.heard == [false; 2] && self.message.is_none() && self.reply.is_none()
    }

    /// Whether a command on this bus starts a message, if it is heard. If it isn't, nothing changes.
    #[inline]
    pub fn is_free(&self, bus: Bus) -> bool {
        !self.heard[bus as usize]
            && !self.replies_on(bus)
            && !matches!(self.message, Some(message) if message.bus == bus)
    }

    /// Takes a gap by itself.
    pub fn take_gap_on(&mut self, bus: Bus) -> Answer<'_> {
        if self.replies_on(bus) {
            return Answer::Silent;
        }
        self.take_gap(bus)
    }

    /// Takes a slot by itself.
    pub fn take_next_slot(&mut self) -> Answer<'static> {
        self.take_slot()
    }

    /// Takes a command by itself.
    pub fn take_command_on(&mut self, bus: Bus, bits: u16) {
        if !self.replies_on(bus) {
            self.take_command(bus, Command(bits));
        }
    }

    /// Takes a data word by itself.
    #[inline]
    pub fn take_data(&mut self, bus: Bus, bits: u16) {
        if !self.replies_on(bus) {
            self.take_other(bus, Some(bits));
        }
    }

    /// The command of the message on this bus that waits for the first of its data words.
    #[inline]
    pub fn collects(&self, bus: Bus) -> Option<u16> {
        match self.message {
            Some(Message {
                bus: its_bus,
                command,
                phase: Phase::Command | Phase::Status,
                followed: Followed::Data(0),
                expected: 1..,
                ..
            }) if its_bus == bus => Some(command.0),
            _ => None,
        }
    }

    /// Whether the transmitter of this bus is on.
    #[inline]
    pub fn can_send(&self, bus: Bus) -> bool {
        !self.shut_down[bus as usize]
    }

    #[inline]
    pub fn is_busy(&self) -> bool {
        self.flags[Flag::Busy as usize]
    }

    /// Drops what is in progress on either bus: a message begins on this one, and is over with its gap.
    pub fn drop_all(&mut self, bus: Bus) {
        self.heard[bus as usize] = false;
        self.message = None;
        self.reply = None;
    }

    /// Takes a whole message of data. What is handed over, held and answered is left to the caller.
    #[inline]
    pub fn take(&mut self, bits: u16, shown: u16, is_broadcast: bool) {
        self.last_command = bits;
        self.kept = shown | u16::from(is_broadcast) * status::BROADCAST_RECEIVED;
    }

    /// Takes a whole message that asks for the kept status. The reply is left to the caller.
    #[inline]
    pub fn take_status_asked(&mut self, bits: u16) {
        self.last_command = bits;
    }

    /// Takes a whole message of an illegal command. The reply is left to the caller.
    #[inline]
    pub fn take_illegal(&mut self, bits: u16, shown: u16, is_broadcast: bool) {
        self.take(bits, shown | status::MESSAGE_ERROR, is_broadcast);
    }

    /// Takes a whole message of a mode code, and begins its reply.
    pub fn take_mode_code(&mut self, bus: Bus, bits: u16, word: u16) -> Answer<'_> {
        self.last_command = bits;
        self.received[0] = word;
        self.complete(Message {
            bus,
            command: Command(bits),
            expected: 0,
            is_legal: true,
            phase: Phase::Command,
            followed: Followed::Data(0),
        })
    }

    /// The status of a message to the own address that ends well, as the flags stand.
    #[inline]
    pub fn shown(&self) -> u16 {
        let flags = self.flags.map(u16::from);
        self.profile.address << 11
            | flags[Flag::Service as usize] * status::SERVICE_REQUEST
            | flags[Flag::Busy as usize] * status::BUSY
            | flags[Flag::Subsystem as usize] * status::SUBSYSTEM_FLAG
            | flags[Flag::Terminal as usize] * u16::from(!self.flag_is_inhibited)
    }

    /// Holds a word.
    pub fn hold(&mut self, subaddress: usize, index: usize, word: u16) {
        self.held[subaddress][index] = word;
    }

    /// Begins a reply of the status and so many words that are held.
    #[inline]
    pub fn begin_reply_of(&mut self, bus: Bus, subaddress: usize, count: usize) {
        let after = match count {
            0 => AfterStatus::Nothing,
            _ => AfterStatus::Held(subaddress, count),
        };
        self.reply = Some(Reply {
            bus,
            after,
            next: 0,
        });
    }

    /// What the slots that come next are answered with.
    #[inline]
    pub fn next_words(&self) -> Next {
        match self.reply {
            None => Next::Nothing,
            Some(Reply { bus, after, next }) => match after {
                AfterStatus::Held(subaddress, count) => Next::Held(bus, subaddress, next, count),
                AfterStatus::Nothing => Next::Held(bus, 0, next, 0),
                _ => Next::Event,
            },
        }
    }

    /// The status word of the reply in progress.
    #[inline]
    pub fn status(&self) -> u16 {
        self.kept
    }

    /// The words that are held for a subaddress.
    pub fn held_words(&self, subaddress: usize) -> &[u16; WORDS] {
        &self.held[subaddress]
    }

    /// Goes on with a reply at this word, or ends it where there is none.
    #[inline]
    pub fn go_on(&mut self, at: usize, count: usize) {
        match &mut self.reply {
            Some(reply) if at <= count => reply.next = at,
            reply => *reply = None,
        }
    }

    /// Which held words may be changed by the message that a gap would end, or the reply that a slot would go on with.
    pub fn changes_held(&self) -> Held {
        if matches!(self.reply, Some(reply) if matches!(reply.after, AfterStatus::Reset)) {
            return Held::All;
        }
        match self.message {
            Some(Message { command, .. }) if command.is_mode() && command.code() == code::RESET => {
                Held::All
            }
            Some(Message { command, .. }) if command.subaddress() == self.profile.wraparound => {
                Held::One(self.profile.wraparound)
            }
            _ => Held::Nothing,
        }
    }
}
