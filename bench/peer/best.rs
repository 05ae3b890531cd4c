//! Plays a script of bus events to a remote terminal as fast as we know how to in plain Rust, with the vectors of
//! the processor: whole messages and runs of slots at once, digits copied from script to transcript without
//! becoming numbers, held words kept as printed lines, commands looked up in a table. What is left is played line
//! by line as `tuned` plays it.
mod fault;
mod job;
mod profile;
mod terminal;
mod toml;
mod vectors;

use fault::Fault;
use job::{LONGEST_LINE, MOST_LINES};
use std::io::{Read, Write};
use std::process::ExitCode;
use terminal::whole::{kind, Commands, Held, Next};
use terminal::{Answer, Bus, Event, Flag, Hand, Terminal, Word};
use vectors::{
    are_slots, comments, copy_field, copy_fields, copy_lines, count_slots, data_in, is_gap,
    is_slot, length_of_line, word_at, word_in, Here, Room, FIELD, GAP_LINE, LETTERS, LONGEST_ANSWER, REACH,
    SLOT_LINE, WORD_LINE,
};

/// How many bytes are read and written at a time.
const BLOCK: usize = 65_536;

/// How many words a subaddress holds.
const WORDS: usize = 32;

/// How many lines are played at once, at most, but for runs of slots and comments: a message of 32 words with its slot.
const MOST_AT_ONCE: u32 = WORDS as u32 + 3;

fn main() -> ExitCode {
    job::work(play)
}

/// Zeros that are no pages of memory before something is written there.
fn zeros<const COUNT: usize>() -> Box<[u8; COUNT]> {
    vec![0; COUNT].into_boxed_slice().try_into().unwrap()
}

fn play(
    terminal: Terminal,
    script: &mut dyn Read,
    transcript: &mut dyn Write,
) -> Result<(), Fault> {
    let mut player = Player {
        commands: Commands::new(),
        printed: Printed::new(),
        shown: terminal.shown(),
        is_quiet: true,
        terminal,
        transcript: Transcript {
            writer: transcript,
            block: zeros(),
            length: 0,
        },
        lines: 0,
    };
    let result = player.play_blocks(script);
    // what was answered before a fault stands, and where it can't be written, that is told
    player.transcript.hand_on().and(result)
}

struct Player<'a> {
    terminal: Terminal,
    commands: Commands,
    printed: Printed,
    /// The status of a message to the own address that ends well, as the flags stand.
    shown: u16,
    /// Whether nothing is in progress on either bus.
    is_quiet: bool,
    transcript: Transcript<'a>,
    /// How many lines were played.
    lines: u32,
}

/// The first four bytes of a line.
const fn head(line: &[u8; 4]) -> u32 {
    u32::from_le_bytes(*line)
}

const COMMANDS_BEGIN: [u32; 2] = [head(b"A c "), head(b"B c ")];

impl Player<'_> {
    fn play_blocks(&mut self, script: &mut dyn Read) -> Result<(), Fault> {
        let mut block = zeros();
        let mut length = 0;
        loop {
            // the transcript is handed on before a read that may have to wait
            self.transcript.hand_on()?;
            let count = script
                .read(&mut block[length..BLOCK])
                .map_err(|_| Fault::Input)?;
            length += count;
            // no line but a comment has this byte: no other one goes on behind what was read
            block[length] = 0;
            let done = self.play_block(&block, length, count == 0)?;
            if count == 0 {
                return Ok(());
            }
            block.copy_within(done..length, 0);
            length -= done;
        }
    }

    /// Plays the lines of a block of this length, and says how many bytes they have. Where the script ends with the
    /// block, so does its last line.
    fn play_block(
        &mut self,
        block: &[u8; BLOCK + REACH],
        length: usize,
        is_end: bool,
    ) -> Result<usize, Fault> {
        let mut at = 0;
        loop {
            self.transcript.make_room()?;
            let here = block[at..].first_chunk().unwrap();
            let rest = &block[at..length];
            let played = self.play_usual(here, rest);
            if played > 0 {
                at += played;
                continue;
            }
            match self.play_line(here, rest, is_end)? {
                Some(played) => at += played,
                None => return Ok(at),
            }
        }
    }

    /// Plays what stands here, if it is a line of a word, a gap, slots or comments, and says how many bytes that has. A
    /// command is played with its whole message and the slots of its reply.
    #[inline(always)]
    fn play_usual(&mut self, here: &Here, rest: &[u8]) -> usize {
        if MOST_LINES - self.lines < MOST_AT_ONCE {
            return 0;
        }
        let bus = match here[0] {
            b'A' => Bus::A,
            b'B' => Bus::B,
            b's' => return self.play_slots(here, rest),
            b'#' => return self.pass_comments(here, rest),
            _ => return 0,
        };
        if head(here.first_chunk().unwrap()) == COMMANDS_BEGIN[bus as usize] {
            self.play_command(here, bus)
        } else {
            self.play_on_bus(here, bus)
        }
    }

    #[inline(always)]
    fn play_command(&mut self, here: &Here, bus: Bus) -> usize {
        let Some(bits) = word_in(here, 0) else {
            return 0;
        };
        if self.is_quiet || self.terminal.is_free(bus) {
            let length = self.play_message(here, WORD_LINE, bus, bits);
            if length > 0 {
                return length;
            }
        }
        self.play_single_command(bus, bits)
    }

    /// Plays a gap, or lines of data words, with the whole message where they are all of its words.
    #[inline(never)]
    fn play_on_bus(&mut self, here: &Here, bus: Bus) -> usize {
        if is_gap(here, 0, bus) {
            self.lines += 1;
            if !self.is_quiet {
                self.forget_changed();
                let answer = self.terminal.take_gap_on(bus);
                self.transcript.put_answer(&answer);
                self.look_again();
            }
            return GAP_LINE;
        }
        if let Some(command) = self.terminal.collects(bus) {
            let length = self.play_message(here, 0, bus, command);
            if length > 0 {
                return length;
            }
        }
        let mut words = 0;
        while words < WORDS {
            let Some(bits) = data_in(here, words * WORD_LINE, bus) else {
                break;
            };
            self.terminal.take_data(bus, bits);
            words += 1;
        }
        self.is_quiet = self.terminal.is_quiet();
        self.lines += words as u32;
        words * WORD_LINE
    }

    #[inline(never)]
    fn play_single_command(&mut self, bus: Bus, bits: u16) -> usize {
        self.terminal.take_command_on(bus, bits);
        self.is_quiet = self.terminal.is_quiet();
        self.lines += 1;
        WORD_LINE
    }

    /// Plays the data words of a message from a place on, the gap after them and the slots of its reply, and says how many
    /// bytes were played to their end, if they all stand here.
    #[inline(always)]
    fn play_message(&mut self, here: &Here, from: usize, bus: Bus, bits: u16) -> usize {
        let entry = self.commands.entry(bits, &self.terminal);
        let count = entry.expected();
        let gap = from + WORD_LINE * count;
        if !is_gap(here, gap, bus) || entry.kind == kind::EVENTS {
            return 0;
        }
        let room = self.transcript.room();
        let subaddress = usize::from(bits >> 5 & 31);
        let fields = if bits >> 11 == 31 {
            room[..32].copy_from_slice(&HEARD[subaddress]);
            HEARD_LENGTH
        } else {
            room[..32].copy_from_slice(&RECEIVED[subaddress]);
            RECEIVED_LENGTH
        };
        let are_data = match count {
            0 => true,
            1 => copy_field(here, from, bus, room, fields),
            _ => copy_fields(here, from, count, bus, room, fields),
        };
        if !are_data {
            return 0;
        }
        let slots = gap + GAP_LINE;
        self.lines += (count + from / WORD_LINE) as u32 + 1;
        if entry.kind == kind::OTHER {
            return slots;
        }
        if !self.is_quiet {
            self.terminal.drop_all(bus);
            self.is_quiet = self.terminal.is_quiet();
        }
        match entry.kind {
            kind::RECEIVE | kind::HEARD => {
                let is_broadcast = entry.kind == kind::HEARD;
                self.terminal.take(bits, self.shown, is_broadcast);
                if !self.terminal.is_busy() {
                    let end = fields + count * FIELD;
                    room[end] = b'\n';
                    self.transcript.length += end + 1;
                    if entry.turns_round {
                        self.turn_round(subaddress, count);
                    }
                }
                if is_broadcast {
                    return slots;
                }
            }
            kind::TRANSMIT => {
                self.terminal.take(bits, self.shown, false);
                if !self.terminal.is_busy() && self.terminal.can_send(bus) {
                    return self.play_reply(here, slots, bus, subaddress, entry.asked());
                }
            }
            kind::ILLEGAL => {
                let is_broadcast = bits >> 11 == 31;
                self.terminal.take_illegal(bits, self.shown, is_broadcast);
                if is_broadcast {
                    return slots;
                }
            }
            kind::STATUS => self.terminal.take_status_asked(bits),
            _ => return self.play_mode_code(bus, bits, fields, slots),
        }
        if !self.terminal.can_send(bus) {
            return slots;
        }
        if !is_slot(here, slots) {
            self.begin_reply(bus, 0, 0);
            return slots;
        }
        self.put_status(bus);
        self.lines += 1;
        slots + SLOT_LINE
    }

    /// Plays the slots of a reply of held words if they all stand here, and says where they end.
    #[inline(always)]
    fn play_reply(
        &mut self,
        here: &Here,
        at: usize,
        bus: Bus,
        subaddress: usize,
        words: usize,
    ) -> usize {
        if !are_slots(here, at, 1 + words) {
            self.begin_reply(bus, subaddress, words);
            return at;
        }
        self.put_status(bus);
        self.put_held(bus, subaddress, 0, words);
        self.lines += 1 + words as u32;
        at + (1 + words) * SLOT_LINE
    }

    fn begin_reply(&mut self, bus: Bus, subaddress: usize, words: usize) {
        self.terminal.begin_reply_of(bus, subaddress, words);
        self.is_quiet = false;
    }

    /// Takes the whole message of a mode code, whose data word stands in the transcript's room if it has one.
    #[inline(never)]
    fn play_mode_code(&mut self, bus: Bus, bits: u16, field: usize, length: usize) -> usize {
        let word = word_at(self.transcript.room(), field + 1).unwrap_or(0);
        let answer = self.terminal.take_mode_code(bus, bits, word);
        self.transcript.put_answer(&answer);
        self.look_again();
        length
    }

    /// Holds the words that were handed over last, to be sent.
    #[inline(never)]
    fn turn_round(&mut self, subaddress: usize, count: usize) {
        let line = &self.transcript.block[..self.transcript.length - 1];
        for (index, field) in line[line.len() - count * FIELD..].chunks(FIELD).enumerate() {
            self.terminal
                .hold(subaddress, index, word_at(field, 1).unwrap());
        }
        self.printed.is_known[subaddress] = false;
    }

    /// Writes the kept status.
    #[inline(always)]
    fn put_status(&mut self, bus: Bus) {
        let line = self.printed.status_line(bus, self.terminal.status());
        self.transcript.room()[..16].copy_from_slice(line);
        self.transcript.length += WORD_LINE;
    }

    /// Writes so many words that are held.
    #[inline]
    fn put_held(&mut self, bus: Bus, subaddress: usize, first: usize, count: usize) {
        let lines = self.printed.lines(&self.terminal, bus, subaddress);
        copy_lines(lines, first, count, self.transcript.room());
        self.transcript.length += count * WORD_LINE;
    }

    /// Plays a slot, and those that follow: as far as the reply goes, or all that stay silent.
    #[inline(never)]
    fn play_slots(&mut self, here: &Here, rest: &[u8]) -> usize {
        if !is_slot(here, 0) {
            return 0;
        }
        let slots = match self.terminal.next_words() {
            Next::Nothing => count_slots(rest, (MOST_LINES - self.lines) as usize),
            Next::Event => {
                self.forget_changed();
                let answer = self.terminal.take_next_slot();
                self.transcript.put_answer(&answer);
                self.look_again();
                1
            }
            Next::Held(bus, subaddress, first, last) => {
                let slots = count_slots(here, last + 1 - first);
                if first == 0 {
                    self.put_status(bus);
                }
                let (from, to) = (first.max(1), first + slots);
                if from < to {
                    self.put_held(bus, subaddress, from - 1, to - from);
                }
                self.terminal.go_on(to, last);
                self.is_quiet = self.terminal.is_quiet();
                slots
            }
        };
        self.lines += slots as u32;
        slots * SLOT_LINE
    }

    /// Passes a comment, and those that follow.
    #[inline(never)]
    fn pass_comments(&mut self, here: &Here, rest: &[u8]) -> usize {
        let first = match length_of_line(here) {
            Some(first) if first < rest.len() => first,
            _ => return 0,
        };
        self.lines += 1;
        let (length, lines) = comments(&rest[first + 1..]);
        if lines > MOST_LINES - self.lines {
            return first + 1;
        }
        self.lines += lines;
        first + 1 + length
    }

    /// Plays the next line, whatever it is, and says how many bytes it has; None where its end isn't there yet.
    #[inline(never)]
    fn play_line(
        &mut self,
        here: &Here,
        rest: &[u8],
        is_end: bool,
    ) -> Result<Option<usize>, Fault> {
        if rest.is_empty() {
            return Ok(None);
        }
        if self.lines == MOST_LINES {
            return Err(Fault::TooManyLines);
        }
        let number = self.lines + 1;
        let (line, length) = match length_of_line(here) {
            Some(end) if end < rest.len() => (&rest[..end], end + 1),
            _ if rest.len() > LONGEST_LINE => return Err(Fault::LongLine(number)),
            _ if is_end => (rest, rest.len()),
            _ => return Ok(None),
        };
        self.lines = number;
        if let [] | [b'#', ..] = line {
            return Ok(Some(length));
        }
        self.play_event(read_event(line).ok_or(Fault::Line(number))?);
        Ok(Some(length))
    }

    #[inline(never)]
    fn play_event(&mut self, event: Event) {
        match event {
            Event::Gap(_) | Event::Slot => self.forget_changed(),
            Event::Write(subaddress, number, word) => {
                self.printed
                    .put(usize::from(subaddress), usize::from(number) - 1, word)
            }
            _ => {}
        }
        self.transcript.put_answer(&self.terminal.step(event));
        self.look_again();
    }

    /// Forgets the printed lines of words that a gap or a slot may change.
    fn forget_changed(&mut self) {
        match self.terminal.changes_held() {
            Held::Nothing => {}
            Held::One(subaddress) => self.printed.is_known[subaddress] = false,
            Held::All => self.printed.is_known = [false; WORDS],
        }
    }

    /// Looks at the terminal again after an event.
    fn look_again(&mut self) {
        self.shown = self.terminal.shown();
        self.is_quiet = self.terminal.is_quiet();
    }
}

/// How lines begin that hand words over, by subaddress. Behind it is room, so that all are copied in pieces of one length.
type Beginnings = [[u8; 32]; 32];
const RECEIVED: Beginnings = beginnings(b"hand receive own ");
const RECEIVED_LENGTH: usize = 19;
const HEARD: Beginnings = beginnings(b"hand receive broadcast ");
const HEARD_LENGTH: usize = 25;

const fn beginnings(text: &[u8]) -> Beginnings {
    let mut lines = [[0; 32]; 32];
    let mut subaddress = 0;
    while subaddress < 32 {
        let mut at = 0;
        while at < text.len() {
            lines[subaddress][at] = text[at];
            at += 1;
        }
        lines[subaddress][at] = b'0' + subaddress as u8 / 10;
        lines[subaddress][at + 1] = b'0' + subaddress as u8 % 10;
        subaddress += 1;
    }
    lines
}

/// Words as lines of a transcript.
struct Printed {
    /// The words that are held, for each bus.
    lines: Vec<[Lines; WORDS]>,
    /// Of which subaddresses the lines are those of the words.
    is_known: [bool; WORDS],
    /// The line of a status word, for each bus, in a vector.
    status: [[u8; 16]; 2],
    status_word: u16,
}

/// The lines of a subaddress, and room for two vectors behind them.
type Lines = [u8; WORD_LINE * WORDS + 32];

impl Printed {
    fn new() -> Printed {
        Printed {
            lines: vec![[[0; WORD_LINE * WORDS + 32]; WORDS]; 2],
            is_known: [false; WORDS],
            status: status_lines(0),
            status_word: 0,
        }
    }

    fn put(&mut self, subaddress: usize, index: usize, word: u16) {
        for bus in [Bus::A, Bus::B] {
            let lines = &mut self.lines[bus as usize][subaddress];
            lines[index * WORD_LINE..][..WORD_LINE].copy_from_slice(&word_line(bus, b'd', word));
        }
    }

    #[inline]
    fn lines(&mut self, terminal: &Terminal, bus: Bus, subaddress: usize) -> &Lines {
        if !self.is_known[subaddress] {
            for (index, word) in terminal.held_words(subaddress).iter().enumerate() {
                self.put(subaddress, index, *word);
            }
            self.is_known[subaddress] = true;
        }
        &self.lines[bus as usize][subaddress]
    }

    #[inline]
    fn status_line(&mut self, bus: Bus, word: u16) -> &[u8; 16] {
        if word != self.status_word {
            self.status = status_lines(word);
            self.status_word = word;
        }
        &self.status[bus as usize]
    }
}

fn status_lines(word: u16) -> [[u8; 16]; 2] {
    [Bus::A, Bus::B].map(|bus| {
        let mut line = [0; 16];
        line[..WORD_LINE].copy_from_slice(&word_line(bus, b's', word));
        line
    })
}

/// The event of a whole line of any form.
fn read_event(line: &[u8]) -> Option<Event> {
    match *line {
        [bus, b' ', b'g', b'a', b'p'] => Some(Event::Gap(read_bus(bus)?)),
        [b's', b'l', b'o', b't'] => Some(Event::Slot),
        [bus, b' ', b'n', b'o', b'i', b's', b'e'] => Some(Event::Noise(read_bus(bus)?)),
        [bus, b' ', kind, b' ', a, b, c, d] => {
            let word = Word {
                is_command: read_kind(kind)?,
                bits: word_at(&[a, b, c, d], 0)?,
                is_valid: true,
            };
            Some(Event::Word(read_bus(bus)?, word))
        }
        [bus, b' ', kind, b' ', a, b, c, d, b' ', parity @ (b'0' | b'1')] => {
            let bits = word_at(&[a, b, c, d], 0)?;
            let word = Word {
                is_command: read_kind(kind)?,
                bits,
                is_valid: (bits.count_ones() + u32::from(parity - b'0')) % 2 == 1,
            };
            Some(Event::Word(read_bus(bus)?, word))
        }
        [b'w', b'r', b'i', b't', b'e', b' ', s, t, b' ', i, j, b' ', a, b, c, d] => {
            Some(Event::Write(
                read_number(s, t, 30)?,
                read_number(i, j, 32)?,
                word_at(&[a, b, c, d], 0)?,
            ))
        }
        [b'v', b'e', b'c', b't', b'o', b'r', b' ', a, b, c, d] => {
            Some(Event::Vector(word_at(&[a, b, c, d], 0)?))
        }
        [b'b', b'i', b't', b' ', a, b, c, d] => Some(Event::Bit(word_at(&[a, b, c, d], 0)?)),
        [b'f', b'l', b'a', b'g', b' ', ref flag @ .., b' ', state @ (b'0' | b'1')] => {
            Some(Event::Flag(read_flag(flag)?, state == b'1'))
        }
        _ => None,
    }
}

fn read_bus(byte: u8) -> Option<Bus> {
    match byte {
        b'A' => Some(Bus::A),
        b'B' => Some(Bus::B),
        _ => None,
    }
}

/// Whether the sync is that of commands.
fn read_kind(byte: u8) -> Option<bool> {
    match byte {
        b'c' => Some(true),
        b'd' => Some(false),
        _ => None,
    }
}

fn read_flag(name: &[u8]) -> Option<Flag> {
    match name {
        b"service" => Some(Flag::Service),
        b"busy" => Some(Flag::Busy),
        b"subsystem" => Some(Flag::Subsystem),
        b"terminal" => Some(Flag::Terminal),
        _ => None,
    }
}

/// Two decimal digits, of a number from 1 on.
fn read_number(tens: u8, ones: u8, most: u8) -> Option<u8> {
    if !tens.is_ascii_digit() || !ones.is_ascii_digit() {
        return None;
    }
    let number = (tens - b'0') * 10 + (ones - b'0');
    (1..=most).contains(&number).then_some(number)
}

/// The two digits of each byte.
const DIGITS: [[u8; 2]; 256] = {
    let mut digits = [[0; 2]; 256];
    let mut byte = 0;
    while byte < 256 {
        digits[byte] = [
            b"0123456789abcdef"[byte >> 4],
            b"0123456789abcdef"[byte & 15],
        ];
        byte += 1;
    }
    digits
};

#[inline]
fn digits_of(word: u16) -> [u8; 4] {
    let [high, low] = word.to_be_bytes();
    let ([a, b], [c, d]) = (DIGITS[usize::from(high)], DIGITS[usize::from(low)]);
    [a, b, c, d]
}

/// A line `A s XXXX` or `A d XXXX`.
#[inline]
fn word_line(bus: Bus, kind: u8, word: u16) -> [u8; WORD_LINE] {
    let [a, b, c, d] = digits_of(word);
    [LETTERS[bus as usize], b' ', kind, b' ', a, b, c, d, b'\n']
}

/// The transcript, which is written in blocks.
struct Transcript<'a> {
    writer: &'a mut dyn Write,
    block: Box<[u8; BLOCK + LONGEST_ANSWER]>,
    length: usize,
}

impl Transcript<'_> {
    /// Writes out what is held back.
    fn hand_on(&mut self) -> Result<(), Fault> {
        let length = std::mem::take(&mut self.length);
        if length == 0 {
            return Ok(());
        }
        self.writer
            .write_all(&self.block[..length])
            .map_err(|_| Fault::Output)?;
        self.writer.flush().map_err(|_| Fault::Output)
    }

    /// Sees to it that there is room for an answer.
    #[inline]
    fn make_room(&mut self) -> Result<(), Fault> {
        if BLOCK - self.length < LONGEST_ANSWER {
            self.hand_on()?;
        }
        Ok(())
    }

    /// Where the next answer is written.
    #[inline]
    fn room(&mut self) -> &mut Room {
        self.block[self.length.min(BLOCK)..]
            .first_chunk_mut()
            .unwrap()
    }

    fn put_answer(&mut self, answer: &Answer) {
        match answer {
            Answer::Silent => {}
            Answer::Sends(sent) => {
                let kind = if sent.is_status { b's' } else { b'd' };
                self.put(&word_line(sent.bus, kind, sent.bits));
            }
            Answer::Hands(hand) => self.put_hand(hand),
        }
    }

    fn put_hand(&mut self, hand: &Hand) {
        match *hand {
            Hand::Received {
                broadcast,
                subaddress,
                words,
            } => {
                self.put(if broadcast {
                    b"hand receive broadcast "
                } else {
                    b"hand receive own "
                });
                self.put(&[b'0' + subaddress / 10, b'0' + subaddress % 10]);
                for word in words {
                    self.put_word(*word);
                }
            }
            Hand::Synchronize => self.put(b"hand sync"),
            Hand::SynchronizeWith(word) => {
                self.put(b"hand sync");
                self.put_word(word);
            }
            Hand::SelfTest => self.put(b"hand self-test"),
            Hand::BusControl => self.put(b"hand bus-control"),
        }
        self.put(b"\n");
    }

    /// A space and four digits.
    fn put_word(&mut self, word: u16) {
        let [a, b, c, d] = digits_of(word);
        self.put(&[b' ', a, b, c, d]);
    }

    fn put(&mut self, bytes: &[u8]) {
        self.block[self.length..][..bytes.len()].copy_from_slice(bytes);
        self.length += bytes.len();
    }
}
