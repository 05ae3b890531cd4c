//! Plays a script of bus events to a remote terminal, as fast as plain Rust lets it: blocks of 64 KiB, lines
//! told by their first bytes, digits by tables, nothing allocated while it plays.
mod fault;
mod job;
mod profile;
mod terminal;
mod toml;

use fault::Fault;
use job::{LONGEST_LINE, MOST_LINES};
use std::io::{Read, Write};
use std::process::ExitCode;
use terminal::{Answer, Bus, Event, Flag, Hand, Sent, Terminal, Word};

/// How many bytes are read and written at a time.
const BLOCK: usize = 65_536;

/// How many bytes an answer has at most, with room to spare: 32 words that came by broadcast and are handed over
/// are 186.
const LONGEST_ANSWER: usize = 256;

/// How many bytes a line of a word has, in a script and in a transcript.
const WORD_LINE: usize = 9;

fn main() -> ExitCode {
    job::work(play)
}

fn play(
    mut terminal: Terminal,
    script: &mut dyn Read,
    transcript: &mut dyn Write,
) -> Result<(), Fault> {
    let mut transcript = Transcript {
        writer: transcript,
        block: [0; BLOCK],
        length: 0,
    };
    let result = play_blocks(&mut terminal, script, &mut transcript);
    // what was answered before a fault stands
    result.and(transcript.hand_on())
}

fn play_blocks(
    terminal: &mut Terminal,
    script: &mut dyn Read,
    transcript: &mut Transcript,
) -> Result<(), Fault> {
    let mut block = [0; BLOCK];
    let mut length = 0;
    let mut lines = 0;
    loop {
        // the transcript is handed on before a read that may have to wait
        transcript.hand_on()?;
        let count = script
            .read(&mut block[length..])
            .map_err(|_| Fault::Input)?;
        length += count;
        let mut in_block = Lines {
            rest: &block[..length],
            lines,
        };
        while let Some(line) = in_block.next_line(count == 0)? {
            if let Line::Event(event) = line {
                transcript.put_answer(&terminal.step(event))?;
            }
        }
        if count == 0 {
            return Ok(());
        }
        lines = in_block.lines;
        let left = in_block.rest.len();
        block.copy_within(length - left..length, 0);
        length = left;
    }
}

/// A line of a script.
enum Line {
    Event(Event),
    /// An empty line, or a comment.
    Nothing,
}

/// The lines of a block that have not been read.
struct Lines<'a> {
    rest: &'a [u8],
    /// How many lines came before the rest, in all blocks.
    lines: u32,
}

impl Lines<'_> {
    /// The next line; None where its end isn't in the block. Where the script ends with the block, so does
    /// its last line.
    #[inline]
    fn next_line(&mut self, is_end: bool) -> Result<Option<Line>, Fault> {
        if self.lines < MOST_LINES {
            if let Some((event, length)) = usual_event(self.rest) {
                self.pass(length);
                return Ok(Some(Line::Event(event)));
            }
        }
        self.next_by_line_feed(is_end)
    }

    fn pass(&mut self, length: usize) {
        self.rest = &self.rest[length..];
        self.lines += 1;
    }

    /// The next line, by the line feed that ends it.
    fn next_by_line_feed(&mut self, is_end: bool) -> Result<Option<Line>, Fault> {
        if self.rest.is_empty() {
            return Ok(None);
        }
        if self.lines == MOST_LINES {
            return Err(Fault::TooManyLines);
        }
        let number = self.lines + 1;
        let (line, length) = match find_line_feed(self.rest) {
            Some(end) => (&self.rest[..end], end + 1),
            None if self.rest.len() > LONGEST_LINE => return Err(Fault::LongLine(number)),
            None if is_end => (self.rest, self.rest.len()),
            None => return Ok(None),
        };
        let line = match line {
            [] | [b'#', ..] => Line::Nothing,
            _ => Line::Event(rare_event(line).ok_or(Fault::Line(number))?),
        };
        self.pass(length);
        Ok(Some(line))
    }
}

/// Where the first line feed stands, if a line that is not too long ends with it.
fn find_line_feed(bytes: &[u8]) -> Option<usize> {
    let reach = bytes.len().min(LONGEST_LINE + 1);
    let (words, rest) = bytes[..reach].as_chunks::<8>();
    for (number, word) in words.iter().enumerate() {
        // the lowest byte of the word that is a line feed has the lowest bit that is set here
        let turned = u64::from_le_bytes(*word) ^ 0x0a0a_0a0a_0a0a_0a0a;
        let zeros = turned.wrapping_sub(0x0101_0101_0101_0101) & !turned & 0x8080_8080_8080_8080;
        if zeros != 0 {
            return Some(number * 8 + zeros.trailing_zeros() as usize / 8);
        }
    }
    let end = rest.iter().position(|byte| *byte == b'\n')?;
    Some(words.len() * 8 + end)
}

/// The event of a line of one of the usual forms, and the length of the line with its line feed.
#[inline]
fn usual_event(bytes: &[u8]) -> Option<(Event, usize)> {
    match *bytes {
        [bus, b' ', kind, b' ', a, b, c, d, b'\n', ..] => {
            let is_command = read_kind(kind)?;
            let word = Word {
                is_command,
                bits: read_bits([a, b, c, d])?,
                is_valid: true,
            };
            Some((Event::Word(read_bus(bus)?, word), WORD_LINE))
        }
        [bus, b' ', b'g', b'a', b'p', b'\n', ..] => Some((Event::Gap(read_bus(bus)?), 6)),
        [b's', b'l', b'o', b't', b'\n', ..] => Some((Event::Slot, 5)),
        _ => None,
    }
}

/// The event of a whole line of any form.
fn rare_event(line: &[u8]) -> Option<Event> {
    match *line {
        [bus, b' ', b'g', b'a', b'p'] => Some(Event::Gap(read_bus(bus)?)),
        [b's', b'l', b'o', b't'] => Some(Event::Slot),
        [bus, b' ', b'n', b'o', b'i', b's', b'e'] => Some(Event::Noise(read_bus(bus)?)),
        [bus, b' ', kind, b' ', a, b, c, d] => {
            let word = Word {
                is_command: read_kind(kind)?,
                bits: read_bits([a, b, c, d])?,
                is_valid: true,
            };
            Some(Event::Word(read_bus(bus)?, word))
        }
        [bus, b' ', kind, b' ', a, b, c, d, b' ', parity @ (b'0' | b'1')] => {
            let bits = read_bits([a, b, c, d])?;
            let is_valid = (bits.count_ones() + u32::from(parity - b'0')) % 2 == 1;
            Some(Event::Word(
                read_bus(bus)?,
                Word {
                    is_command: read_kind(kind)?,
                    bits,
                    is_valid,
                },
            ))
        }
        [b'w', b'r', b'i', b't', b'e', b' ', s, t, b' ', i, j, b' ', a, b, c, d] => {
            Some(Event::Write(
                read_number(s, t, 30)?,
                read_number(i, j, 32)?,
                read_bits([a, b, c, d])?,
            ))
        }
        [b'v', b'e', b'c', b't', b'o', b'r', b' ', a, b, c, d] => {
            Some(Event::Vector(read_bits([a, b, c, d])?))
        }
        [b'b', b'i', b't', b' ', a, b, c, d] => Some(Event::Bit(read_bits([a, b, c, d])?)),
        [b'f', b'l', b'a', b'g', b' ', ref flag @ .., b' ', state @ (b'0' | b'1')] => {
            Some(Event::Flag(read_flag(flag)?, state == b'1'))
        }
        _ => None,
    }
}

#[inline]
fn read_bus(byte: u8) -> Option<Bus> {
    match byte {
        b'A' => Some(Bus::A),
        b'B' => Some(Bus::B),
        _ => None,
    }
}

/// Whether the sync is that of commands.
#[inline]
fn read_kind(byte: u8) -> Option<bool> {
    match byte {
        b'c' => Some(true),
        b'd' => Some(false),
        _ => None,
    }
}

fn read_flag(name: &[u8]) -> Option<Flag> {
    match name {
        b"service" => Some(Flag::Service),
        b"busy" => Some(Flag::Busy),
        b"subsystem" => Some(Flag::Subsystem),
        b"terminal" => Some(Flag::Terminal),
        _ => None,
    }
}

/// Two decimal digits, of a number from 1 on.
fn read_number(tens: u8, ones: u8, most: u8) -> Option<u8> {
    if !tens.is_ascii_digit() || !ones.is_ascii_digit() {
        return None;
    }
    let number = (tens - b'0') * 10 + (ones - b'0');
    (1..=most).contains(&number).then_some(number)
}

/// What a byte that is no digit is in the table of digits.
const NO_DIGIT: u16 = 0x8000;

/// The value of each byte as a hexadecimal digit.
const VALUES: [u16; 256] = {
    let mut values = [NO_DIGIT; 256];
    let mut value = 0;
    while value < 16 {
        let digit = b"0123456789abcdef"[value];
        values[digit as usize] = value as u16;
        values[digit.to_ascii_uppercase() as usize] = value as u16;
        value += 1;
    }
    values
};

/// The two digits of each byte.
const DIGITS: [[u8; 2]; 256] = {
    let mut digits = [[0; 2]; 256];
    let mut byte = 0;
    while byte < 256 {
        digits[byte] = [
            b"0123456789abcdef"[byte >> 4],
            b"0123456789abcdef"[byte & 15],
        ];
        byte += 1;
    }
    digits
};

/// Four hexadecimal digits.
#[inline]
fn read_bits(digits: [u8; 4]) -> Option<u16> {
    let [a, b, c, d] = digits.map(|digit| VALUES[usize::from(digit)]);
    if (a | b | c | d) & NO_DIGIT != 0 {
        return None;
    }
    Some(a << 12 | b << 8 | c << 4 | d)
}

/// The transcript, which is written in blocks.
struct Transcript<'a> {
    writer: &'a mut dyn Write,
    block: [u8; BLOCK],
    length: usize,
}

impl Transcript<'_> {
    /// Writes out what is held back.
    fn hand_on(&mut self) -> Result<(), Fault> {
        let length = std::mem::take(&mut self.length);
        if length == 0 {
            return Ok(());
        }
        self.writer
            .write_all(&self.block[..length])
            .map_err(|_| Fault::Output)?;
        self.writer.flush().map_err(|_| Fault::Output)
    }

    #[inline]
    fn put_answer(&mut self, answer: &Answer) -> Result<(), Fault> {
        if let Answer::Silent = answer {
            return Ok(());
        }
        if BLOCK - self.length < LONGEST_ANSWER {
            self.hand_on()?;
        }
        match answer {
            Answer::Silent => {}
            Answer::Sends(sent) => self.put_sent(*sent),
            Answer::Hands(hand) => self.put_hand(hand),
        }
        Ok(())
    }

    #[inline]
    fn put_sent(&mut self, sent: Sent) {
        let bus = match sent.bus {
            Bus::A => b'A',
            Bus::B => b'B',
        };
        let kind = if sent.is_status { b's' } else { b'd' };
        self.put(&word_line(bus, kind, sent.bits));
    }

    fn put_hand(&mut self, hand: &Hand) {
        match *hand {
            Hand::Received {
                broadcast,
                subaddress,
                words,
            } => {
                self.put(if broadcast {
                    b"hand receive broadcast "
                } else {
                    b"hand receive own "
                });
                self.put(&[b'0' + subaddress / 10, b'0' + subaddress % 10]);
                for word in words {
                    self.put_word(*word);
                }
            }
            Hand::Synchronize => self.put(b"hand sync"),
            Hand::SynchronizeWith(word) => {
                self.put(b"hand sync");
                self.put_word(word);
            }
            Hand::SelfTest => self.put(b"hand self-test"),
            Hand::BusControl => self.put(b"hand bus-control"),
        }
        self.put(b"\n");
    }

    /// A space and four digits.
    fn put_word(&mut self, word: u16) {
        let [a, b, c, d] = digits_of(word);
        self.put(&[b' ', a, b, c, d]);
    }

    #[inline]
    fn put(&mut self, bytes: &[u8]) {
        self.block[self.length..][..bytes.len()].copy_from_slice(bytes);
        self.length += bytes.len();
    }
}

#[inline]
fn digits_of(word: u16) -> [u8; 4] {
    let [high, low] = word.to_be_bytes();
    let ([a, b], [c, d]) = (DIGITS[usize::from(high)], DIGITS[usize::from(low)]);
    [a, b, c, d]
}

/// A line `A s XXXX` or `A d XXXX`.
#[inline]
fn word_line(bus: u8, kind: u8, word: u16) -> [u8; WORD_LINE] {
    let [a, b, c, d] = digits_of(word);
    [bus, b' ', kind, b' ', a, b, c, d, b'\n']
}
