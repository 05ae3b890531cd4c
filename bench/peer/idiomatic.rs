//! Plays a script of bus events to a remote terminal, in the way in which one writes such a program first:
//! lines from `BufRead::split`, fields from `split`, output by `write!`.
mod fault;
mod job;
mod profile;
mod terminal;
mod toml;

use fault::Fault;
use job::{LONGEST_LINE, MOST_LINES};
use std::cell::RefCell;
use std::io::{self, BufRead, BufReader, BufWriter, Read, Write};
use std::process::ExitCode;
use terminal::{Answer, Bus, Event, Flag, Hand, Terminal, Word};

fn main() -> ExitCode {
    job::work(play)
}

fn play(
    mut terminal: Terminal,
    script: &mut dyn Read,
    transcript: &mut dyn Write,
) -> Result<(), Fault> {
    let transcript = RefCell::new(BufWriter::new(transcript));
    let script = Prompted {
        script,
        transcript: &transcript,
    };
    let mut result = play_lines(&mut terminal, BufReader::new(script), &transcript);
    let mut transcript = transcript.into_inner();
    if !matches!(result, Err(Fault::Output)) {
        // what was answered before a fault stands
        result = result.and(transcript.flush().map_err(|_| Fault::Output));
    }
    // what a failed write has left is not tried again
    let _ = transcript.into_parts();
    result
}

fn play_lines(
    terminal: &mut Terminal,
    script: impl BufRead,
    transcript: &RefCell<impl Write>,
) -> Result<(), Fault> {
    for (number, line) in (1..).zip(script.split(b'\n')) {
        let line = line.map_err(|error| match error.get_ref() {
            Some(inner) if inner.is::<TranscriptFailed>() => Fault::Output,
            _ => Fault::Input,
        })?;
        if let Some(event) = read_line(number, &line)? {
            let mut transcript = transcript.borrow_mut();
            write_answer(&mut *transcript, &terminal.step(event)).map_err(|_| Fault::Output)?;
        }
    }
    Ok(())
}

/// A script before each of whose reads the transcript is handed on: whoever writes the script line by line
/// gets each answer before the next line.
struct Prompted<'a, R, W> {
    script: R,
    transcript: &'a RefCell<W>,
}

impl<R: Read, W: Write> Read for Prompted<'_, R, W> {
    fn read(&mut self, bytes: &mut [u8]) -> io::Result<usize> {
        self.transcript
            .borrow_mut()
            .flush()
            .map_err(|_| io::Error::other(TranscriptFailed))?;
        self.script.read(bytes)
    }
}

/// What failed in a read was the transcript.
#[derive(Debug)]
struct TranscriptFailed;

impl std::error::Error for TranscriptFailed {}

impl std::fmt::Display for TranscriptFailed {
    fn fmt(&self, f: &mut std::fmt::Formatter) -> std::fmt::Result {
        f.write_str("the transcript can't be written")
    }
}

/// The event of a line; None for an empty line and a comment.
fn read_line(number: u32, line: &[u8]) -> Result<Option<Event>, Fault> {
    if number > MOST_LINES {
        return Err(Fault::TooManyLines);
    }
    if line.len() > LONGEST_LINE {
        return Err(Fault::LongLine(number));
    }
    if line.is_empty() || line.starts_with(b"#") {
        return Ok(None);
    }
    let event = std::str::from_utf8(line).ok().and_then(read_event);
    event.map(Some).ok_or(Fault::Line(number))
}

fn read_event(line: &str) -> Option<Event> {
    let mut fields = line.split(' ');
    let mut next = || fields.next();
    match (next(), next(), next(), next(), next()) {
        (Some(bus), Some("noise"), None, ..) => Some(Event::Noise(read_bus(bus)?)),
        (Some(bus), Some("gap"), None, ..) => Some(Event::Gap(read_bus(bus)?)),
        (Some("write"), Some(subaddress), Some(number), Some(word), None) => Some(Event::Write(
            read_number(subaddress, 30)?,
            read_number(number, 32)?,
            read_bits(word)?,
        )),
        (Some("slot"), None, ..) => Some(Event::Slot),
        (Some("vector"), Some(word), None, ..) => Some(Event::Vector(read_bits(word)?)),
        (Some("bit"), Some(word), None, ..) => Some(Event::Bit(read_bits(word)?)),
        (Some("flag"), Some(flag), Some(state), None, _) => {
            Some(Event::Flag(read_flag(flag)?, read_digit(state)?))
        }
        (Some(bus), Some(kind), Some(bits), parity, None) => read_word(bus, kind, bits, parity),
        _ => None,
    }
}

fn read_word(bus: &str, kind: &str, bits: &str, parity: Option<&str>) -> Option<Event> {
    let is_command = match kind {
        "c" => true,
        "d" => false,
        _ => return None,
    };
    let bits = read_bits(bits)?;
    let is_valid = match parity {
        None => true,
        Some(parity) => read_digit(parity)? == (bits.count_ones() % 2 == 0),
    };
    Some(Event::Word(
        read_bus(bus)?,
        Word {
            is_command,
            bits,
            is_valid,
        },
    ))
}

fn read_bus(text: &str) -> Option<Bus> {
    match text {
        "A" => Some(Bus::A),
        "B" => Some(Bus::B),
        _ => None,
    }
}

fn read_flag(text: &str) -> Option<Flag> {
    match text {
        "service" => Some(Flag::Service),
        "busy" => Some(Flag::Busy),
        "subsystem" => Some(Flag::Subsystem),
        "terminal" => Some(Flag::Terminal),
        _ => None,
    }
}

fn read_digit(text: &str) -> Option<bool> {
    match text {
        "0" => Some(false),
        "1" => Some(true),
        _ => None,
    }
}

/// Four hexadecimal digits.
fn read_bits(text: &str) -> Option<u16> {
    if text.len() != 4 || !text.bytes().all(|digit| digit.is_ascii_hexdigit()) {
        return None;
    }
    u16::from_str_radix(text, 16).ok()
}

/// Two decimal digits, of a number from 1 on.
fn read_number(text: &str, most: u8) -> Option<u8> {
    if text.len() != 2 || !text.bytes().all(|digit| digit.is_ascii_digit()) {
        return None;
    }
    text.parse()
        .ok()
        .filter(|number| (1..=most).contains(number))
}

fn write_answer(transcript: &mut impl Write, answer: &Answer) -> io::Result<()> {
    match answer {
        Answer::Silent => Ok(()),
        Answer::Sends(sent) => {
            let kind = if sent.is_status { 's' } else { 'd' };
            writeln!(transcript, "{:?} {kind} {:04x}", sent.bus, sent.bits)
        }
        Answer::Hands(hand) => write_hand(transcript, hand),
    }
}

fn write_hand(transcript: &mut impl Write, hand: &Hand) -> io::Result<()> {
    match hand {
        Hand::Received {
            broadcast,
            subaddress,
            words,
        } => {
            let to = if *broadcast { "broadcast" } else { "own" };
            write!(transcript, "hand receive {to} {subaddress:02}")?;
            for word in *words {
                write!(transcript, " {word:04x}")?;
            }
            writeln!(transcript)
        }
        Hand::Synchronize => writeln!(transcript, "hand sync"),
        Hand::SynchronizeWith(word) => writeln!(transcript, "hand sync {word:04x}"),
        Hand::SelfTest => writeln!(transcript, "hand self-test"),
        Hand::BusControl => writeln!(transcript, "hand bus-control"),
    }
}
