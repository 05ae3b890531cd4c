//! The commands of the program `rt1553`, by the safe calls:
//! PLAYER check P | canon P | compare P Q | run P SCRIPT | save CUTS | resume CUTS
//!
//! `run` plays the script twice, by `run` and line by line to a terminal, and ends with status 9 if
//! the two differ. A line of CUTS is `NAME N`. `save` plays the first N lines of NAME.script to the
//! terminal of NAME.toml, and saves it to NAME-N.state. `resume` restores that, and prints the line
//! of CUTS and the transcript of the lines behind.
use rt1553::{canonical, check, compare, run, Answer, Bus, Event, Fault, Flag, Sync, Terminal};
use std::io::Write;
use std::process::ExitCode;

fn word(digits: &str) -> Option<u16> {
    let is_word = digits.len() == 4 && digits.bytes().all(|digit| digit.is_ascii_hexdigit());
    is_word.then(|| u16::from_str_radix(digits, 16).ok())?
}

fn number(digits: &str) -> Option<u8> {
    let is_number = digits.len() == 2 && digits.bytes().all(|digit| digit.is_ascii_digit());
    is_number.then(|| digits.parse().ok())?
}

fn truth(digit: &str) -> Option<bool> {
    match digit {
        "0" => Some(false),
        "1" => Some(true),
        _ => None,
    }
}

/// The event of a line that is neither empty nor a comment.
fn event_of(line: &str) -> Option<Event> {
    let fields: Vec<&str> = line.split(' ').collect();
    let bus = if fields[0] == "A" { Bus::A } else { Bus::B };
    Some(match fields[..] {
        ["slot"] => Event::Slot,
        ["A" | "B", "gap"] => Event::Gap(bus),
        ["A" | "B", "noise"] => Event::Noise(bus),
        ["A" | "B", kind @ ("c" | "d"), bits, ref parity @ ..] => {
            let sync = if kind == "c" { Sync::Command } else { Sync::Data };
            let parity = match parity {
                [] => None,
                [digit] => Some(truth(digit)?),
                _ => return None,
            };
            Event::Word { bus, sync, bits: word(bits)?, parity }
        }
        ["write", subaddress, place, bits] => {
            Event::Write { subaddress: number(subaddress)?, number: number(place)?, bits: word(bits)? }
        }
        ["vector", bits] => Event::Vector(word(bits)?),
        ["bit", bits] => Event::Bit(word(bits)?),
        ["flag", name, value] => {
            let flag = match name {
                "service" => Flag::Service,
                "busy" => Flag::Busy,
                "subsystem" => Flag::Subsystem,
                "terminal" => Flag::Terminal,
                _ => return None,
            };
            Event::Flag(flag, truth(value)?)
        }
        _ => return None,
    })
}

fn line_of(answer: Answer<'_>) -> String {
    match answer {
        Answer::Silent => String::new(),
        Answer::Sends { bus, sync, bits } => {
            format!("{bus:?} {} {bits:04x}\n", if sync == Sync::Command { "s" } else { "d" })
        }
        Answer::Received { broadcast, subaddress, words } => {
            let words: String = words.iter().map(|word| format!(" {word:04x}")).collect();
            format!("hand receive {} {subaddress:02}{words}\n", if broadcast { "broadcast" } else { "own" })
        }
        Answer::Synchronize => "hand sync\n".to_owned(),
        Answer::SynchronizeWith(word) => format!("hand sync {word:04x}\n"),
        Answer::SelfTest => "hand self-test\n".to_owned(),
        Answer::BusControl => "hand bus-control\n".to_owned(),
    }
}

/// The transcript of the lines up to the first that is not a script line.
fn played(terminal: &mut Terminal, script: &[u8]) -> Vec<u8> {
    let mut transcript = Vec::new();
    for line in script.split(|byte| *byte == b'\n') {
        if line.len() > 64 {
            break;
        }
        if line.is_empty() || line[0] == b'#' {
            continue;
        }
        let event = std::str::from_utf8(line).ok().and_then(event_of);
        match event.map(|event| terminal.step(event)) {
            Some(Ok(answer)) => transcript.extend_from_slice(line_of(answer).as_bytes()),
            _ => break,
        }
    }
    transcript
}

fn run_twice(profile: &[u8], script: &[u8]) -> Result<(Vec<u8>, u8), Fault> {
    let room = 186 * (1 + script.iter().filter(|byte| **byte == b'\n').count());
    let (transcript, fault) = run(profile, script, room);
    let is_same = played(&mut Terminal::new(profile)?, script) == transcript;
    let status = fault.map_or(0, |fault| {
        eprintln!("{fault}");
        2
    });
    Ok((transcript, if is_same { status } else { 9 }))
}

fn file(name: &str) -> Vec<u8> {
    std::fs::read(name).expect("a file")
}

/// Saves what a line of CUTS names, and prints nothing.
fn save(name: &str, lines: usize) -> Result<Vec<u8>, Fault> {
    let mut terminal = Terminal::new(file(&format!("{name}.toml")))?;
    let script = file(&format!("{name}.script"));
    let before: Vec<&[u8]> = script.split_inclusive(|byte| *byte == b'\n').take(lines).collect();
    played(&mut terminal, &before.concat());
    std::fs::write(format!("{name}-{lines}.state"), terminal.save()?).expect("a file");
    Ok(vec![])
}

/// Restores what a line of CUTS names, and prints it and the transcript of the lines behind.
fn resume(name: &str, lines: usize) -> Result<Vec<u8>, Fault> {
    let mut terminal = Terminal::restore(file(&format!("{name}-{lines}.state")))?;
    let script = file(&format!("{name}.script"));
    let behind: Vec<&[u8]> = script.split_inclusive(|byte| *byte == b'\n').skip(lines).collect();
    Ok([format!("{name} {lines}\n").into_bytes(), played(&mut terminal, &behind.concat())].concat())
}

fn at_each(cuts: &[u8], call: fn(&str, usize) -> Result<Vec<u8>, Fault>) -> Result<(Vec<u8>, u8), Fault> {
    let mut printed = Vec::new();
    for line in std::str::from_utf8(cuts).expect("a text").lines() {
        let (name, lines) = line.split_once(' ').expect("two fields");
        printed.extend(call(name, lines.parse().expect("a number"))?);
    }
    Ok((printed, 0))
}

fn work(words: &[String]) -> Result<(Vec<u8>, u8), Fault> {
    let texts: Vec<Vec<u8>> = words[1..].iter().map(|name| file(name)).collect();
    match (words[0].as_str(), &texts[..]) {
        ("check", [text]) => check(text).map(|()| (b"ok\n".to_vec(), 0)),
        ("canon", [text]) => canonical(text).map(|bytes| (bytes, 0)),
        ("compare", [first, second]) => Ok(compare(first, second)?.map_or((b"same\n".to_vec(), 0), |script| (script, 1))),
        ("run", [profile, script]) => run_twice(profile, script),
        ("save", [cuts]) => at_each(cuts, save),
        ("resume", [cuts]) => at_each(cuts, resume),
        _ => Ok((vec![], 7)),
    }
}

fn main() -> ExitCode {
    let words: Vec<String> = std::env::args().skip(1).collect();
    let (written, status) = work(&words).unwrap_or_else(|fault| {
        eprintln!("{fault}");
        (vec![], 2)
    });
    std::io::stdout().write_all(&written).expect("the standard output");
    ExitCode::from(status)
}
