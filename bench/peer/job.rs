//! What both programs have in common: the words of the command line, the files, and how the program ends.
//! Of the program rt1553 they do what takes a script: no words, and `run P SCRIPT`. A profile is read as
//! TOML alone, and no canonical text.
use crate::fault::Fault;
use crate::profile::read_profile;
use crate::terminal::Terminal;
use std::fs::File;
use std::io::{self, Read, Write};
use std::process::ExitCode;

/// The profile of the program without words.
const STANDARD_PROFILE: &[u8] = b"address = 5";

/// How many bytes a profile file may have.
const LARGEST_PROFILE: u64 = 1_048_576;

/// How many lines a script may have.
pub const MOST_LINES: u32 = 1_048_576;

/// How many bytes a line of a script may have, its line feed not counted.
pub const LONGEST_LINE: usize = 64;

/// Plays a script to a terminal and writes its transcript.
pub type Play = fn(Terminal, &mut dyn Read, &mut dyn Write) -> Result<(), Fault>;

/// Does what the words of the command line ask for, and ends with the status of that.
pub fn work(play: Play) -> ExitCode {
    match try_work(play) {
        Ok(()) => ExitCode::SUCCESS,
        Err(fault) => {
            eprintln!("{fault}");
            ExitCode::from(fault.status())
        }
    }
}

fn try_work(play: Play) -> Result<(), Fault> {
    let words: Option<Vec<String>> = std::env::args_os()
        .skip(1)
        .map(|word| word.into_string().ok())
        .collect();
    let words = words.ok_or(Fault::Usage)?;
    let words: Vec<&str> = words.iter().map(String::as_str).collect();
    let mut output = io::stdout().lock();
    match words[..] {
        [] => {
            let terminal = Terminal::power_up(read_profile(STANDARD_PROFILE)?);
            play(terminal, &mut io::stdin().lock(), &mut output)
        }
        ["run", profile, script] => {
            let text = read_profile_file(profile)?;
            let mut script = open(script)?;
            let terminal = Terminal::power_up(read_profile(&text)?);
            play(terminal, &mut script, &mut output)
        }
        _ => Err(Fault::Usage),
    }
}

fn open(name: &str) -> Result<File, Fault> {
    File::open(name).map_err(|_| Fault::CannotRead(name.to_string()))
}

fn read_profile_file(name: &str) -> Result<Vec<u8>, Fault> {
    let mut text = Vec::new();
    let mut part = open(name)?.take(LARGEST_PROFILE + 1);
    part.read_to_end(&mut text)
        .map_err(|_| Fault::CannotRead(name.to_string()))?;
    if text.len() as u64 > LARGEST_PROFILE {
        return Err(Fault::TooLarge(name.to_string()));
    }
    Ok(text)
}
