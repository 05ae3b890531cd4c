//! Makes the scripts of the benchmark: `make_scripts FOLDER LINES` writes into the folder a profile,
//! `profile.toml`, and seven scripts of so many lines for it. The same words give the same scripts.
use std::fs::File;
use std::io::{self, BufWriter, Write};
use std::path::Path;
use std::process::ExitCode;

/// The profile: most commands are legal, some of them only by broadcast, and some are not.
const PROFILE: &str = "\
address = 5
broadcast = true
vector = 0x00aa
bit = 0x0042

[[rule]]
to = \"both\"
direction = \"both\"
subaddresses = \"1-28, 30\"

[[rule]]
direction = \"receive\"
subaddresses = \"7\"
counts = \"9-16\"
legal = false

[[mode]]
to = \"both\"
codes = \"0-7, 16-19\"
";

/// The first bits of a command to this terminal, to another one and to all.
const OWN: u32 = 5 << 11;
const OTHER: u32 = 9 << 11;
const ALL: u32 = 31 << 11;
/// The bit of a command to transmit.
const TRANSMIT: u32 = 1 << 10;

/// How many words a message has at most.
const WORDS: u32 = 32;

fn main() -> ExitCode {
    let words: Vec<String> = std::env::args().skip(1).collect();
    let (folder, lines) = match &words[..] {
        [folder, lines] => (Path::new(folder), lines.parse().ok()),
        _ => (Path::new(""), None),
    };
    let Some(lines) = lines else {
        eprintln!("usage: make_scripts FOLDER LINES");
        return ExitCode::from(3);
    };
    match make_all(folder, lines) {
        Ok(()) => ExitCode::SUCCESS,
        Err(error) => {
            eprintln!("{}: {error}", folder.display());
            ExitCode::from(4)
        }
    }
}

/// Writes a part of a script: a message, or a line.
type Part = fn(&mut Maker) -> io::Result<()>;

fn make_all(folder: &Path, lines: usize) -> io::Result<()> {
    std::fs::write(folder.join("profile.toml"), PROFILE)?;
    let scripts: [(&str, Part); 7] = [
        ("receive", receive),
        ("transmit", transmit),
        ("single", single),
        ("status", status),
        ("mixed", mixed),
        ("slots", slot),
        ("comments", comment),
    ];
    for (name, write_part) in scripts {
        let file = File::create(folder.join(name).with_extension("script"))?;
        let mut maker = Maker {
            file: BufWriter::new(file),
            lines,
            chance: Chance(0x2545_f491_4f6c_dd1d),
        };
        while maker.lines > 0 {
            write_part(&mut maker)?;
        }
        maker.file.flush()?;
    }
    Ok(())
}

/// A script that is being written.
struct Maker {
    file: BufWriter<File>,
    /// How many lines are still to be written.
    lines: usize,
    chance: Chance,
}

impl Maker {
    /// Writes a line, if not all lines have been written.
    fn line(&mut self, line: std::fmt::Arguments) -> io::Result<()> {
        if self.lines == 0 {
            return Ok(());
        }
        self.lines -= 1;
        writeln!(self.file, "{line}")
    }

    fn command(&mut self, bus: char, bits: u32) -> io::Result<()> {
        self.line(format_args!("{bus} c {bits:04x}"))
    }

    fn data(&mut self, bus: char, count: u32) -> io::Result<()> {
        for _ in 0..count {
            let bits = self.chance.below(0x1_0000);
            self.line(format_args!("{bus} d {bits:04x}"))?;
        }
        Ok(())
    }

    fn gap(&mut self, bus: char) -> io::Result<()> {
        self.line(format_args!("{bus} gap"))
    }

    /// A gap, and the slots of a reply: its status and so many data words.
    fn answered_gap(&mut self, bus: char, words: u32) -> io::Result<()> {
        self.gap(bus)?;
        for _ in 0..=words {
            self.line(format_args!("slot"))?;
        }
        Ok(())
    }

    fn subaddress_and_count(&mut self) -> (u32, u32) {
        (self.chance.within(1, 30), self.chance.within(1, WORDS))
    }
}

/// Numbers that look like chance (Marsaglia's xorshift).
struct Chance(u64);

impl Chance {
    fn below(&mut self, bound: u32) -> u32 {
        self.0 ^= self.0 << 13;
        self.0 ^= self.0 >> 7;
        self.0 ^= self.0 << 17;
        (((self.0 >> 32) * u64::from(bound)) >> 32) as u32
    }

    fn within(&mut self, first: u32, last: u32) -> u32 {
        first + self.below(last - first + 1)
    }
}

/// The field of a subaddress and a count: 32 words have the count 0.
fn field(subaddress: u32, count: u32) -> u32 {
    (subaddress << 5) | (count % WORDS)
}

/// A message of 1 to 32 words that this terminal receives.
fn receive(maker: &mut Maker) -> io::Result<()> {
    let (_, count) = maker.subaddress_and_count();
    maker.command('A', OWN | field(1, count))?;
    maker.data('A', count)?;
    maker.answered_gap('A', 0)
}

/// A message of 32 words that this terminal transmits.
fn transmit(maker: &mut Maker) -> io::Result<()> {
    let (subaddress, _) = maker.subaddress_and_count();
    maker.command('A', OWN | TRANSMIT | field(subaddress % 28 + 1, WORDS))?;
    maker.answered_gap('A', WORDS)
}

/// A message of one word that this terminal receives: the shortest with data.
fn single(maker: &mut Maker) -> io::Result<()> {
    maker.command('A', OWN | field(1, 1))?;
    maker.data('A', 1)?;
    maker.answered_gap('A', 0)
}

/// A message that asks for the status word alone, by mode code 2.
fn status(maker: &mut Maker) -> io::Result<()> {
    maker.command('A', OWN | TRANSMIT | field(0, 2))?;
    maker.answered_gap('A', 0)
}

/// A slot without a reply.
fn slot(maker: &mut Maker) -> io::Result<()> {
    maker.line(format_args!("slot"))
}

/// Something of what a bus carries or a subsystem does.
fn mixed(maker: &mut Maker) -> io::Result<()> {
    let bus = if maker.chance.below(3) == 0 { 'B' } else { 'A' };
    match maker.chance.below(16) {
        0..=2 => receive_any(maker, bus, OWN),
        3 => receive_any(maker, bus, ALL),
        4 => receive_any(maker, bus, OTHER),
        5 | 6 => transmit_any(maker, bus),
        7 => mode_code(maker, bus, OWN),
        8 => mode_code(maker, bus, ALL),
        9 => transfer(maker, bus),
        10 => broken(maker, bus),
        11 => superseded(maker),
        12 => maker.line(format_args!("{bus} noise")),
        13 | 14 => write(maker),
        _ => flag_or_word(maker),
    }
}

fn receive_any(maker: &mut Maker, bus: char, address: u32) -> io::Result<()> {
    let (subaddress, count) = maker.subaddress_and_count();
    maker.command(bus, address | field(subaddress, count))?;
    maker.data(bus, count)?;
    if address == OWN {
        maker.answered_gap(bus, 0)
    } else {
        maker.gap(bus)
    }
}

fn transmit_any(maker: &mut Maker, bus: char) -> io::Result<()> {
    let (subaddress, count) = maker.subaddress_and_count();
    maker.command(bus, OWN | TRANSMIT | field(subaddress, count))?;
    // now and then a slot fewer, so that a command comes while the reply is in progress
    let missing = u32::from(maker.chance.below(8) == 0);
    maker.answered_gap(bus, count - missing)
}

/// A mode code, now and then one that is illegal, by subaddress 0 or 31.
fn mode_code(maker: &mut Maker, bus: char, address: u32) -> io::Result<()> {
    let code = maker.chance.below(20);
    let subaddress = if maker.chance.below(2) == 0 { 0 } else { 31 };
    if code == 17 {
        maker.command(bus, address | field(subaddress, code))?;
        maker.data(bus, 1)?;
    } else {
        maker.command(bus, address | TRANSMIT | field(subaddress, code))?;
    }
    if address == OWN {
        maker.answered_gap(bus, u32::from(code >= 16))
    } else {
        maker.gap(bus)
    }
}

/// A transfer from another terminal to this one, now and then without its answer.
fn transfer(maker: &mut Maker, bus: char) -> io::Result<()> {
    let (subaddress, count) = maker.subaddress_and_count();
    maker.command(bus, OWN | field(subaddress, count))?;
    maker.command(bus, OTHER | TRANSMIT | field(subaddress, count))?;
    maker.gap(bus)?;
    if maker.chance.below(8) > 0 {
        maker.command(bus, OTHER)?;
        maker.data(bus, count)?;
    }
    maker.answered_gap(bus, 0)
}

/// A message with a word of wrong parity, noise or a word too few in it.
fn broken(maker: &mut Maker, bus: char) -> io::Result<()> {
    let (subaddress, count) = maker.subaddress_and_count();
    maker.command(bus, OWN | field(subaddress, count))?;
    maker.data(bus, count - 1)?;
    match maker.chance.below(3) {
        0 => maker.line(format_args!("{bus} d 0001 1"))?,
        1 => maker.line(format_args!("{bus} noise"))?,
        _ => {}
    }
    maker.gap(bus)
}

/// A message on bus A that a command on bus B supersedes.
fn superseded(maker: &mut Maker) -> io::Result<()> {
    let (subaddress, count) = maker.subaddress_and_count();
    maker.command('A', OWN | field(subaddress, count))?;
    maker.data('A', count / 2)?;
    transmit_any(maker, 'B')?;
    maker.gap('A')
}

fn write(maker: &mut Maker) -> io::Result<()> {
    let (subaddress, number) = maker.subaddress_and_count();
    let word = maker.chance.below(0x1_0000);
    maker.line(format_args!("write {subaddress:02} {number:02} {word:04x}"))
}

fn flag_or_word(maker: &mut Maker) -> io::Result<()> {
    let word = maker.chance.below(0x1_0000);
    match maker.chance.below(10) {
        0 => maker.line(format_args!("vector {word:04x}")),
        1 => maker.line(format_args!("bit {word:04x}")),
        2 => maker.line(format_args!("flag busy 1")),
        3..=5 => maker.line(format_args!("flag busy 0")),
        6 => maker.line(format_args!("flag service {}", word % 2)),
        7 => maker.line(format_args!("flag subsystem {}", word % 2)),
        8 => maker.line(format_args!("flag terminal {}", word % 2)),
        _ => maker.line(format_args!("")),
    }
}

/// A comment of 1 to 64 bytes.
fn comment(maker: &mut Maker) -> io::Result<()> {
    let length = maker.chance.below(64) as usize;
    maker.line(format_args!("#{:-<length$}", ""))
}
