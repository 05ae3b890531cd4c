//! The profile, which sets a terminal up: read from its text, or refused by its first fault.
use crate::fault::{Part, ProfileFault, ValueFault};
use crate::toml::{self, Table, Value};

/// The mode codes that can be legal for a terminal's own address. Bit c stands for code c.
const OWN_CODES: u32 = 0x000f_01ff;
/// The mode codes that can be legal by broadcast.
const BROADCAST_CODES: u32 = 0x0002_01fa;
/// The mode codes that must be legal for the own address: transmit status word, transmitter shutdown,
/// its override and reset.
const REQUIRED_CODES: u32 = 0x0000_0134;

/// How many rules, mode entries or initial entries a profile may have.
const MOST_ENTRIES: usize = 256;
/// The subaddress at which words are turned round, where the profile doesn't choose another.
const WRAPAROUND: usize = 30;
/// How many words a subaddress holds.
const WORDS: usize = 32;

/// Which word counts are legal, for each subaddress. Bit n stands for the count n, 1 to 32.
pub type Counts = [u64; 31];

/// What a profile says. Tables of subaddresses are indexed by the subaddress, 1 to 30; their entry 0 is
/// not used.
pub struct Profile {
    pub address: u16,
    /// Whether commands to address 31 are heard.
    pub broadcast: bool,
    /// The subaddress at which words are turned round, 1 to 30, or 0 for none.
    pub wraparound: usize,
    pub accepts_bus_control: bool,
    pub vector: u16,
    pub bit: u16,
    pub own_receive: Counts,
    pub own_transmit: Counts,
    pub broadcast_receive: Counts,
    /// The mode codes that are legal for the own address. Bit c stands for code c.
    pub own_modes: u32,
    pub broadcast_modes: u32,
    /// The words held at power-up.
    pub initial: [[u16; WORDS]; 31],
}

type Checked<T> = Result<T, ProfileFault>;

/// Reads a profile text in TOML, and answers its first fault if it has any.
pub fn read_profile(text: &[u8]) -> Checked<Profile> {
    let tree = toml::read_document(text).map_err(|_| ProfileFault::NotToml)?;
    let root = Section {
        table: &tree,
        part: Part::Root,
    };
    let mut profile = read_root(&root)?;
    for (number, item) in (1..).zip(root.entries("rule")?) {
        profile.add_rule(&section(item, Part::Rule(number), "rule")?)?;
    }
    for (number, item) in (1..).zip(root.entries("mode")?) {
        profile.add_mode(&section(item, Part::Mode(number), "mode")?)?;
    }
    for (number, item) in (1..).zip(root.entries("initial")?) {
        profile.add_initial(&section(item, Part::Initial(number), "initial")?)?;
    }
    match REQUIRED_CODES & !profile.own_modes {
        0 => Ok(profile),
        missing => Err(ProfileFault::RequiredCode(missing.trailing_zeros() as u8)),
    }
}

const ROOT_KEYS: [&str; 9] = [
    "address",
    "broadcast",
    "wraparound",
    "accept_bus_control",
    "vector",
    "bit",
    "rule",
    "mode",
    "initial",
];

/// The profile of the keys of the root, as if it had no entries.
fn read_root(root: &Section) -> Checked<Profile> {
    root.check_keys(&ROOT_KEYS)?;
    Ok(Profile {
        address: root.integer("address", None, 0, 30)?,
        broadcast: root.truth("broadcast", false)?,
        wraparound: root.wraparound()?,
        accepts_bus_control: root.truth("accept_bus_control", false)?,
        vector: root.integer("vector", Some(0), 0, 0xffff)?,
        bit: root.integer("bit", Some(0), 0, 0xffff)?,
        own_receive: [0; 31],
        own_transmit: [0; 31],
        broadcast_receive: [0; 31],
        own_modes: REQUIRED_CODES,
        broadcast_modes: 0,
        initial: [[0; WORDS]; 31],
    })
}

impl Profile {
    fn add_rule(&mut self, rule: &Section) -> Checked<()> {
        rule.check_keys(&["to", "direction", "subaddresses", "counts", "legal"])?;
        let (own, broadcast) = rule.receivers()?;
        let (receive, transmit) = match rule.choice("direction", None)? {
            "receive" => (true, false),
            "transmit" => (false, true),
            "both" => (true, true),
            _ => return Err(rule.fault("direction", ValueFault::OutOfRange)),
        };
        let subaddresses = rule.ranges("subaddresses", None, 1, 30)?;
        let counts = rule.ranges("counts", Some("1-32"), 1, 32)?;
        let legal = rule.truth("legal", true)?;
        for subaddress in (1..=30).filter(|s| subaddresses >> s & 1 == 1) {
            let touched = [
                (own && receive, &mut self.own_receive),
                (own && transmit, &mut self.own_transmit),
                (broadcast && receive, &mut self.broadcast_receive),
            ];
            for (_, table) in touched.into_iter().filter(|(concerned, _)| *concerned) {
                table[subaddress] = with_bits(table[subaddress], counts, legal);
            }
        }
        Ok(())
    }

    fn add_mode(&mut self, mode: &Section) -> Checked<()> {
        mode.check_keys(&["to", "codes", "legal"])?;
        let (own, broadcast) = mode.receivers()?;
        let codes = mode.ranges("codes", None, 0, 31)? as u32;
        let legal = mode.truth("legal", true)?;
        if own {
            self.own_modes =
                with_bits(self.own_modes.into(), (codes & OWN_CODES).into(), legal) as u32;
        }
        if broadcast {
            let heard = (codes & BROADCAST_CODES).into();
            self.broadcast_modes = with_bits(self.broadcast_modes.into(), heard, legal) as u32;
        }
        Ok(())
    }

    fn add_initial(&mut self, initial: &Section) -> Checked<()> {
        initial.check_keys(&["subaddress", "at", "words"])?;
        let subaddress = initial.integer("subaddress", None, 1, 30)?;
        let at = initial.integer("at", Some(1), 1, WORDS as u16)?;
        let words = match initial.required("words")? {
            Value::Array(words) => words,
            _ => return Err(initial.fault("words", ValueFault::WrongKind)),
        };
        let first = usize::from(at) - 1;
        let Some(held) = self.initial[usize::from(subaddress)].get_mut(first..first + words.len())
        else {
            return Err(initial.fault("words", ValueFault::TooMany));
        };
        for (word, value) in held.iter_mut().zip(words) {
            *word = initial.number_within("words", value, 0, 0xffff)?;
        }
        Ok(())
    }
}

/// The mask with these bits set or cleared.
fn with_bits(mask: u64, bits: u64, set: bool) -> u64 {
    if set {
        mask | bits
    } else {
        mask & !bits
    }
}

/// A table of the profile and where it stands.
struct Section<'a> {
    table: &'a Table,
    part: Part,
}

/// The table that an item of the array of this key is.
fn section<'a>(item: &'a Value, part: Part, key: &'static str) -> Checked<Section<'a>> {
    match item {
        Value::Table(table) => Ok(Section { table, part }),
        _ => Err(ProfileFault::Value(part, key, ValueFault::WrongKind)),
    }
}

impl<'a> Section<'a> {
    fn fault(&self, key: &'static str, fault: ValueFault) -> ProfileFault {
        ProfileFault::Value(self.part, key, fault)
    }

    /// Refuses a table with a key that is none of these.
    fn check_keys(&self, known: &[&str]) -> Checked<()> {
        match self.table.keys().all(|key| known.contains(&key)) {
            true => Ok(()),
            false => Err(ProfileFault::UnknownKey(self.part)),
        }
    }

    fn required(&self, key: &'static str) -> Checked<&'a Value> {
        self.table
            .get(key)
            .ok_or_else(|| self.fault(key, ValueFault::Missing))
    }

    fn truth(&self, key: &'static str, default: bool) -> Checked<bool> {
        match self.table.get(key) {
            None => Ok(default),
            Some(Value::Truth(truth)) => Ok(*truth),
            Some(_) => Err(self.fault(key, ValueFault::WrongKind)),
        }
    }

    /// The wraparound subaddress: a number, or whether it is the usual one.
    fn wraparound(&self) -> Checked<usize> {
        match self.table.get("wraparound") {
            Some(Value::Integer(_)) => Ok(self.integer("wraparound", None, 1, 30)?.into()),
            _ => Ok(if self.truth("wraparound", true)? {
                WRAPAROUND
            } else {
                0
            }),
        }
    }

    /// A whole number from `low` to `high`; without a default it is required.
    fn integer(
        &self,
        key: &'static str,
        default: Option<u16>,
        low: u16,
        high: u16,
    ) -> Checked<u16> {
        match (self.table.get(key), default) {
            (None, Some(default)) => Ok(default),
            (None, None) => Err(self.fault(key, ValueFault::Missing)),
            (Some(value), _) => self.number_within(key, value, low, high),
        }
    }

    fn number_within(&self, key: &'static str, value: &Value, low: u16, high: u16) -> Checked<u16> {
        let Value::Integer(number) = value else {
            return Err(self.fault(key, ValueFault::WrongKind));
        };
        match u16::try_from(*number) {
            Ok(number) if (low..=high).contains(&number) => Ok(number),
            _ => Err(self.fault(key, ValueFault::OutOfRange)),
        }
    }

    /// A text; without a default it is required.
    fn choice(&self, key: &'static str, default: Option<&'a str>) -> Checked<&'a str> {
        match (self.table.get(key), default) {
            (Some(Value::Text(text)), _) => Ok(text),
            (Some(_), _) => Err(self.fault(key, ValueFault::WrongKind)),
            (None, Some(default)) => Ok(default),
            (None, None) => Err(self.fault(key, ValueFault::Missing)),
        }
    }

    /// Whether the entry speaks of commands to the own address, and whether of those by broadcast.
    fn receivers(&self) -> Checked<(bool, bool)> {
        match self.choice("to", Some("own"))? {
            "own" => Ok((true, false)),
            "broadcast" => Ok((false, true)),
            "both" => Ok((true, true)),
            _ => Err(self.fault("to", ValueFault::OutOfRange)),
        }
    }

    /// A whole number, or a text that names several. Bit n of the answer is set if n is named. Without a
    /// default it is required.
    fn ranges(
        &self,
        key: &'static str,
        default: Option<&str>,
        low: u16,
        high: u16,
    ) -> Checked<u64> {
        let text = match (self.table.get(key), default) {
            (Some(Value::Text(text)), _) => text,
            (Some(value), _) => return Ok(1 << self.number_within(key, value, low, high)?),
            (None, Some(default)) => default,
            (None, None) => return Err(self.fault(key, ValueFault::Missing)),
        };
        let items = read_ranges(text).ok_or_else(|| self.fault(key, ValueFault::BadRanges))?;
        let within = |(first, last): &(u16, u16)| low <= *first && first <= last && *last <= high;
        if !items.iter().all(within) {
            return Err(self.fault(key, ValueFault::OutOfRange));
        }
        Ok(items
            .iter()
            .flat_map(|(first, last)| *first..=*last)
            .fold(0, |mask, number| mask | 1 << number))
    }

    /// The items of an array of tables, which may be absent.
    fn entries(&self, key: &'static str) -> Checked<&'a [Value]> {
        match self.table.get(key) {
            None => Ok(&[]),
            Some(Value::Array(items)) if items.len() <= MOST_ENTRIES => Ok(items),
            Some(Value::Array(_)) => Err(self.fault(key, ValueFault::TooMany)),
            Some(_) => Err(self.fault(key, ValueFault::WrongKind)),
        }
    }
}

/// The items of a list of ranges, each its first and its last number. None if the text is no such list.
fn read_ranges(text: &str) -> Option<Vec<(u16, u16)>> {
    text.split(',').map(read_range).collect()
}

fn read_range(item: &str) -> Option<(u16, u16)> {
    let (first, last) = item.split_once('-').unwrap_or((item, item));
    Some((read_number(first)?, read_number(last)?))
}

/// One to three digits, with spaces before and after.
fn read_number(text: &str) -> Option<u16> {
    let digits = text.trim_matches(' ');
    let is_number =
        (1..=3).contains(&digits.len()) && digits.bytes().all(|digit| digit.is_ascii_digit());
    if is_number {
        digits.parse().ok()
    } else {
        None
    }
}
