//! Why a run ends early: the line that tells it and the status that the program then ends with.
use std::fmt;

/// Why a run ends early.
#[derive(Debug)]
pub enum Fault {
    /// The words on the command line are none that the program takes.
    Usage,
    /// The file of this name can't be opened or read.
    CannotRead(String),
    /// The profile file of this name has over 1,048,576 bytes.
    TooLarge(String),
    /// The profile is refused.
    Profile(ProfileFault),
    /// This line of the script is none that a script has. Lines are counted from 1.
    Line(u32),
    /// This line of the script has over 64 bytes.
    LongLine(u32),
    /// Something follows line 1,048,576 of the script.
    TooManyLines,
    /// The script can't be read.
    Input,
    /// The transcript can't be written.
    Output,
}

/// Why a profile is refused.
#[derive(Debug)]
pub enum ProfileFault {
    /// The text is no TOML.
    NotToml,
    /// This table has a key that doesn't belong there.
    UnknownKey(Part),
    /// The value of this key in this table has this fault.
    Value(Part, &'static str, ValueFault),
    /// This mode code isn't legal for the terminal's own address, and must be.
    RequiredCode(u8),
}

/// A table of a profile. Entries are counted from 1.
#[derive(Clone, Copy, Debug)]
pub enum Part {
    Root,
    Rule(usize),
    Mode(usize),
    Initial(usize),
}

/// What is wrong with the value of a key.
#[derive(Debug)]
pub enum ValueFault {
    Missing,
    WrongKind,
    OutOfRange,
    BadRanges,
    TooMany,
}

impl Fault {
    /// The status that the program ends with.
    pub fn status(&self) -> u8 {
        match self {
            Fault::Profile(_) | Fault::Line(_) | Fault::LongLine(_) | Fault::TooManyLines => 2,
            Fault::Usage => 3,
            Fault::CannotRead(_) | Fault::TooLarge(_) | Fault::Input | Fault::Output => 4,
        }
    }
}

impl From<ProfileFault> for Fault {
    fn from(fault: ProfileFault) -> Fault {
        Fault::Profile(fault)
    }
}

impl fmt::Display for Fault {
    fn fmt(&self, f: &mut fmt::Formatter) -> fmt::Result {
        match self {
            Fault::Usage => write!(
                f,
                "usage: rt1553 [check P, canon P, run P SCRIPT, compare P Q]"
            ),
            Fault::CannotRead(name) => write!(f, "file: cannot read {name}"),
            Fault::TooLarge(name) => write!(f, "file: too large {name}"),
            Fault::Profile(fault) => write!(f, "profile: {fault}"),
            Fault::Line(number) => write!(f, "script: line {number}"),
            Fault::LongLine(number) => write!(f, "script: line {number} is too long"),
            Fault::TooManyLines => write!(f, "script: too many lines"),
            Fault::Input => write!(f, "input: read failed"),
            Fault::Output => write!(f, "output: write failed"),
        }
    }
}

impl fmt::Display for ProfileFault {
    fn fmt(&self, f: &mut fmt::Formatter) -> fmt::Result {
        match self {
            ProfileFault::NotToml => write!(f, "not TOML"),
            ProfileFault::UnknownKey(part) => write!(f, "{part}: unknown key"),
            ProfileFault::Value(part, key, fault) => write!(f, "{part}: {key} {fault}"),
            ProfileFault::RequiredCode(code) => write!(f, "mode code {code} must be legal"),
        }
    }
}

impl fmt::Display for Part {
    fn fmt(&self, f: &mut fmt::Formatter) -> fmt::Result {
        match self {
            Part::Root => write!(f, "root"),
            Part::Rule(number) => write!(f, "rule {number}"),
            Part::Mode(number) => write!(f, "mode {number}"),
            Part::Initial(number) => write!(f, "initial {number}"),
        }
    }
}

impl fmt::Display for ValueFault {
    fn fmt(&self, f: &mut fmt::Formatter) -> fmt::Result {
        f.write_str(match self {
            ValueFault::Missing => "is missing",
            ValueFault::WrongKind => "has the wrong kind",
            ValueFault::OutOfRange => "is out of range",
            ValueFault::BadRanges => "is not a list of ranges",
            ValueFault::TooMany => "has too many items",
        })
    }
}
