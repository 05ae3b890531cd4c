//! Lines of a script by the vectors of the processor, for the program `best`: which lines stand at a place and how
//! many, and the digits of data words, which go from script to transcript as text.
use crate::job::LONGEST_LINE;
use crate::terminal::Bus;
use std::arch::x86_64::*;

/// How many bytes of a script are looked at from a line on, at most: a message of as many words as six bits can count,
/// and a vector.
pub const REACH: usize = 640;
/// What is looked at.
pub type Here = [u8; REACH];

/// How many bytes are written at once, at most: a reply of 33 words, and a vector.
pub const LONGEST_ANSWER: usize = 384;
/// Where an answer is written.
pub type Room = [u8; LONGEST_ANSWER];

/// How many bytes a line of a word has, in a script and in a transcript.
pub const WORD_LINE: usize = 9;
/// How many bytes the line of a gap has, with its line feed.
pub const GAP_LINE: usize = 6;
/// How many bytes `slot` has, with its line feed.
pub const SLOT_LINE: usize = 5;
/// How many bytes a space and four digits have.
pub const FIELD: usize = 5;

/// The letters of the buses.
pub const LETTERS: [u8; 2] = *b"AB";

/// The bytes of a vector.
type Bytes = [u8; 16];

// `unsafe` stands for instructions alone that every processor has for which `best` is built, and for reading and
// writing the sixteen bytes of a reference.

#[inline]
fn vector(bytes: &[u8], at: usize) -> __m128i {
    let bytes: &Bytes = bytes[at..].first_chunk().unwrap();
    unsafe { _mm_loadu_si128(bytes.as_ptr().cast()) }
}

#[inline]
fn put_vector(room: &mut [u8], at: usize, bytes: __m128i) {
    let room: &mut Bytes = room[at..].first_chunk_mut().unwrap();
    unsafe { _mm_storeu_si128(room.as_mut_ptr().cast(), bytes) }
}

/// A bit for each byte, the first one lowest: its highest.
#[inline]
fn mask(bytes: __m128i) -> u32 {
    unsafe { _mm_movemask_epi8(bytes) as u32 }
}

#[inline]
fn and(a: __m128i, b: __m128i) -> __m128i {
    unsafe { _mm_and_si128(a, b) }
}

#[inline]
fn or(a: __m128i, b: __m128i) -> __m128i {
    unsafe { _mm_or_si128(a, b) }
}

#[inline]
fn are_equal(a: __m128i, b: __m128i) -> __m128i {
    unsafe { _mm_cmpeq_epi8(a, b) }
}

#[inline]
fn all(byte: u8) -> __m128i {
    unsafe { _mm_set1_epi8(byte as i8) }
}

/// In which bytes one of `count` bytes from `first` on stands.
#[inline]
fn are_within(bytes: __m128i, first: u8, count: u8) -> __m128i {
    // bytes are compared as signed: `first` is moved to the least
    unsafe {
        let moved = _mm_add_epi8(bytes, all(0x80u8.wrapping_sub(first)));
        _mm_cmplt_epi8(moved, all(0x80 + count))
    }
}

/// Hexadecimal digits with small letters, where these bytes are digits.
#[inline]
fn in_small(bytes: __m128i) -> __m128i {
    or(bytes, all(0x20))
}

/// In which bytes hexadecimal digits stand.
#[inline]
fn are_digits(bytes: __m128i) -> __m128i {
    or(
        are_within(bytes, b'0', 10),
        are_within(in_small(bytes), b'a', 6),
    )
}

/// What two bytes are that aren't both digits.
const NO_DIGITS: u16 = 0x0100;

/// The value of each two bytes as digits, the first byte lowest in the place.
static PAIRS: [u16; 65_536] = {
    let mut pairs = [NO_DIGITS; 65_536];
    let digits = b"0123456789abcdefABCDEF";
    let mut place = 0;
    while place < digits.len() * digits.len() {
        let (high, low) = (place / digits.len(), place % digits.len());
        // from the 16th on they are the capital letters
        let (high_value, low_value) = (high - high / 16 * 6, low - low / 16 * 6);
        pairs[digits[high] as usize | (digits[low] as usize) << 8] =
            (high_value << 4 | low_value) as u16;
        place += 1;
    }
    pairs
};

/// The word of four digits, if they stand at a place.
#[inline(always)]
pub fn word_at(bytes: &[u8], at: usize) -> Option<u16> {
    let digits = u32::from_le_bytes(*bytes[at..].first_chunk().unwrap());
    let (high, low) = (PAIRS[digits as usize & 0xffff], PAIRS[digits as usize >> 16]);
    ((high | low) & NO_DIGITS == 0).then_some(high << 8 | low)
}

/// The word of the line that stands at a place, if it is the line of a word whose first four bytes are.
#[inline(always)]
pub fn word_in(here: &Here, at: usize) -> Option<u16> {
    word_at(here, at + 4).filter(|_| here[at + WORD_LINE - 1] == b'\n')
}

/// The word of the line of a data word that stands at a place.
#[inline(always)]
pub fn data_in(here: &Here, at: usize, bus: Bus) -> Option<u16> {
    let begin = u32::from_le_bytes(*here[at..].first_chunk().unwrap());
    let is_data = begin == u32::from_le_bytes([LETTERS[bus as usize], b' ', b'd', b' ']);
    word_in(here, at).filter(|_| is_data)
}

/// Whether the line of a data word stands here at a place. Its field and the line feed are written to the room, with 2
/// bytes more.
#[inline(always)]
pub fn copy_field(here: &Here, at: usize, bus: Bus, room: &mut Room, to: usize) -> bool {
    let field = u64::from_le_bytes(*here[at + 3..].first_chunk().unwrap());
    room[to..to + 8].copy_from_slice(&(field | 0x0020_2020_2020).to_le_bytes());
    data_in(here, at, bus).is_some()
}

#[inline]
pub fn is_gap(here: &Here, at: usize, bus: Bus) -> bool {
    let gap = match bus {
        Bus::A => *b"A gap\n\0\0",
        Bus::B => *b"B gap\n\0\0",
    };
    begins(here, at, gap, GAP_LINE)
}

#[inline]
pub fn is_slot(here: &Here, at: usize) -> bool {
    begins(here, at, *b"slot\n\0\0\0", SLOT_LINE)
}

/// Whether this line of so many bytes, up to eight, stands here.
#[inline]
fn begins(here: &Here, at: usize, line: [u8; 8], length: usize) -> bool {
    let bytes = u64::from_le_bytes(*here[at..].first_chunk().unwrap());
    bytes << (64 - 8 * length) == u64::from_le_bytes(line) << (64 - 8 * length)
}

/// Two lines of data words, but for their first and their last byte.
const TWO_LINES: [Bytes; 2] = [*b" d XXXX\nA d XXXX", *b" d XXXX\nB d XXXX"];
/// Which bytes of them are digits.
const DIGITS: u32 = 0xf078;
/// Where their fields stand.
const FIELDS: Bytes = [2, 3, 4, 5, 6, 11, 12, 13, 14, 15, 2, 2, 2, 2, 2, 2];
/// Which bytes don't count where the first of them is the last line of all, and where the second is.
const BEHIND: [Bytes; 2] = [
    [0; 16],
    [
        0, 0, 0, 0, 0, 0, 0, 255, 255, 255, 255, 255, 255, 255, 255, 255,
    ],
];

/// Whether so many lines of data words stand here from a place on, one at least, and behind them a line of the same
/// bus. Their fields are written to the room, with 11 bytes more at most.
#[inline(always)]
pub fn copy_fields(
    here: &Here,
    from: usize,
    count: usize,
    bus: Bus,
    room: &mut Room,
    to: usize,
) -> bool {
    let form = vector(&TWO_LINES[bus as usize], 0);
    let fields = vector(&FIELDS, 0);
    // between two lines
    let edge = u16::from_le_bytes([b'\n', LETTERS[bus as usize]]);
    let is_edge_missing = |at: usize| u16::from_le_bytes([here[at - 1], here[at]]) ^ edge;

    let mut wrong_edges = u16::from(here[from] ^ LETTERS[bus as usize]);
    let mut are_form = all(0xff);
    let mut are_digit = all(0xff);
    let (mut at, mut to) = (from, to);
    let mut take_two = |at: usize, to: usize, behind: __m128i| {
        let lines = vector(here, at + 1);
        are_form = and(are_form, or(behind, are_equal(lines, form)));
        are_digit = and(are_digit, or(behind, are_digits(lines)));
        put_vector(room, to, unsafe {
            _mm_shuffle_epi8(in_small(lines), fields)
        });
    };
    for _ in 0..(count - 1) / 2 {
        take_two(at, to, all(0));
        at += 2 * WORD_LINE;
        to += 2 * FIELD;
        wrong_edges |= is_edge_missing(at);
    }
    take_two(at, to, vector(&BEHIND[count & 1], 0));
    wrong_edges |= is_edge_missing(from + count * WORD_LINE);
    mask(are_form) | DIGITS == 0xffff && mask(are_digit) & DIGITS == DIGITS && wrong_edges == 0
}

/// Lines `slot`, as many as a reply has, and a vector.
const SLOTS: [u8; 192] = {
    let mut lines = [0; 192];
    let mut at = 0;
    while at < lines.len() {
        lines[at] = b"slot\n"[at % SLOT_LINE];
        at += 1;
    }
    lines
};

/// Whether so many lines `slot` stand here, from 2 to 33.
#[inline]
pub fn are_slots(here: &Here, at: usize, count: usize) -> bool {
    let length = count * SLOT_LINE;
    if count < 4 {
        return here[at..at + length] == SLOTS[..length];
    }
    // the last vector ends with the last slot
    let last = length - 16;
    let mut equal = are_equal(vector(here, at + last), vector(&SLOTS, last));
    let (lines, _) = here[at..].as_chunks::<16>();
    let (slots, _) = SLOTS.as_chunks::<16>();
    for (lines, slots) in lines.iter().zip(slots).take(last.div_ceil(16)) {
        equal = and(equal, are_equal(vector(lines, 0), vector(slots, 0)));
    }
    mask(equal) == 0xffff
}

/// How many lines `slot` stand here, at most so many.
pub fn count_slots(rest: &[u8], most: usize) -> usize {
    // five vectors are sixteen lines
    let (groups, _) = rest.as_chunks::<80>();
    let is_group = |group: &&[u8; 80]| {
        let equal = (0..80).step_by(16).fold(all(0xff), |equal, at| {
            and(
                equal,
                are_equal(vector(&group[..], at), vector(&SLOTS, at)),
            )
        });
        mask(equal) == 0xffff
    };
    let whole = groups.iter().take(most / 16).take_while(is_group).count();
    let (lines, _) = rest[whole * 80..].as_chunks::<SLOT_LINE>();
    let left = lines.iter().take(most - whole * 16);
    whole * 16 + left.take_while(|line| *line == b"slot\n").count()
}

/// A bit for each of 64 bytes, the first one lowest: whether it is this byte.
#[inline]
fn places(bytes: &[u8; 64], byte: u8) -> u64 {
    (0..4).fold(0, |places, part| {
        let equal = are_equal(vector(bytes, part * 16), all(byte));
        places | u64::from(mask(equal)) << (part * 16)
    })
}

/// How many bytes the line has that begins here, without its line feed, if it is not too long.
#[inline]
pub fn length_of_line(here: &Here) -> Option<usize> {
    match places(here.first_chunk().unwrap(), b'\n') {
        0 => (here[LONGEST_LINE] == b'\n').then_some(LONGEST_LINE),
        feeds => Some(feeds.trailing_zeros() as usize),
    }
}

/// How many bytes the comments have that stand here, and how many they are; the last ones of them may be left.
pub fn comments(rest: &[u8]) -> (usize, u32) {
    let (mut length, mut lines) = (0, 0);
    // how many bytes of a line stand before the group, and whether a line begins with it
    let (mut before, mut begins) = (0, 1);
    let (groups, _) = rest.as_chunks::<64>();
    for (number, group) in groups.iter().enumerate() {
        let feeds = places(group, b'\n');
        let others = (feeds << 1 | begins) & !places(group, b'#');
        if feeds == 0 || others != 0 || before + feeds.trailing_zeros() > LONGEST_LINE as u32 {
            break;
        }
        before = feeds.leading_zeros();
        begins = feeds >> 63;
        lines += feeds.count_ones();
        length = (number + 1) * 64 - before as usize;
    }
    (length, lines)
}

/// Copies so many lines of words, with 31 bytes more at most.
#[inline]
pub fn copy_lines(lines: &[u8], first: usize, count: usize, room: &mut Room) {
    let (from, _) = lines[first * WORD_LINE..].as_chunks::<32>();
    let (to, _) = room.as_chunks_mut::<32>();
    let pieces = (count * WORD_LINE).div_ceil(32);
    for (to, from) in to.iter_mut().zip(from).take(pieces) {
        *to = *from;
    }
}
