//! The calls and structs of `rt1553.h`. That header says what they mean and what their callers owe.
#![no_std]
#![allow(non_camel_case_types)]

// in the prelude from Rust 1.80 on
use core::mem::size_of;

pub const RT1553_DONE: u8 = 0;
pub const RT1553_DIFFER: u8 = 1;
pub const RT1553_REFUSED: u8 = 2;
pub const RT1553_NO_MEMORY: u8 = 4;
pub const RT1553_NO_ROOM: u8 = 5;

pub const RT1553_CANONICAL_ROOM: usize = 7680;
pub const RT1553_SCRIPT_ROOM: usize = 4608;
pub const RT1553_STATE_ROOM: usize = 13056;

pub const RT1553_RIGHT_PARITY: u8 = 2;

pub const RT1553_WORD: u8 = 0;
pub const RT1553_NOISE: u8 = 1;
pub const RT1553_GAP: u8 = 2;
pub const RT1553_WRITE: u8 = 3;
pub const RT1553_VECTOR: u8 = 4;
pub const RT1553_BIT: u8 = 5;
pub const RT1553_FLAG: u8 = 6;
pub const RT1553_SLOT: u8 = 7;

pub const RT1553_SILENT: u8 = 0;
pub const RT1553_SENDS_STATUS: u8 = 1;
pub const RT1553_SENDS_DATA: u8 = 2;
pub const RT1553_HANDS_RECEIVED: u8 = 3;
pub const RT1553_HANDS_SYNCHRONIZE: u8 = 4;
pub const RT1553_HANDS_SYNCHRONIZE_WITH: u8 = 5;
pub const RT1553_HANDS_SELF_TEST: u8 = 6;
pub const RT1553_HANDS_BUS_CONTROL: u8 = 7;

#[repr(C)]
#[derive(Clone, Copy, Debug, Default, PartialEq, Eq)]
pub struct rt1553_versions {
    pub major: u16,
    pub minor: u16,
    pub canonical_text: u16,
}

#[repr(C)]
#[derive(Clone, Copy)]
pub struct rt1553_fault {
    pub kind: u8,
    pub number: u8,
    pub length: u8,
    pub line: u64,
    pub text: [u8; 136],
}

#[repr(C)]
#[derive(Clone, Copy, Debug, Default, PartialEq, Eq)]
pub struct rt1553_event {
    pub what: u8,
    pub bus: u8,
    pub sync: u8,
    pub parity: u8,
    pub subaddress: u8,
    pub number: u8,
    pub flag: u8,
    pub value: u8,
    pub bits: u16,
}

#[repr(C)]
#[derive(Clone, Copy, Debug, Default, PartialEq, Eq)]
pub struct rt1553_answer {
    pub what: u8,
    pub bus: u8,
    pub bits: u16,
    pub broadcast: bool,
    pub subaddress: u8,
    pub count: u8,
    pub words: [u16; 32],
}

#[repr(C)]
pub struct rt1553_terminal {
    pub event: rt1553_event,
    pub answer: rt1553_answer,
}

pub const RT1553_FOR_ALL: u8 = 255;
pub const RT1553_MOST_TERMINALS: usize = 31;
pub const RT1553_BUS_STATE_ROOM: usize = 32 + RT1553_MOST_TERMINALS * RT1553_STATE_ROOM;
pub const RT1553_MOST_SENT: usize = 66;
pub const RT1553_NOISE_SENT: u8 = 255;

#[repr(C)]
#[derive(Clone, Copy, Debug, Default, PartialEq, Eq)]
pub struct rt1553_bus_answer {
    pub address: u8,
    pub answer: rt1553_answer,
}

#[repr(C)]
pub struct rt1553_bus {
    pub event: rt1553_event,
    pub to: u8,
    pub count: u8,
    pub collided_a: bool,
    pub collided_b: bool,
    pub answers: [rt1553_bus_answer; RT1553_MOST_TERMINALS],
}

#[repr(C)]
#[derive(Clone, Copy, Debug, Default, PartialEq, Eq)]
pub struct rt1553_sent {
    pub address: u8,
    pub what: u8,
    pub bus: u8,
    pub bits: u16,
}

#[repr(C)]
#[derive(Clone)]
pub struct rt1553_message {
    pub sent_count: usize,
    pub handed_count: usize,
    pub sent: [rt1553_sent; RT1553_MOST_SENT],
    pub handed: [rt1553_bus_answer; RT1553_MOST_TERMINALS],
}

const _: () = assert!(size_of::<rt1553_bus>() == 2308 && size_of::<rt1553_sent>() == 6);
const _: () = assert!(size_of::<rt1553_event>() == 10 && size_of::<rt1553_answer>() == 72 && size_of::<rt1553_fault>() == 152);

extern "C" {
    pub fn rt1553_version(version: *mut rt1553_versions);
    pub fn rt1553_check(text: *const u8, text_length: usize, fault: *mut rt1553_fault) -> u8;
    pub fn rt1553_canonical(
        text: *const u8,
        text_length: usize,
        to: *mut u8,
        room: usize,
        length: *mut usize,
        fault: *mut rt1553_fault,
    ) -> u8;
    pub fn rt1553_compare(
        first: *const u8,
        first_length: usize,
        second: *const u8,
        second_length: usize,
        to: *mut u8,
        room: usize,
        length: *mut usize,
        fault: *mut rt1553_fault,
    ) -> u8;
    pub fn rt1553_run(
        text: *const u8,
        text_length: usize,
        script: *const u8,
        script_length: usize,
        to: *mut u8,
        room: usize,
        length: *mut usize,
        fault: *mut rt1553_fault,
    ) -> u8;
    pub fn rt1553_terminal_new(
        text: *const u8,
        text_length: usize,
        terminal: *mut *mut rt1553_terminal,
        fault: *mut rt1553_fault,
    ) -> u8;
    pub fn rt1553_terminal_step(terminal: *mut rt1553_terminal) -> u8;
    pub fn rt1553_terminal_copy(
        terminal: *const rt1553_terminal,
        copy: *mut *mut rt1553_terminal,
        fault: *mut rt1553_fault,
    ) -> u8;
    pub fn rt1553_terminal_save(
        terminal: *const rt1553_terminal,
        to: *mut u8,
        room: usize,
        length: *mut usize,
        fault: *mut rt1553_fault,
    ) -> u8;
    pub fn rt1553_terminal_restore(
        state: *const u8,
        state_length: usize,
        terminal: *mut *mut rt1553_terminal,
        fault: *mut rt1553_fault,
    ) -> u8;
    pub fn rt1553_terminal_play(
        terminal: *mut rt1553_terminal,
        events: *const rt1553_event,
        count: usize,
        answers: *mut rt1553_answer,
        places: *mut usize,
        room: usize,
        answered: *mut usize,
    ) -> usize;
    pub fn rt1553_bus_new(bus: *mut *mut rt1553_bus, fault: *mut rt1553_fault) -> u8;
    pub fn rt1553_bus_join(bus: *mut rt1553_bus, terminal: *const rt1553_terminal) -> u8;
    pub fn rt1553_bus_step(bus: *mut rt1553_bus) -> u8;
    pub fn rt1553_bus_copy(bus: *const rt1553_bus, copy: *mut *mut rt1553_bus, fault: *mut rt1553_fault) -> u8;
    pub fn rt1553_bus_terminal(
        bus: *const rt1553_bus,
        place: usize,
        terminal: *mut *mut rt1553_terminal,
        fault: *mut rt1553_fault,
    ) -> u8;
    pub fn rt1553_bus_save(
        bus: *const rt1553_bus,
        to: *mut u8,
        room: usize,
        length: *mut usize,
        fault: *mut rt1553_fault,
    ) -> u8;
    pub fn rt1553_bus_restore(
        state: *const u8,
        state_length: usize,
        bus: *mut *mut rt1553_bus,
        fault: *mut rt1553_fault,
    ) -> u8;
    pub fn rt1553_bus_message(
        bus: *mut rt1553_bus,
        words: *const rt1553_event,
        count: usize,
        message: *mut rt1553_message,
    ) -> u8;
    fn free(block: *mut core::ffi::c_void);
}

/// Frees the memory of a bus.
///
/// # Safety
///
/// The bus was made by `rt1553_bus_new`, `rt1553_bus_copy` or `rt1553_bus_restore`, and is not used again.
pub unsafe fn rt1553_bus_free(bus: *mut rt1553_bus) {
    free(bus.cast());
}

/// Frees the memory of a terminal.
///
/// # Safety
///
/// The terminal was made by `rt1553_terminal_new`, `rt1553_terminal_copy`,
/// `rt1553_terminal_restore` or `rt1553_bus_terminal`, and is not used again.
pub unsafe fn rt1553_terminal_free(terminal: *mut rt1553_terminal) {
    free(terminal.cast());
}
