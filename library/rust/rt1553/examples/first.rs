//! A terminal is asked for its status word.
use rt1553::{Answer, Bus, Event, Fault, Sync, Terminal};

fn main() -> Result<(), Fault> {
    let mut terminal = Terminal::new("address = 5")?;
    // the command word: address 5, transmit, mode code 2; then the gap that ends the message
    terminal.step(Event::word(Bus::A, Sync::Command, 0x2c02))?;
    terminal.step(Event::Gap(Bus::A))?;
    // the reply: in each slot a word, till there are no more
    while let Answer::Sends { bus, sync, bits } = terminal.step(Event::Slot)? {
        println!("{bus:?} {} {bits:04x}", if sync == Sync::Command { 's' } else { 'd' });
    }
    Ok(())
}
