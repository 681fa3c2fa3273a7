//! A second reading of line recordings, order 3 of document 02, in plain Rust, written from the papers and from
//! `naupelys_host.h` alone. The checksum is that of the panel's reading.

use crate::reading::checksum;

/// "up to 65,535 bytes".
pub const RECORDING_MOST: usize = 65_535;

/// "no more packets in the recording".
pub const NO_MORE: u8 = 1;

/// "22 file too long, 23 mark wrong or missing, 24 version unknown or missing, 25 bad direction, 26 entry cut short, in that
/// order; the last two at the first faulty entry".
pub const TOO_LONG: u8 = 22;
pub const NO_MARK: u8 = 23;
pub const NO_VERSION: u8 = 24;
pub const BAD_DIRECTION: u8 = 25;
pub const CUT_SHORT: u8 = 26;

// ---------------------------------------------------------------------------------------------------------------------------
// The file
// ---------------------------------------------------------------------------------------------------------------------------

/// "a direction byte (0 host, 1 panel)".
pub const HOST: u8 = 0;
pub const PANEL: u8 = 1;

/// An entry: its direction, where its bytes begin in the recording, and the place behind them.
pub struct Entry {
    pub direction: u8,
    pub from: usize,
    pub end: usize,
}

/// "the mark PLR, a 16-bit version (low byte first, now 1), then entries". Gives these, or the number of the recording's fault
/// and the byte at which it is found.
pub fn entries(recording: &[u8]) -> Result<Vec<Entry>, (u8, usize)> {
    if recording.len() > RECORDING_MOST {
        // The first byte that is too many.
        return Err((TOO_LONG, RECORDING_MOST));
    }
    if !recording.starts_with(b"PLR") {
        return Err((NO_MARK, 0));
    }
    if number_at(recording, 3) != Some(1) {
        return Err((NO_VERSION, 3));
    }
    let mut entries = Vec::new();
    let mut at = 5;
    while at < recording.len() {
        let entry = entry_at(recording, at).map_err(|number| (number, at))?;
        at = entry.end;
        entries.push(entry);
    }
    Ok(entries)
}

/// "entries of a direction byte ..., a 16-bit length low byte first and that many bytes". The direction comes first in the
/// order of the refusals.
fn entry_at(recording: &[u8], at: usize) -> Result<Entry, u8> {
    let direction = recording[at];
    if direction != HOST && direction != PANEL {
        return Err(BAD_DIRECTION);
    }
    let length = number_at(recording, at + 1).ok_or(CUT_SHORT)?;
    let from = at + 3;
    if length > recording.len() - from {
        return Err(CUT_SHORT);
    }
    Ok(Entry { direction, from, end: from + length })
}

/// Two bytes, "low byte first", if both are there.
fn number_at(recording: &[u8], at: usize) -> Option<usize> {
    match recording.get(at..)? {
        [low, high, ..] => Some(usize::from(*low) + 256 * usize::from(*high)),
        _ => None,
    }
}

/// The number of the recording's fault and the byte at which it is found, if it has one.
pub fn fault(recording: &[u8]) -> Option<(u8, usize)> {
    entries(recording).err()
}

// ---------------------------------------------------------------------------------------------------------------------------
// Its packets
// ---------------------------------------------------------------------------------------------------------------------------

/// A packet's type, where its data bytes begin in the recording and how many they are, and the place at which the next is
/// asked for: right behind it.
#[derive(Clone, Copy, PartialEq, Debug)]
pub struct Packet {
    pub kind: u8,
    pub start: usize,
    pub length: usize,
    pub next: usize,
}

/// The next host packet from a place on, or the number that is given in its stead. "The whole recording is checked before any
/// packet is handed back."
pub fn next(recording: &[u8], place: usize) -> Result<Packet, u8> {
    let entries = entries(recording).map_err(|(number, _)| number)?;
    let from_host = entries.iter().filter(|entry| entry.direction == HOST);
    // A place before an entry's bytes means the first of them; with one behind them, none is left.
    from_host
        .map(|entry| (place.max(entry.from), entry.end))
        .find_map(|(from, end)| first_packet(recording, from, end))
        .ok_or(NO_MORE)
}

/// "within an entry its packets equal those that line calls find from an empty hold". What is still held at the end is
/// forgotten: "It restarts at each entry".
fn first_packet(recording: &[u8], from: usize, end: usize) -> Option<Packet> {
    let mut held = Vec::new();
    for at in from..end {
        held.push(recording[at]);
        loop {
            match judge(&held) {
                Judgement::Wait => break,
                Judgement::Drop => {
                    held.remove(0);
                }
                Judgement::Packet { n } => {
                    let oldest = at + 1 - held.len();
                    return Some(Packet { kind: held[0], start: oldest + 2, length: n, next: oldest + n + 4 });
                }
            }
        }
    }
    None
}

enum Judgement {
    Wait,
    Drop,
    Packet { n: usize },
}

/// "Unjudged bytes are held, oldest first. Judgement at the oldest".
fn judge(held: &[u8]) -> Judgement {
    // "fewer than two held: wait"
    let Some(&length) = held.get(1) else {
        return Judgement::Wait;
    };
    let n = usize::from(length);
    // "length byte above 22: drop one byte"
    if n > 22 {
        return Judgement::Drop;
    }
    // "fewer than n + 4 held: wait"
    if held.len() < n + 4 {
        return Judgement::Wait;
    }
    // "checksum wrong: drop one byte"; it has "its low byte first"
    let sum = checksum(&held[..n + 2]);
    if [held[n + 2], held[n + 3]] != sum.to_le_bytes() {
        return Judgement::Drop;
    }
    // "else a packet: remove its n + 4 bytes"
    Judgement::Packet { n }
}
