//! Recordings of a line: as they should be, with faults, and of no sense.

use crate::traffic::{any_packet, traffic, Rng};

/// "a direction byte (0 host, 1 panel)".
pub const FROM_HOST: u8 = 0;
pub const FROM_PANEL: u8 = 1;

/// The mark, and version 1.
pub const HEAD: [u8; 5] = [b'P', b'L', b'R', 1, 0];

/// Direction and bytes.
pub type Recorded = (u8, Vec<u8>);

/// "entries of a direction byte (0 host, 1 panel), a 16-bit length low byte first and that many bytes".
pub fn entry(direction: u8, bytes: &[u8]) -> Vec<u8> {
    let length = u16::try_from(bytes.len()).expect("the bytes of one entry").to_le_bytes();
    [&[direction], &length[..], bytes].concat()
}

pub fn recording(entries: &[Recorded]) -> Vec<u8> {
    let mut bytes = HEAD.to_vec();
    for (direction, recorded) in entries {
        bytes.extend(entry(*direction, recorded));
    }
    bytes
}

/// Where each entry's direction byte stands.
pub fn heads(entries: &[Recorded]) -> Vec<usize> {
    let mut at = HEAD.len();
    let step = |(_, recorded): &Recorded| {
        let head = at;
        at += 3 + recorded.len();
        head
    };
    entries.iter().map(step).collect()
}

/// One entry, or the two over which a packet is cut.
fn any_entry(rng: &mut Rng) -> Vec<Recorded> {
    match rng.below(14) {
        0 => vec![(rng.pick(&[FROM_HOST, FROM_PANEL]), Vec::new())],
        // What a panel sends may look like what a host does.
        1..=3 => vec![(FROM_PANEL, any_packet(rng))],
        4 | 5 => {
            let bytes = any_packet(rng);
            let (front, back) = bytes.split_at(rng.between(1, bytes.len() - 1));
            let mut entries = vec![(FROM_HOST, front.to_vec()), (FROM_HOST, back.to_vec())];
            if rng.flag() {
                entries.insert(1, (FROM_PANEL, any_packet(rng)));
            }
            entries
        }
        6 | 7 => vec![(FROM_HOST, any_packet(rng))],
        8 => {
            let n = rng.between(1, 30);
            vec![(FROM_HOST, rng.bytes(n))]
        }
        _ => {
            let at_least = rng.between(1, 60);
            let mut bytes = traffic(rng, at_least);
            if rng.one_in(3) {
                bytes.truncate(rng.below(bytes.len()));
            }
            vec![(FROM_HOST, bytes)]
        }
    }
}

/// Entries of all kinds.
pub fn any_entries(rng: &mut Rng, count: usize) -> Vec<Recorded> {
    let mut entries = Vec::new();
    while entries.len() < count {
        entries.extend(any_entry(rng));
    }
    entries
}

/// Entries of all kinds, the last of them such that their recording has just this size.
pub fn entries_of_size(rng: &mut Rng, size: usize) -> Vec<Recorded> {
    let mut entries = Vec::new();
    let mut left = size - HEAD.len() - 3;
    loop {
        let more = any_entry(rng);
        let bytes: usize = more.iter().map(|(_, recorded)| 3 + recorded.len()).sum();
        if bytes > left {
            break;
        }
        left -= bytes;
        entries.extend(more);
    }
    let mut last = traffic(rng, left);
    last.truncate(left);
    entries.push((FROM_HOST, last));
    entries
}

/// A recording with something changed in it, most often into a fault.
pub fn damaged(rng: &mut Rng, entries: &[Recorded]) -> Vec<u8> {
    let mut bytes = recording(entries);
    let heads = heads(entries);
    match rng.below(9) {
        0 => {
            let at = rng.below(3);
            bytes[at] ^= 1 + rng.below(255) as u8;
        }
        1 => {
            let version = rng.pick(&[[0, 0], [2, 0], [0, 1], [1, 1], [1, 128], [255, 255]]);
            bytes[3..5].copy_from_slice(&version);
        }
        2 | 3 if !heads.is_empty() => bytes[rng.pick(&heads)] = rng.above(1),
        // Its length, and with it where all entries behind it are.
        4 | 5 if !heads.is_empty() => {
            let at = rng.pick(&heads);
            let by = rng.pick(&[1, 255, 3, 253, 26]);
            let byte = if rng.one_in(4) { at + 2 } else { at + 1 };
            bytes[byte] = bytes[byte].wrapping_add(by);
        }
        6 => {
            let n = rng.between(1, 6);
            bytes.extend((0..n).map(|_| rng.up_to(3)));
        }
        7 => {
            let at = rng.below(bytes.len());
            bytes[at] ^= 1 << rng.below(8);
        }
        _ => bytes.truncate(rng.below(bytes.len())),
    }
    bytes
}

/// Bytes of no sense behind the mark and the version; some of them are entries.
pub fn nonsense(rng: &mut Rng) -> Vec<u8> {
    let mut bytes = HEAD.to_vec();
    for _ in 0..rng.below(8) {
        bytes.push(rng.pick(&[0, 0, 0, 1, 1, 2, 255]));
        let n = rng.below(40);
        bytes.extend([rng.pick(&[n as u8, n as u8, n as u8, 0, 1, 40]), u8::from(rng.one_in(20))]);
        bytes.extend((0..n).map(|_| rng.up_to(3)));
    }
    bytes
}
