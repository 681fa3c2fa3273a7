//! A second reading of the host's side, order 1 of document 02, in plain Rust, written from the papers and from
//! `naupelys_host.h` alone. What a panel refuses, and the checksum, are those of the panel's reading.

use crate::reading::{checksum, refusal, DONE, REFUSED, SAID};

pub const PACKET: usize = 26;
pub const READING: usize = 26;

/// "21, the composer's buffer not 26 bytes, before any value is looked at".
pub const BAD_BUFFER: u8 = 21;

/// "29, bytes given to the reader that are not exactly one reply, error reply or report that the panel can write from some
/// state in its ranges".
pub const UNREADABLE: u8 = 29;

// ---------------------------------------------------------------------------------------------------------------------------
// Composing
// ---------------------------------------------------------------------------------------------------------------------------

/// "composes each of our commands from plain values". Gives what is said; the packet stands at the front of its buffer.
pub fn compose(code: u32, data: &[u8], packet: &mut [u8]) -> [u8; SAID] {
    let mut said = [0; SAID];
    if packet.len() != PACKET {
        said[0] = BAD_BUFFER;
        return said;
    }
    let command = (code % 64) as u8;
    said[1] = command;
    if let Some((reason, place)) = verdict(code, data) {
        said[0] = REFUSED;
        said[2] = reason;
        said[3] = place;
        return said;
    }
    said[0] = DONE;
    said[12] = write(command, data, packet);
    said
}

/// "Values that the panel would refuse with reasons 1 to 5 (a code above 63 is unknown) are refused by the composer, with the
/// same reason and place." More than 22 data bytes are a length that no command allows, command 0 neither.
fn verdict(code: u32, data: &[u8]) -> Option<(u8, u8)> {
    if code > 63 {
        return Some((1, 0));
    }
    refusal(code as u8, data)
}

/// "A packet is type, length n (0 to 22), n data bytes, checksum with its low byte first." A command's type is its code.
/// Gives the packet's length, n + 4; bytes behind it keep their values.
fn write(command: u8, data: &[u8], packet: &mut [u8]) -> u8 {
    let n = data.len();
    packet[0] = command;
    packet[1] = n as u8;
    packet[2..n + 2].copy_from_slice(data);
    let sum = checksum(&packet[..n + 2]);
    packet[n + 2] = sum as u8;
    packet[n + 3] = (sum >> 8) as u8;
    n as u8 + 4
}

/// 0: "replies with the same data".
pub fn compose_ping(data: &[u8], packet: &mut [u8]) -> [u8; SAID] {
    compose(0, data, packet)
}

/// 2: "writes user flash".
pub fn compose_flash(flash: &[u8], packet: &mut [u8]) -> [u8; SAID] {
    compose(2, flash, packet)
}

/// 5: "reboots", with "8, 18, 99".
pub fn compose_reboot(packet: &mut [u8]) -> [u8; SAID] {
    compose(5, &[8, 18, 99], packet)
}

/// 9: "index 0-7, rows 0-63".
pub fn compose_glyph(index: u8, rows: &[u8], packet: &mut [u8]) -> [u8; SAID] {
    compose(9, &[&[index], rows].concat(), packet)
}

/// 10: "64-120, or 128+32r+c, r 0-3, c 0-12".
pub fn compose_memory(address: u8, packet: &mut [u8]) -> [u8; SAID] {
    compose(10, &[address], packet)
}

/// 11: "column 0-19, row 0-3".
pub fn compose_cursor(column: u8, row: u8, packet: &mut [u8]) -> [u8; SAID] {
    compose(11, &[column, row], packet)
}

/// 12: "cursor style".
pub fn compose_style(style: u8, packet: &mut [u8]) -> [u8; SAID] {
    compose(12, &[style], packet)
}

/// 13: "contrast".
pub fn compose_contrast(contrast: u8, packet: &mut [u8]) -> [u8; SAID] {
    compose(13, &[contrast], packet)
}

/// 14: "backlight".
pub fn compose_backlight(backlight: u8, packet: &mut [u8]) -> [u8; SAID] {
    compose(14, &[backlight], packet)
}

/// 23: "press, release masks".
pub fn compose_masks(press: u8, release: u8, packet: &mut [u8]) -> [u8; SAID] {
    compose(23, &[press, release], packet)
}

/// 31: "column 0-19, row 0-3, text".
pub fn compose_text(column: u8, row: u8, text: &[u8], packet: &mut [u8]) -> [u8; SAID] {
    compose(31, &[&[column, row], text].concat(), packet)
}

/// 34: "With two bytes config stays."
pub fn compose_pin(pin: u8, level: u8, packet: &mut [u8]) -> [u8; SAID] {
    compose(34, &[pin, level], packet)
}

/// 34: "pin 0-12, level 0-100, config".
pub fn compose_pin_config(pin: u8, level: u8, config: u8, packet: &mut [u8]) -> [u8; SAID] {
    compose(34, &[pin, level, config], packet)
}

/// 35: "pin 0-12".
pub fn compose_read_pin(pin: u8, packet: &mut [u8]) -> [u8; SAID] {
    compose(35, &[pin], packet)
}

// ---------------------------------------------------------------------------------------------------------------------------
// Reading
// ---------------------------------------------------------------------------------------------------------------------------

/// The kinds of a reading.
pub const REPLY: u8 = 1;
pub const ERROR: u8 = 2;
pub const REPORT: u8 = 3;

/// "reads replies and reports back into values". Gives the number, and the reading: kind, command, how many values, and the
/// values.
pub fn read_reply(bytes: &[u8]) -> (u8, [u8; READING]) {
    let mut reading = [0; READING];
    let Some((kind, command, values)) = packet_of(bytes).and_then(|(type_byte, data)| meaning(type_byte, data)) else {
        return (UNREADABLE, reading);
    };
    reading[0] = kind;
    reading[1] = command;
    reading[2] = values.len() as u8;
    reading[3..values.len() + 3].copy_from_slice(&values);
    (DONE, reading)
}

/// "exactly one": all of the bytes are one packet, with its checksum right. Gives its type and its data.
fn packet_of(bytes: &[u8]) -> Option<(u8, &[u8])> {
    let (front, sum) = bytes.split_last_chunk::<2>()?;
    let [type_byte, length, data @ ..] = front else {
        return None;
    };
    let whole = data.len() <= 22 && data.len() == usize::from(*length);
    (whole && checksum(front) == u16::from_le_bytes(*sum)).then_some((*type_byte, data))
}

/// Kind, command and values of a packet that "the panel can write". "The top two type bits: 00 command, 01 normal response,
/// 10 report, 11 error response. The low six are the command".
fn meaning(type_byte: u8, data: &[u8]) -> Option<(u8, u8, Vec<u8>)> {
    let command = type_byte % 64;
    match type_byte / 64 {
        1 if replies(command, data) => Some((REPLY, command, data.to_vec())),
        2 => Some((REPORT, 0, report(command, data)?.to_vec())),
        // "An error reply has type 192 + code and length 0." Command 0 allows every packet: it is never refused.
        3 if command != 0 && data.is_empty() => Some((ERROR, command, Vec::new())),
        _ => None,
    }
}

/// Whether a panel in its ranges can reply to the command with these data.
fn replies(command: u8, data: &[u8]) -> bool {
    match (command, data) {
        // "replies with the same data", of 0 to 22 bytes
        (0, _) => true,
        // "replies CFA635:h1.1,s1.6 (16 bytes)"
        (1, _) => data == b"CFA635:h1.1,s1.6",
        // "replies 16 flash bytes"; "flash ... free"
        (3, _) => data.len() == 16,
        // "replies address and 8 bytes", of glyphs, whose rows are 0 to 63, or of text, which is free
        (10, [64..=120, rows @ ..]) => rows.len() == 8 && rows.iter().all(|&row| row <= 63),
        (10, [address @ 128..=255, text @ ..]) => text.len() == 8 && (address - 128) % 32 <= 12,
        // "replies down, pressed, released", six keys each
        (24, [0..=63, 0..=63, 0..=63]) => true,
        // "replies pin, edges, level, config"; "0 to 15 with its low three bits not 6, for pins 0 to 4 only"
        (35, [0..=4, 0..=7, 0..=100, config]) => *config <= 15 && config % 8 != 6,
        // edges: "0 for pins 5 to 12, whose config is 0 too"
        (35, [5..=12, 0, 0..=100, 0]) => true,
        // "no data unless named"
        (2 | 4 | 5 | 6 | 9 | 11 | 12 | 13 | 14 | 23 | 31 | 34, []) => true,
        _ => false,
    }
}

/// Key numbers (up 0, enter 1, cancel 2, left 3, right 4, down 5) by the code of a press: "up 1, down 2, left 3, right 4,
/// enter 5, cancel 6 for a press, plus 6 for a release".
const KEY_OF_PRESS: [u8; 6] = [0, 5, 3, 4, 1, 2];

/// The key's number, and 1 for down or 0 for up, of "a report of type 128, length 1".
fn report(low_six: u8, data: &[u8]) -> Option<[u8; 2]> {
    match (low_six, data) {
        (0, [press @ 1..=6]) => Some([KEY_OF_PRESS[usize::from(press - 1)], 1]),
        (0, [release @ 7..=12]) => Some([KEY_OF_PRESS[usize::from(release - 7)], 0]),
        _ => None,
    }
}
