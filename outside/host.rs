//! The differential test of the host's side: the composers and the reader of replies, in the library and in the reading, get
//! the same calls, and after every call the number returned and every lent byte are compared. What is composed is given to the
//! library's panel too, and what that panel writes is read. `host` runs the worked cases, the sweeps, and random sequences
//! from a fixed seed and from the clock; `host SEED` takes SEED in the clock's place; `host SEED SEQUENCE` repeats that one
//! sequence.

#[allow(dead_code)]
#[path = "common.rs"]
mod common;
#[path = "host_reading.rs"]
mod host_reading;
#[allow(dead_code)]
#[path = "library.rs"]
mod library;
#[path = "panel.rs"]
mod panel;
#[allow(dead_code)]
#[path = "reading.rs"]
mod reading;
#[allow(dead_code)]
#[path = "states.rs"]
mod states;
#[allow(dead_code)]
#[path = "traffic.rs"]
mod traffic;

use common::{expect, hex, print_difference, wrong_size, Buffer, Header};
use host_reading::{BAD_BUFFER, ERROR, PACKET, READING, REPLY, REPORT, UNREADABLE};
use panel::Panel;
use reading::{DONE, REFUSED, SAID};
use states::{possible_keys, random_state, set_right, FLASH, GLYPHS, KEYS, LIVE, PINS, SETS};
use std::collections::{BTreeMap, BTreeSet};
use std::fmt::Debug;
use std::io::Write;
use std::process::exit;
use std::time::{Instant, SystemTime, UNIX_EPOCH};
use traffic::{damage, honest_data, packet, wrong_data, Rng, COMMANDS};

const FIXED_SEED: u64 = 635;
const SEQUENCES: u64 = 1_500;

const VERSION: &[u8; 16] = b"CFA635:h1.1,s1.6";

/// "A packet is ... n data bytes", 0 to 22.
const DATA_MOST: usize = 22;

// ---------------------------------------------------------------------------------------------------------------------------
// What is asked of a composer
// ---------------------------------------------------------------------------------------------------------------------------

#[derive(Clone, Copy, PartialEq, Eq, PartialOrd, Ord, Debug)]
enum Composer {
    Any,
    Ping,
    Flash,
    Reboot,
    Glyph,
    Memory,
    Cursor,
    Style,
    Contrast,
    Backlight,
    Masks,
    Text,
    Pin,
    PinConfig,
    ReadPin,
}

/// The named composer that has these data as its values, if there is one.
fn named(code: u32, data: &[u8]) -> Option<Composer> {
    Some(match (code, data) {
        (0, _) => Composer::Ping,
        (2, _) => Composer::Flash,
        (5, [8, 18, 99]) => Composer::Reboot,
        (9, [_, ..]) => Composer::Glyph,
        (10, [_]) => Composer::Memory,
        (11, [_, _]) => Composer::Cursor,
        (12, [_]) => Composer::Style,
        (13, [_]) => Composer::Contrast,
        (14, [_]) => Composer::Backlight,
        (23, [_, _]) => Composer::Masks,
        (31, [_, _, ..]) => Composer::Text,
        (34, [_, _]) => Composer::Pin,
        (34, [_, _, _]) => Composer::PinConfig,
        (35, [_]) => Composer::ReadPin,
        _ => return None,
    })
}

/// Every named composer, with the reasons and places that it can give. The length is not the caller's where all values are
/// single bytes, and a reboot has no values.
fn named_composers() -> Vec<(Composer, Vec<(u8, u8)>)> {
    let bytes = |count: u8| (0..count).map(|index| (3, 2 + index)).collect::<Vec<_>>();
    let length = vec![(2, 1)];
    let passes = (1..20).map(|column| (4, 24 - column)).collect();
    vec![
        (Composer::Ping, length.clone()),
        (Composer::Flash, length.clone()),
        (Composer::Reboot, Vec::new()),
        (Composer::Glyph, [length.clone(), bytes(9)].concat()),
        (Composer::Memory, bytes(1)),
        (Composer::Cursor, bytes(2)),
        (Composer::Style, bytes(1)),
        (Composer::Contrast, bytes(1)),
        (Composer::Backlight, bytes(1)),
        (Composer::Masks, bytes(2)),
        (Composer::Text, [length, bytes(2), passes].concat()),
        (Composer::Pin, bytes(2)),
        (Composer::PinConfig, bytes(3)),
        (Composer::ReadPin, bytes(1)),
    ]
}

/// A composer, with all data bytes that its values make.
struct Asked<'a> {
    composer: Composer,
    code: u32,
    data: &'a [u8],
}

impl<'a> Asked<'a> {
    /// The data bytes that are lent, and not handed over one by one.
    fn lent(&self) -> &'a [u8] {
        match self.composer {
            Composer::Any | Composer::Ping | Composer::Flash => self.data,
            Composer::Glyph => &self.data[1..],
            Composer::Text => &self.data[2..],
            _ => &[],
        }
    }

    /// # Safety
    /// Every pointer points to as many bytes as its length says, `lent` to those above; no two buffers overlap.
    unsafe fn of_library(&self, lent: *const u8, packet: *mut u8, packet_size: usize, said: *mut u8) -> u8 {
        let (data, size) = (self.data, self.lent().len());
        match self.composer {
            Composer::Any => library::naupelys_compose(self.code, lent, size, packet, packet_size, said),
            Composer::Ping => library::naupelys_compose_ping(lent, size, packet, packet_size, said),
            Composer::Flash => library::naupelys_compose_flash(lent, size, packet, packet_size, said),
            Composer::Reboot => library::naupelys_compose_reboot(packet, packet_size, said),
            Composer::Glyph => library::naupelys_compose_glyph(data[0], lent, size, packet, packet_size, said),
            Composer::Memory => library::naupelys_compose_memory(data[0], packet, packet_size, said),
            Composer::Cursor => library::naupelys_compose_cursor(data[0], data[1], packet, packet_size, said),
            Composer::Style => library::naupelys_compose_style(data[0], packet, packet_size, said),
            Composer::Contrast => library::naupelys_compose_contrast(data[0], packet, packet_size, said),
            Composer::Backlight => library::naupelys_compose_backlight(data[0], packet, packet_size, said),
            Composer::Masks => library::naupelys_compose_masks(data[0], data[1], packet, packet_size, said),
            Composer::Text => library::naupelys_compose_text(data[0], data[1], lent, size, packet, packet_size, said),
            Composer::Pin => library::naupelys_compose_pin(data[0], data[1], packet, packet_size, said),
            Composer::PinConfig => {
                library::naupelys_compose_pin_config(data[0], data[1], data[2], packet, packet_size, said)
            }
            Composer::ReadPin => library::naupelys_compose_read_pin(data[0], packet, packet_size, said),
        }
    }

    fn of_reading(&self, packet: &mut [u8]) -> [u8; SAID] {
        let (data, lent) = (self.data, self.lent());
        match self.composer {
            Composer::Any => host_reading::compose(self.code, lent, packet),
            Composer::Ping => host_reading::compose_ping(lent, packet),
            Composer::Flash => host_reading::compose_flash(lent, packet),
            Composer::Reboot => host_reading::compose_reboot(packet),
            Composer::Glyph => host_reading::compose_glyph(data[0], lent, packet),
            Composer::Memory => host_reading::compose_memory(data[0], packet),
            Composer::Cursor => host_reading::compose_cursor(data[0], data[1], packet),
            Composer::Style => host_reading::compose_style(data[0], packet),
            Composer::Contrast => host_reading::compose_contrast(data[0], packet),
            Composer::Backlight => host_reading::compose_backlight(data[0], packet),
            Composer::Masks => host_reading::compose_masks(data[0], data[1], packet),
            Composer::Text => host_reading::compose_text(data[0], data[1], lent, packet),
            Composer::Pin => host_reading::compose_pin(data[0], data[1], packet),
            Composer::PinConfig => host_reading::compose_pin_config(data[0], data[1], data[2], packet),
            Composer::ReadPin => host_reading::compose_read_pin(data[0], packet),
        }
    }
}

/// What a composer said, and the packet's buffer as it left it.
#[derive(PartialEq, Debug)]
struct Composed {
    number: u8,
    command: u8,
    reason: u8,
    place: u8,
    length: usize,
    buffer: Vec<u8>,
}

impl Composed {
    fn packet(&self) -> &[u8] {
        &self.buffer[..self.length]
    }
}

/// What the bytes of a reading say.
#[derive(Clone, PartialEq, Debug)]
struct Read {
    number: u8,
    kind: u8,
    command: u8,
    values: Vec<u8>,
}

impl Read {
    fn done(kind: u8, command: u8, values: &[u8]) -> Read {
        Read { number: DONE, kind, command, values: values.to_vec() }
    }

    fn unreadable() -> Read {
        Read { number: UNREADABLE, kind: 0, command: 0, values: Vec::new() }
    }
}

// ---------------------------------------------------------------------------------------------------------------------------
// What the panel means and writes
// ---------------------------------------------------------------------------------------------------------------------------

/// Where the bytes that command 10 reads stand in the state.
fn place_of(address: u8) -> usize {
    let at = usize::from(address);
    if at < 128 {
        LIVE + GLYPHS + at - 64
    } else {
        LIVE + 20 * ((at - 128) / 32) + (at - 128) % 32
    }
}

/// Where levels, configs and masks stand in the state.
const LEVELS: usize = LIVE + 151;
const CONFIGS: usize = LIVE + 164;
const MASKS: usize = LIVE + 149;

/// What a panel in this state means by its reply.
fn meant(state: &[u8], command: u8, data: &[u8]) -> Vec<u8> {
    match command {
        0 => data.to_vec(),
        1 => VERSION.to_vec(),
        3 => state[FLASH..SETS].to_vec(),
        10 => [data, &state[place_of(data[0])..][..8]].concat(),
        24 => state[KEYS..PINS].to_vec(),
        35 => {
            let pin = usize::from(data[0]);
            if pin > 4 {
                return vec![data[0], 0, state[LEVELS + pin], 0];
            }
            let bit = |byte: usize| state[PINS + byte] >> pin & 1;
            vec![data[0], bit(0) + 2 * bit(1) + 4 * bit(2), state[LEVELS + pin], state[CONFIGS + pin]]
        }
        _ => Vec::new(),
    }
}

/// "that the panel can write from some state in its ranges": brings the panel into such a state, and makes it write.
fn write_as_read(panel: &mut Panel, rng: &mut Rng, read: &Read) {
    panel.in_state(&random_state(rng));
    let values = &read.values[..];
    match (read.kind, read.command) {
        (REPLY, command) => {
            let data = asking(&mut panel.state, rng, command, values);
            panel.line(&packet(command, &data));
        }
        // A length or a first byte that no command allows but command 0.
        (ERROR, command) => panel.line(&packet(command, &[255; DATA_MOST])),
        _ => {
            let bit = 1 << values[0];
            let down = values[1] == 1;
            panel.state[MASKS..MASKS + 2].fill(bit);
            panel.state[KEYS] = if down { 63 - bit } else { bit };
            panel.key(values[0], down);
        }
    }
}

/// Puts the values into the state, and gives the data that ask for them.
fn asking(state: &mut [u8], rng: &mut Rng, command: u8, values: &[u8]) -> Vec<u8> {
    match (command, values) {
        (0, _) => return values.to_vec(),
        (3, _) => state[FLASH..SETS].copy_from_slice(values),
        (10, [address, bytes @ ..]) => {
            state[place_of(*address)..][..8].copy_from_slice(bytes);
            set_right(state);
            return vec![*address];
        }
        (24, _) => state[KEYS..PINS].copy_from_slice(values),
        (35, &[pin, edges, level, config]) => {
            let at = usize::from(pin);
            state[LEVELS + at] = level;
            if pin <= 4 {
                state[CONFIGS + at] = config;
                for (index, byte) in state[PINS..FLASH].iter_mut().enumerate() {
                    *byte = *byte & !(1 << pin) | (edges >> index & 1) << pin;
                }
            }
            return vec![pin];
        }
        _ => return honest_data(rng, command),
    }
    Vec::new()
}

// ---------------------------------------------------------------------------------------------------------------------------
// Both sides, compared
// ---------------------------------------------------------------------------------------------------------------------------

struct Test {
    part: &'static str,
    seed: u64,
    sequence: u64,
    in_sequence: u64,
    calls: u64,
    rng: Rng,
    panel: Panel,
    seen: Seen,
}

/// The name of a buffer, as the reading left it and as the library did.
type Pair<'a> = (&'static str, &'a Buffer, &'a Buffer);

impl Test {
    fn new() -> Test {
        Test {
            part: "",
            seed: FIXED_SEED,
            sequence: 0,
            in_sequence: 0,
            calls: 0,
            rng: Rng(0),
            panel: Panel::new(),
            seen: Seen::default(),
        }
    }

    fn begin(&mut self, part: &'static str, seed: u64, sequence: u64) {
        self.part = part;
        self.seed = seed;
        self.sequence = sequence;
        self.in_sequence = 0;
        self.rng = Rng::for_sequence(seed, sequence);
        self.panel.power_on();
    }

    /// Counts a call, and gives a pointer that leads nowhere for what has no bytes.
    fn next_call(&mut self) -> *mut u8 {
        self.calls += 1;
        self.in_sequence += 1;
        if self.in_sequence.is_multiple_of(2) {
            std::ptr::null_mut()
        } else {
            std::ptr::without_provenance_mut(1)
        }
    }

    /// Asks both sides for a packet, and gives back what both left. A difference ends the program.
    fn compose(&mut self, asked: &Asked, buffer: &[u8]) -> Composed {
        let nowhere = self.next_call();
        let (lent, packet) = (Buffer::new(asked.lent()), Buffer::new(buffer));
        let said = Buffer::new(&self.rng.bytes(SAID));

        let (mut their_lent, mut their_packet, mut their_said) = (lent.clone(), packet.clone(), said.clone());
        let (lent_pointer, said_pointer) = (their_lent.pointer(nowhere), their_said.pointer(nowhere));
        let packet_pointer = their_packet.pointer(nowhere);
        // Safety: every pointer points to as many bytes as its length says, and no two buffers overlap.
        let their_number = unsafe { asked.of_library(lent_pointer, packet_pointer, buffer.len(), said_pointer) };

        let (mut our_packet, mut our_said) = (packet, said);
        let our = asked.of_reading(our_packet.bytes_mut());
        our_said.bytes_mut().copy_from_slice(&our);
        let pairs =
            [("said", &our_said, &their_said), ("packet", &our_packet, &their_packet), ("values", &lent, &their_lent)];
        self.same((our[0], their_number), &pairs, || {
            let Asked { composer, code, data } = asked;
            format!("{composer:?}, code {code}, {} data bytes: {}, buffer of {}", data.len(), hex(data), buffer.len())
        });

        let [number, command, reason, place] = [our[0], our[1], our[2], our[3]];
        let composed =
            Composed { number, command, reason, place, length: usize::from(our[12]), buffer: our_packet.bytes().to_vec() };
        self.seen.note_composed(asked, &composed);
        composed
    }

    /// Both sides read the bytes; gives back what both say. A difference ends the program.
    fn read(&mut self, bytes: &[u8]) -> Read {
        let nowhere = self.next_call();
        let (lent, values) = (Buffer::new(bytes), Buffer::new(&self.rng.bytes(READING)));

        let (mut their_lent, mut their_values) = (lent.clone(), values.clone());
        let (lent_pointer, values_pointer) = (their_lent.pointer(nowhere), their_values.pointer(nowhere));
        // Safety: every pointer points to as many bytes as its length says, and no two buffers overlap.
        let their_number = unsafe { library::naupelys_read_reply(lent_pointer, bytes.len(), values_pointer) };

        let mut our_values = values;
        let (number, our) = host_reading::read_reply(bytes);
        our_values.bytes_mut().copy_from_slice(&our);
        let pairs = [("reading", &our_values, &their_values), ("bytes", &lent, &their_lent)];
        self.same((number, their_number), &pairs, || format!("read {} bytes: {}", bytes.len(), hex(bytes)));

        let count = usize::from(our[2]);
        let read = Read { number, kind: our[0], command: our[1], values: our[3..3 + count].to_vec() };
        self.seen.note_read(bytes, &read);
        read
    }

    /// Ends the program where number or bytes differ.
    fn same(&self, (our_number, their_number): (u8, u8), pairs: &[Pair], call: impl Fn() -> String) {
        let different = pairs.iter().find(|(_, ours, theirs)| ours != theirs);
        if our_number == their_number && different.is_none() {
            return;
        }
        self.print_where("DIFFERENCE");
        println!("  call: {}", call());
        println!("  number returned: library {their_number}, reading {our_number}");
        if let Some((name, ours, theirs)) = different {
            print_difference(name, ours, theirs);
        }
        exit(1);
    }

    /// Ends the program where both sides gave something else than the papers say.
    fn must<T: PartialEq + Debug>(&self, what: &str, bytes: &[u8], got: T, want: T) {
        if got == want {
            return;
        }
        self.print_where("WRONG");
        println!("  {what}: {}", hex(bytes));
        println!("  got {got:?}, the papers say {want:?}");
        exit(1);
    }

    fn print_where(&self, what: &str) {
        println!();
        println!("{what} in {}, seed {}, sequence {}, call {}", self.part, self.seed, self.sequence, self.in_sequence);
    }

    /// Asks for a packet, of the named composer too if there is one for these values. Both have to leave the same: the buffer
    /// as it came, but for the packet at its front if there is one.
    fn ask(&mut self, code: u32, data: &[u8], buffer: &[u8]) -> Composed {
        let composed = self.compose(&Asked { composer: Composer::Any, code, data }, buffer);
        let mut left = buffer.to_vec();
        if composed.number == DONE {
            left[..data.len() + 4].copy_from_slice(&packet(code as u8, data));
        }
        self.must("the buffer", data, &composed.buffer, &left);
        if let Some(composer) = named(code, data) {
            let by_name = self.compose(&Asked { composer, code, data }, buffer);
            self.must("the same from a named composer", data, &by_name, &composed);
        }
        composed
    }

    /// Asks for a packet, and gives the panel what came of it: it has to do what was composed, and to refuse what was
    /// refused, for the same reason and place.
    fn ask_and_send(&mut self, code: u32, data: &[u8]) {
        let buffer = self.rng.bytes(PACKET);
        let composed = self.ask(code, data, &buffer);
        match composed.number {
            DONE => self.send(data, &composed),
            _ if code < 64 && data.len() <= DATA_MOST => self.send_refused(data, &composed),
            _ => {}
        }
    }

    /// "Composing then framing gives the same command": one packet, nothing dropped and nothing held.
    fn send(&mut self, data: &[u8], composed: &Composed) {
        let sent = composed.packet();
        let values = meant(&self.panel.state, composed.command, data);
        self.panel.line(sent);
        self.must("what the panel answers", sent, self.panel.answer(), [DONE, composed.command, 0, 0]);
        let n = data.len();
        self.must("taken, dropped, checked, held", sent, self.panel.counts(), [n + 4, 0, n + 2, 0]);
        self.read_back(Read::done(REPLY, composed.command, &values));
    }

    fn send_refused(&mut self, data: &[u8], composed: &Composed) {
        let sent = packet(composed.command, data);
        self.panel.line(&sent);
        let want = [REFUSED, composed.command, composed.reason, composed.place];
        self.must("what the panel answers", &sent, self.panel.answer(), want);
        self.read_back(Read::done(ERROR, composed.command, &[]));
    }

    /// "every reply the panel can write reads back to what the panel meant".
    fn read_back(&mut self, want: Read) {
        let reply = self.panel.reply().to_vec();
        let read = self.read(&reply);
        self.must("what the panel meant", &reply, read, want);
    }

    /// A key goes down or up; a report has to be read as just that.
    fn key(&mut self, key: u8, down: bool) {
        self.panel.key(key, down);
        if !self.panel.reply().is_empty() {
            self.read_back(Read::done(REPORT, 0, &[key, u8::from(down)]));
        }
    }

    /// Reads the bytes; where they are read, some panel in its ranges has to write them.
    fn read_and_write(&mut self, bytes: &[u8]) {
        let read = self.read(bytes);
        if read.number == DONE {
            write_as_read(&mut self.panel, &mut self.rng, &read);
            self.must("what the panel writes", bytes, self.panel.reply(), bytes);
        }
    }

    /// None of these is exactly one reply.
    fn read_none(&mut self, name: &'static str, bytes: &[u8]) {
        let read = self.read(bytes);
        self.must(name, bytes, read, Read::unreadable());
        self.seen.other(name);
    }

    /// What the panel wrote, damaged.
    fn read_damaged(&mut self, reply: &[u8]) {
        let mut flipped = reply.to_vec();
        flipped[self.rng.below(reply.len())] ^= 1 << self.rng.below(8);
        self.read_none("a bit flipped", &flipped);
        let cut = self.rng.below(reply.len());
        self.read_none("cut short", &reply[..cut]);
        let byte = self.rng.byte();
        self.read_none("a byte behind", &[reply, &[byte]].concat());
        self.read_none("a byte in front", &[&[byte], reply].concat());
        self.read_none("two replies", &[reply, reply].concat());
        self.read_none("no bytes", &[]);
        let mut damaged = reply.to_vec();
        damage(&mut self.rng, &mut damaged);
        self.read(&damaged);
    }
}

// ---------------------------------------------------------------------------------------------------------------------------
// What was seen, so that a broken generator cannot pass
// ---------------------------------------------------------------------------------------------------------------------------

#[derive(Default)]
struct Seen {
    /// By composer and number.
    numbers: BTreeMap<(Composer, u8), u64>,
    /// By composer, reason and place.
    refusals: BTreeSet<(Composer, u8, u8)>,
    /// By command, reason and place.
    keys: BTreeMap<[u8; 3], u64>,
    /// By command.
    composed: BTreeMap<u8, u64>,
    lengths: BTreeSet<usize>,
    /// By command.
    replies: BTreeMap<u8, u64>,
    errors: BTreeMap<u8, u64>,
    /// By key and whether it is down.
    reports: BTreeMap<[u8; 2], u64>,
    unreadable: u64,
    other: BTreeMap<&'static str, u64>,
}

/// Further things that have to be seen.
const OTHER: [&str; 47] = [
    "21, and the code is unknown",
    "21, and the values are refused",
    "21, and the values are allowed",
    "21 of no bytes",
    "21 of 25 bytes",
    "21 of 27 bytes",
    "21 of 256 + 26 bytes",
    "21 of 65,536 + 26 bytes",
    "a code whose low six bits are a command",
    "a code whose low byte is a command",
    "a code whose low two bytes are a command",
    "a length whose low byte is allowed",
    "a length whose low two bytes are allowed",
    "an unknown code with more than 22 bytes",
    "21 characters of text",
    "a bit flipped",
    "cut short",
    "a byte behind",
    "a byte in front",
    "two replies",
    "no bytes",
    "a command's packet",
    "more than 22 data bytes",
    "a length byte of another length",
    "a checksum with its high byte first",
    "a reply of an unknown command",
    "an acknowledgement with data",
    "another version",
    "flash of another length",
    "an address that is not allowed",
    "a glyph's row of 64",
    "a text's code above 63, read",
    "a poll byte of 63, read",
    "a poll byte of 64",
    "pin 13",
    "edges 8",
    "level 101",
    "config 6",
    "config 14",
    "config 16",
    "edges of a pin above 4",
    "config of a pin above 4",
    "another type of report",
    "report 0",
    "report 13",
    "type 192",
    "an error reply with data",
];

impl Seen {
    fn other(&mut self, name: &'static str) {
        *self.other.entry(name).or_default() += 1;
    }

    fn note_composed(&mut self, asked: &Asked, composed: &Composed) {
        let Composed { number, command, reason, place, length, .. } = *composed;
        *self.numbers.entry((asked.composer, number)).or_default() += 1;
        match number {
            DONE => {
                *self.composed.entry(command).or_default() += 1;
                self.lengths.insert(length);
            }
            REFUSED => {
                self.refusals.insert((asked.composer, reason, place));
                *self.keys.entry([command, reason, place]).or_default() += 1;
                self.note_refused(asked, reason);
            }
            _ => self.note_bad_buffer(asked, composed.buffer.len()),
        }
    }

    fn note_refused(&mut self, asked: &Asked, reason: u8) {
        let Asked { code, data, .. } = *asked;
        let allowed = |code: u32, data: &[u8]| code < 64 && reading::refusal(code as u8, data).is_none();
        let front = |most: usize| &data[..data.len() & most];
        for (name, seen) in [
            ("a code whose low six bits are a command", code > 63 && allowed(code & 63, data)),
            ("a code whose low byte is a command", code > 255 && allowed(code & 255, data)),
            ("a code whose low two bytes are a command", code > 65_535 && allowed(code & 65_535, data)),
            ("a length whose low byte is allowed", data.len() > 255 && allowed(code, front(255))),
            ("a length whose low two bytes are allowed", data.len() > 65_535 && allowed(code, front(65_535))),
            ("an unknown code with more than 22 bytes", reason == 1 && data.len() > DATA_MOST),
            ("21 characters of text", code == 31 && data.len() == DATA_MOST + 1 && data[0] == 0 && data[1] <= 3),
        ] {
            if seen {
                self.other(name);
            }
        }
    }

    fn note_bad_buffer(&mut self, asked: &Asked, size: usize) {
        self.other(match host_reading::compose(asked.code, asked.data, &mut [0; PACKET])[..3] {
            [REFUSED, _, 1] => "21, and the code is unknown",
            [REFUSED, ..] => "21, and the values are refused",
            _ => "21, and the values are allowed",
        });
        match size {
            0 => self.other("21 of no bytes"),
            25 => self.other("21 of 25 bytes"),
            27 => self.other("21 of 27 bytes"),
            282 => self.other("21 of 256 + 26 bytes"),
            65_562 => self.other("21 of 65,536 + 26 bytes"),
            _ => {}
        }
    }

    fn note_read(&mut self, bytes: &[u8], read: &Read) {
        match (read.number, read.kind) {
            (DONE, REPLY) => *self.replies.entry(read.command).or_default() += 1,
            (DONE, ERROR) => *self.errors.entry(read.command).or_default() += 1,
            (DONE, _) => *self.reports.entry([read.values[0], read.values[1]]).or_default() += 1,
            _ => self.unreadable += 1,
        }
        if let Some(name) = edge(bytes, read.number == DONE) {
            self.other(name);
        }
    }
}

/// The name of an edge at which these bytes stand, if one has a name.
fn edge(bytes: &[u8], is_read: bool) -> Option<&'static str> {
    let (front, sum) = bytes.split_last_chunk::<2>()?;
    let (&type_byte, &length) = (front.first()?, front.get(1)?);
    let data = &front[2..];
    let right = reading::checksum(front).to_le_bytes();
    if right != *sum {
        return (sum[0] == right[1] && sum[1] == right[0]).then_some("a checksum with its high byte first");
    }
    if data.len() != usize::from(length) {
        return Some("a length byte of another length");
    }
    if data.len() > DATA_MOST {
        return Some("more than 22 data bytes");
    }
    Some(match (type_byte, data) {
        (74, [128..=255, text @ ..]) if is_read && text.iter().any(|&code| code > 63) => "a text's code above 63, read",
        (88, [.., 63]) if is_read => "a poll byte of 63, read",
        _ if is_read => return None,
        (..64, _) => "a command's packet",
        (65, _) if data.len() == 16 => "another version",
        (67, _) => "flash of another length",
        (74, [64..=120, rows @ ..]) if rows.contains(&64) => "a glyph's row of 64",
        (74, [_, _, _, _, _, _, _, _, _]) => "an address that is not allowed",
        (88, [..=64, ..=64, ..=64]) => "a poll byte of 64",
        (99, [13, 0, ..=100, 0]) => "pin 13",
        (99, [..=4, 8, ..=100, 0]) => "edges 8",
        (99, [..=4, ..=7, 101, 0]) => "level 101",
        (99, [..=4, ..=7, ..=100, 6]) => "config 6",
        (99, [..=4, ..=7, ..=100, 14]) => "config 14",
        (99, [..=4, ..=7, ..=100, 16]) => "config 16",
        (99, [5..=12, 1..=7, ..=100, 0]) => "edges of a pin above 4",
        (99, [5..=12, 0, ..=100, 1..=5]) => "config of a pin above 4",
        (64..128, _) if !COMMANDS.contains(&(type_byte - 64)) => "a reply of an unknown command",
        (66 | 68..=70 | 73 | 75..=78 | 87 | 95 | 98, _) => "an acknowledgement with data",
        (129..192, [1..=12]) => "another type of report",
        (128, [0]) => "report 0",
        (128, [13]) => "report 13",
        (192, []) => "type 192",
        (193.., _) => "an error reply with data",
        _ => return None,
    })
}

/// Every command, reason and place that composing can give: those of the panel, a code above 63 with the low six bits of a
/// command, and more than 22 bytes for command 0.
fn composers_keys() -> Vec<[u8; 3]> {
    let mut keys = possible_keys();
    keys.extend(COMMANDS.map(|code| [code, 1, 0]));
    keys.push([0, 2, 1]);
    keys
}

impl Seen {
    /// What was expected and not seen.
    fn missing(&self) -> Vec<String> {
        let mut missing = Vec::new();
        let mut want = |seen: bool, what: String| {
            if !seen {
                missing.push(what);
            }
        };
        for number in [DONE, REFUSED, BAD_BUFFER] {
            want(self.numbers.contains_key(&(Composer::Any, number)), format!("composing answering {number}"));
        }
        for (composer, refusals) in named_composers() {
            for number in [DONE, BAD_BUFFER] {
                want(self.numbers.contains_key(&(composer, number)), format!("{composer:?} answering {number}"));
            }
            for (reason, place) in refusals {
                let seen = self.refusals.contains(&(composer, reason, place));
                want(seen, format!("{composer:?} with reason {reason}, place {place}"));
            }
        }
        for key in composers_keys() {
            want(self.keys.contains_key(&key), format!("a refusal with command, reason, place {key:?}"));
        }
        for length in 4..=PACKET {
            want(self.lengths.contains(&length), format!("a packet of {length} bytes"));
        }
        for command in COMMANDS {
            want(self.composed.contains_key(&command), format!("command {command} composed"));
            want(self.replies.contains_key(&command), format!("a reply to command {command}"));
        }
        for command in 1..64 {
            want(self.errors.contains_key(&command), format!("an error reply to command {command}"));
        }
        for key in 0..6 {
            for down in 0..2 {
                want(self.reports.contains_key(&[key, down]), format!("a report of key {key}, down {down}"));
            }
        }
        want(self.unreadable > 0, "29".to_string());
        for name in OTHER {
            want(self.other.contains_key(name), name.to_string());
        }
        missing
    }

    fn print(&self) {
        let named = named_composers().into_iter().map(|(composer, _)| composer);
        print!("composers, done/refused/21:");
        for composer in [Composer::Any].into_iter().chain(named) {
            let count = |number: u8| self.numbers.get(&(composer, number)).copied().unwrap_or(0);
            print!(" {composer:?}: {}/{}/{};", count(DONE), count(REFUSED), count(BAD_BUFFER));
        }
        println!(" keys: {} of {}", self.keys.len(), composers_keys().len());
        println!(
            "read: replies to {} commands: {}; error replies to {}: {}; {} reports: {}; 29: {}",
            self.replies.len(),
            self.replies.values().sum::<u64>(),
            self.errors.len(),
            self.errors.values().sum::<u64>(),
            self.reports.len(),
            self.reports.values().sum::<u64>(),
            self.unreadable
        );
    }
}

// ---------------------------------------------------------------------------------------------------------------------------
// The worked cases of the papers, and the names of the header
// ---------------------------------------------------------------------------------------------------------------------------

/// Name, code, data; number, reason and place.
type ComposeCase = (&'static str, u32, &'static [u8], (u8, u8, u8));

/// Document 01's cases from the host's side, and what order 1 adds. Gives how many.
fn worked_cases(test: &mut Test) -> u64 {
    test.begin("the worked cases", FIXED_SEED, 0);
    let packets: [(u32, &[u8], &[u8]); 3] = [
        (0, &[], &[0x00, 0x00, 0x47, 0x0F]),
        (6, &[], &[0x06, 0x00, 0x97, 0x5B]),
        (5, &[8, 18, 99], &packet(5, &[8, 18, 99])),
    ];
    for (code, data, bytes) in packets {
        let composed = test.ask(code, data, &[0; PACKET]);
        test.must("composed", data, composed.packet(), bytes);
    }

    let rows: [ComposeCase; 26] = [
        ("P3", 6, &[0], (4, 2, 1)),
        ("P8, contrast 254", 13, &[254], (3, 0, 0)),
        ("P8, contrast 255", 13, &[255], (4, 3, 2)),
        ("P9, one character", 31, &[19, 0, 65], (3, 0, 0)),
        ("P9, two", 31, &[19, 0, 65, 65], (4, 4, 5)),
        ("glyph 7", 9, &[7, 0, 0, 0, 0, 0, 0, 0, 0], (3, 0, 0)),
        ("glyph 8", 9, &[8, 0, 0, 0, 0, 0, 0, 0, 0], (4, 3, 2)),
        ("row byte 63", 9, &[0, 0, 0, 0, 0, 0, 0, 0, 63], (3, 0, 0)),
        ("row byte 64", 9, &[0, 0, 0, 0, 0, 0, 0, 0, 64], (4, 3, 10)),
        ("address 120", 10, &[120], (3, 0, 0)),
        ("address 121", 10, &[121], (4, 3, 2)),
        ("reset of the host", 5, &[12, 28, 97], (4, 5, 2)),
        ("two bytes of command 5", 5, &[8, 18], (4, 2, 1)),
        ("config of pin 5", 34, &[5, 0, 0], (4, 3, 4)),
        ("config 6", 34, &[0, 0, 6], (4, 3, 4)),
        ("a fan command", 17, &[0, 0, 0, 0], (4, 1, 0)),
        ("code 63", 63, &[], (4, 1, 0)),
        ("code 64", 64, &[], (4, 1, 0)),
        ("code 256 + 13", 269, &[95], (4, 1, 0)),
        ("the last code", u32::MAX, &[], (4, 1, 0)),
        ("22 bytes of a ping", 0, &[7; 22], (3, 0, 0)),
        ("23 bytes of a ping", 0, &[7; 23], (4, 2, 1)),
        ("23 bytes of an unknown command", 7, &[7; 23], (4, 1, 0)),
        ("no text", 31, &[0, 0], (4, 2, 1)),
        ("text of 20", 31, &[0; 22], (3, 0, 0)),
        ("text of 21", 31, &[0; 23], (4, 2, 1)),
    ];
    for (name, code, data, want) in rows {
        let composed = test.ask(code, data, &[0; PACKET]);
        test.must(name, data, (composed.number, composed.reason, composed.place), want);
        let length = if want.0 == DONE { data.len() + 4 } else { 0 };
        test.must(name, data, (u32::from(composed.command), composed.length), (code % 64, length));
        let refused = test.ask(code, data, &[0; PACKET + 1]);
        let want = Composed { number: 21, command: 0, reason: 0, place: 0, length: 0, buffer: vec![0; PACKET + 1] };
        test.must(name, data, refused, want);
    }
    (packets.len() + rows.len()) as u64 + worked_replies(test)
}

/// Type, data, and what is read; nothing, if it is 29.
type ReadCase = (u8, &'static [u8], Option<Read>);

fn worked_replies(test: &mut Test) -> u64 {
    let plain: [(&[u8], Read); 3] = [
        (&[0x40, 0x00, 0x21, 0x49], Read::done(REPLY, 0, &[])),
        (&[0x46, 0x00, 0xF1, 0x1D], Read::done(REPLY, 6, &[])),
        (&[0xC6, 0x00, 0x3D, 0x91], Read::done(ERROR, 6, &[])),
    ];
    for (bytes, want) in &plain {
        let read = test.read(bytes);
        test.must("read", bytes, read, want.clone());
    }

    let reply = |command: u8, data: &[u8]| Some(Read::done(REPLY, command, data));
    let report = |key: u8, down: u8| Some(Read::done(REPORT, 0, &[key, down]));
    let rows: [ReadCase; 32] = [
        (65, VERSION, reply(1, VERSION)),
        (65, b"CFA635:h1.1,s1.7", None),
        (74, &[120, 63, 63, 63, 63, 63, 63, 63, 63], reply(10, &[120, 63, 63, 63, 63, 63, 63, 63, 63])),
        (74, &[121, 63, 63, 63, 63, 63, 63, 63, 63], None),
        (74, &[64, 0, 0, 0, 0, 0, 0, 0, 64], None),
        (74, &[236, 255, 0, 0, 0, 0, 0, 0, 64], reply(10, &[236, 255, 0, 0, 0, 0, 0, 0, 64])),
        (74, &[237, 255, 0, 0, 0, 0, 0, 0, 64], None),
        (88, &[63, 63, 63], reply(24, &[63, 63, 63])),
        (88, &[0, 0, 64], None),
        (99, &[4, 7, 100, 15], reply(35, &[4, 7, 100, 15])),
        (99, &[4, 7, 100, 14], None),
        (99, &[0, 0, 0, 6], None),
        (99, &[0, 8, 0, 0], None),
        (99, &[0, 0, 101, 0], None),
        (99, &[12, 0, 100, 0], reply(35, &[12, 0, 100, 0])),
        (99, &[12, 1, 100, 0], None),
        (99, &[12, 0, 100, 2], None),
        (99, &[13, 0, 100, 0], None),
        (70, &[0], None),
        (71, &[], None),
        (128, &[1], report(0, 1)),
        (128, &[2], report(5, 1)),
        (128, &[3], report(3, 1)),
        (128, &[4], report(4, 1)),
        (128, &[5], report(1, 1)),
        (128, &[12], report(2, 0)),
        (128, &[0], None),
        (128, &[13], None),
        (192, &[], None),
        (193, &[], Some(Read::done(ERROR, 1, &[]))),
        (255, &[], Some(Read::done(ERROR, 63, &[]))),
        (255, &[0], None),
    ];
    for (type_byte, data, want) in &rows {
        let bytes = packet(*type_byte, data);
        let read = test.read(&bytes);
        test.must("read", &bytes, read, want.clone().unwrap_or(Read::unreadable()));
    }
    (plain.len() + rows.len()) as u64
}

/// Each name of the header stands for the number, or the place, that it names. Gives how many names.
fn header_names(test: &mut Test) -> u64 {
    let mut header = Header::read(include_str!("../include/naupelys_host.h"), "NAUPELYS_HOST_");
    let numbers = [
        ("PACKET", PACKET),
        ("SAID", SAID),
        ("READING", READING),
        ("DATA_MOST", DATA_MOST),
        ("RECORDING_MOST", 65_535),
        ("NO_MORE", 1),
        ("DONE", 3),
        ("REFUSED", 4),
        ("BAD_BUFFER", 21),
        ("TOO_LONG", 22),
        ("NO_MARK", 23),
        ("NO_VERSION", 24),
        ("BAD_DIRECTION", 25),
        ("CUT_SHORT", 26),
        ("UNREADABLE", 29),
        ("NONE", 0),
        ("REPLY", 1),
        ("ERROR", 2),
        ("REPORT", 3),
    ];
    for (name, number) in numbers {
        expect(name, header.number(name), number);
    }

    // A text that does not fit, and one that does. Both sides say the same.
    let mut said = |data: &[u8]| {
        test.ask(31, data, &[0; PACKET]);
        host_reading::compose(31, data, &mut [0; PACKET])
    };
    let (refused, done) = (said(&[19, 0, 65, 66]), said(&[19, 0, 65]));
    for (name, byte) in [("SAID_NUMBER", 4), ("SAID_COMMAND", 31), ("SAID_REASON", 4), ("SAID_PLACE", 5)] {
        expect(name, refused[header.number(name)], byte);
    }
    expect("SAID_LENGTH", done[header.number("SAID_LENGTH")], 7);

    let reply = packet(99, &[4, 7, 100, 15]);
    test.read(&reply);
    let (_, reading) = host_reading::read_reply(&reply);
    for (name, byte) in [("READING_KIND", 1), ("READING_COMMAND", 35), ("READING_COUNT", 4), ("READING_VALUES", 4)] {
        expect(name, reading[header.number(name)], byte);
    }

    let all: BTreeSet<&str> = header.numbers.keys().copied().collect();
    expect("names of the header that were tried", header.asked.clone(), all);
    header.asked.len() as u64
}

// ---------------------------------------------------------------------------------------------------------------------------
// The sweeps over what is composed
// ---------------------------------------------------------------------------------------------------------------------------

/// Codes that would be a command if their high bits were lost, and the last ones.
const WIDE: [u32; 17] = [
    256,
    269,
    256 + 64,
    511,
    512,
    0xFF1F,
    65_535,
    65_536,
    65_549,
    0x0001_0100,
    0x00FF_001F,
    0x0100_0000,
    0x0100_000D,
    0x8000_0000,
    0x8000_000D,
    u32::MAX - 63,
    u32::MAX,
];

fn composing_sweeps(test: &mut Test) {
    for code in (0..256).chain(WIDE) {
        test.begin("the sweep over codes and lengths", FIXED_SEED, u64::from(code));
        for length in 0..=40 {
            for most in [3, 255] {
                let data: Vec<u8> = (0..length).map(|_| test.rng.up_to(most)).collect();
                test.panel.power_on();
                test.ask_and_send(code, &data);
            }
        }
    }
    for command in COMMANDS {
        test.begin("the sweep over data bytes", FIXED_SEED, u64::from(command));
        for index in 0..DATA_MOST {
            sweep_data_byte(test, command, index);
        }
    }
    for column in 0..=20 {
        test.begin("the sweep over texts", FIXED_SEED, u64::from(column));
        for row in 0..=4 {
            for length in 0..=22 {
                let text = test.rng.bytes(length);
                test.panel.power_on();
                test.ask_and_send(31, &[&[column, row], &text[..]].concat());
            }
        }
    }
    for pin in 0..=13 {
        test.begin("the sweep over configs", FIXED_SEED, u64::from(pin));
        for config in 0..=255 {
            let level = if config % 8 == 7 { 101 } else { test.rng.up_to(100) };
            test.panel.power_on();
            test.ask_and_send(34, &[pin, level, config]);
        }
    }
    sweep_sizes(test);
}

/// Every value of one byte of honest data.
fn sweep_data_byte(test: &mut Test, command: u8, index: usize) {
    for value in 0..=255 {
        let honest = (0..20).map(|_| honest_data(&mut test.rng, command)).find(|data| data.len() > index);
        let Some(mut data) = honest else {
            return;
        };
        data[index] = value;
        test.panel.power_on();
        test.ask_and_send(u32::from(command), &data);
    }
}

/// Buffers of other sizes, and more data than a byte or two can count.
fn sweep_sizes(test: &mut Test) {
    test.begin("the sweep over sizes", FIXED_SEED, 0);
    let sizes = (0..=60).filter(|&size| size != PACKET).chain([90, 255, 256, 282, 512, 65_535, 65_536, 65_562]);
    for size in sizes {
        for command in COMMANDS {
            let buffer = test.rng.bytes(size);
            let honest = honest_data(&mut test.rng, command);
            let wrong = wrong_data(&mut test.rng, command);
            for (code, data) in [(command, &honest), (command, &wrong), (command + 64, &honest), (command ^ 63, &wrong)] {
                let composed = test.ask(u32::from(code), data, &buffer);
                test.must("the number for a buffer of another size", data, composed.number, BAD_BUFFER);
            }
        }
    }
    for command in COMMANDS {
        for more in [256, 512, 65_536] {
            let mut data = honest_data(&mut test.rng, command);
            data.resize(data.len() + more, 0);
            test.ask_and_send(u32::from(command), &data);
        }
    }
}

// ---------------------------------------------------------------------------------------------------------------------------
// The sweeps over what is read
// ---------------------------------------------------------------------------------------------------------------------------

fn reading_sweeps(test: &mut Test) {
    for type_byte in 0..=255 {
        test.begin("the sweep over types and lengths", FIXED_SEED, u64::from(type_byte));
        for length in 0..=30 {
            sweep_fillings(test, type_byte, length);
        }
    }
    for address in 0..=255 {
        test.begin("the sweep over addresses", FIXED_SEED, u64::from(address));
        for place in 1..=8 {
            for byte in [0, 62, 63, 64, 127, 128, 255] {
                let mut data = [address; 9];
                data[1..].fill_with(|| test.rng.up_to(63));
                data[place] = byte;
                test.read_and_write(&packet(74, &data));
            }
        }
    }
    test.begin("the sweep over polls", FIXED_SEED, 0);
    for first in 0..=255 {
        for second in [0, 1, 62, 63, 64, 128, 255] {
            for data in [[first, second, 63], [63, first, second], [second, 63, first]] {
                test.read_and_write(&packet(88, &data));
            }
        }
    }
    sweep_pins(test);
    for low_six in 0..64 {
        test.begin("the sweep over reports", FIXED_SEED, u64::from(low_six));
        for value in 0..=255 {
            test.read_and_write(&packet(128 + low_six, &[value]));
        }
    }
    for index in 0..16 {
        test.begin("the sweep over versions", FIXED_SEED, index as u64);
        for value in 0..=255 {
            let mut data = *VERSION;
            data[index] = value;
            test.read_and_write(&packet(65, &data));
        }
    }
    test.begin("the sweep over damage", FIXED_SEED, 0);
    for reply in one_of_each(&mut test.rng) {
        sweep_damage(test, &reply);
    }
}

/// One type and length, with several fillings; then with a length byte that is not the length.
fn sweep_fillings(test: &mut Test, type_byte: u8, length: usize) {
    let mut fillings: Vec<Vec<u8>> = [0, 1, 63, 64, 255].map(|byte| vec![byte; length]).to_vec();
    fillings.extend([3, 63, 255].map(|most| (0..length).map(|_| test.rng.up_to(most)).collect()));
    fillings.push(VERSION.iter().copied().cycle().take(length).collect());
    for data in &fillings {
        test.read_and_write(&packet(type_byte, data));
    }
    for other in [length.wrapping_sub(1), length + 1, length + 2, 0, 22] {
        let mut bytes = vec![type_byte, other as u8];
        bytes.extend_from_slice(&fillings[5]);
        let sum = reading::checksum(&bytes);
        bytes.extend_from_slice(&sum.to_le_bytes());
        test.read_and_write(&bytes);
    }
}

fn sweep_pins(test: &mut Test) {
    let configs = || (0..=17).chain([22, 30, 38, 64, 130, 254, 255]);
    for pin in (0..=14).chain([16, 64, 127, 128, 255]) {
        test.begin("the sweep over pins", FIXED_SEED, u64::from(pin));
        for edges in (0..=9).chain([16, 128, 255]) {
            for level in [0, 50, 99, 100, 101, 128, 255] {
                for config in configs() {
                    test.read_and_write(&packet(99, &[pin, edges, level, config]));
                }
            }
        }
    }
    for value in 0..=255 {
        test.begin("the sweep over a pin's bytes", FIXED_SEED, u64::from(value));
        for pin in 0..=13 {
            for data in [[pin, value, 100, 0], [pin, 0, value, 0], [pin, 0, 100, value], [value, 0, 100, 0]] {
                test.read_and_write(&packet(99, &data));
            }
        }
    }
}

/// A reply to every command, every error reply and every report.
fn one_of_each(rng: &mut Rng) -> Vec<Vec<u8>> {
    let state = random_state(rng);
    let replies = COMMANDS.map(|command| {
        let data = honest_data(rng, command);
        packet(64 + command, &meant(&state, command, &data))
    });
    let errors = (193..=255).map(|type_byte| packet(type_byte, &[]));
    let reports = (1..=12).map(|code| packet(128, &[code]));
    replies.into_iter().chain(errors).chain(reports).collect()
}

/// Every bit flipped, every cut, every byte in front and behind.
fn sweep_damage(test: &mut Test, reply: &[u8]) {
    test.read_and_write(reply);
    for at in 0..reply.len() {
        for bit in 0..8 {
            let mut flipped = reply.to_vec();
            flipped[at] ^= 1 << bit;
            test.read_none("a bit flipped", &flipped);
        }
        test.read_none("cut short", &reply[..at]);
    }
    for byte in 0..=255 {
        test.read_none("a byte behind", &[reply, &[byte]].concat());
        test.read_none("a byte in front", &[&[byte], reply].concat());
    }
    let mut swapped = reply.to_vec();
    swapped.swap(reply.len() - 2, reply.len() - 1);
    if swapped != reply {
        test.read_none("a checksum with its high byte first", &swapped);
    }
}

// ---------------------------------------------------------------------------------------------------------------------------
// The random sequences
// ---------------------------------------------------------------------------------------------------------------------------

/// A code and data: mostly of a command, and often as the panel allows them.
fn any_values(rng: &mut Rng) -> (u32, Vec<u8>) {
    let command = rng.pick(&COMMANDS);
    let honest = honest_data(rng, command);
    let code = u32::from(command);
    match rng.below(20) {
        0..=9 => (code, honest),
        10..=13 => (code, wrong_data(rng, command)),
        14 => {
            let n = rng.between(0, 40);
            (code, rng.bytes(n))
        }
        15 => {
            let mut data = honest;
            data.resize(rng.between(0, 24), rng.byte());
            (code, data)
        }
        16 => {
            let mut data = honest;
            data.resize(data.len() + rng.pick(&[1, 22, 23, 256, 512]), 0);
            (code, data)
        }
        17 => (rng.below(71) as u32, honest),
        18 => (code + 64 * rng.between(1, 1023) as u32, honest),
        _ => (code.wrapping_add(rng.pick(&[256, 65_536, 0x0100_0000, 0x8000_0000, 0xFFFF_FFC0])), honest),
    }
}

/// Bytes that are no reply but by chance.
fn any_bytes(rng: &mut Rng) -> Vec<u8> {
    let n = rng.below(41);
    let mut bytes = rng.bytes(n);
    if rng.flag() && n >= 4 {
        bytes[1] = (n - 4) as u8;
        if rng.flag() {
            bytes = packet(bytes[0] | 64, &bytes[2..n - 2]);
        }
    }
    bytes
}

/// One step of a random sequence.
fn step(test: &mut Test) {
    match test.rng.below(20) {
        0 | 1 => {
            let (key, down) = (test.rng.up_to(5), test.rng.flag());
            test.key(key, down);
        }
        2 => {
            let (pin, high) = (test.rng.up_to(4), test.rng.flag());
            test.panel.pin(pin, high);
        }
        3 => {
            let state = random_state(&mut test.rng);
            test.panel.in_state(&state);
        }
        4..=6 => {
            let bytes = any_bytes(&mut test.rng);
            test.read(&bytes);
        }
        7 => {
            let (code, data) = any_values(&mut test.rng);
            let size = wrong_size(&mut test.rng, PACKET);
            let buffer = test.rng.bytes(size);
            test.ask(code, &data, &buffer);
        }
        _ => {
            let (code, data) = any_values(&mut test.rng);
            test.ask_and_send(code, &data);
        }
    }
    let reply = test.panel.reply().to_vec();
    if !reply.is_empty() {
        test.read_damaged(&reply);
    }
}

fn sequence(test: &mut Test, seed: u64, number: u64) {
    test.begin("the random sequences", seed, number);
    if test.rng.flag() {
        let state = random_state(&mut test.rng);
        test.panel.in_state(&state);
    }
    for _ in 0..test.rng.between(10, 60) {
        step(test);
    }
}

fn main() {
    let arguments: Vec<u64> =
        std::env::args().skip(1).map(|text| text.parse().expect("the arguments are numbers: SEED SEQUENCE")).collect();
    let clock = SystemTime::now().duration_since(UNIX_EPOCH).map_or(1, |since| since.as_nanos() as u64);
    let second_seed = arguments.first().copied().unwrap_or(clock);
    let mut test = Test::new();

    if let Some(&number) = arguments.get(1) {
        sequence(&mut test, second_seed, number);
        println!("host's side: seed {second_seed}, sequence {number}: {} calls, no difference", test.calls);
        return;
    }

    println!("host's side: fixed seed {FIXED_SEED}, second seed {second_seed}");
    std::io::stdout().flush().ok();
    let start = Instant::now();
    let cases = worked_cases(&mut test) + header_names(&mut test);
    composing_sweeps(&mut test);
    reading_sweeps(&mut test);
    let swept = test.calls;
    for seed in [FIXED_SEED, second_seed] {
        for number in 0..SEQUENCES {
            sequence(&mut test, seed, number);
        }
    }
    test.seen.print();
    let missing = test.seen.missing();
    if !missing.is_empty() {
        println!("NOT SEEN, so the generator is broken: {}", missing.join("; "));
        exit(1);
    }
    println!(
        "host's side: no difference: {cases} worked cases, {} sequences; {} calls compared, {swept} of them in cases and \
         sweeps, and {} calls of the panel; {:.1} s",
        2 * SEQUENCES,
        test.calls,
        test.panel.calls,
        start.elapsed().as_secs_f64()
    );
}
