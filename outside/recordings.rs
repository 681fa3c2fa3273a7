//! The differential test of recordings: `naupelys_recording_next`, in the library and in the reading, gets the same calls, and
//! after every call the number returned, the four lent numbers and every byte of the recording are compared. The library's
//! panel hears every host entry too, and has to find the same packets. `recordings` runs the worked cases, the sweeps, and
//! random sequences from a fixed seed and from the clock; `recordings SEED` takes SEED in the clock's place; `recordings SEED
//! SEQUENCE` repeats that one sequence.

#[allow(dead_code)]
#[path = "common.rs"]
mod common;
#[allow(dead_code)]
#[path = "library.rs"]
mod library;
#[allow(dead_code)]
#[path = "panel.rs"]
mod panel;
#[allow(dead_code)]
#[path = "reading.rs"]
mod reading;
#[path = "recorded.rs"]
mod recorded;
#[path = "recording_reading.rs"]
mod recording_reading;
#[allow(dead_code)]
#[path = "states.rs"]
mod states;
#[allow(dead_code)]
#[path = "traffic.rs"]
mod traffic;

use common::{expect, hex, print_difference, Buffer, Header};
use panel::Panel;
use reading::{DONE, PIECE_MOST, STRAY, WAITING};
use recorded::{any_entries, damaged, entries_of_size, heads, nonsense, recording, Recorded, FROM_HOST, FROM_PANEL, HEAD};
use recording_reading::{
    fault, Packet, BAD_DIRECTION, CUT_SHORT, HOST, NO_MARK, NO_MORE, NO_VERSION, RECORDING_MOST, TOO_LONG,
};
use std::collections::{BTreeMap, BTreeSet};
use std::fmt::Debug;
use std::io::Write;
use std::process::exit;
use std::time::{Instant, SystemTime, UNIX_EPOCH};
use traffic::{packet, Rng};

const FIXED_SEED: u64 = 635;
const SEQUENCES: u64 = 1_500;

/// P1's packet.
const PING: [u8; 4] = [0x00, 0x00, 0x47, 0x0F];

// ---------------------------------------------------------------------------------------------------------------------------
// Both sides, compared
// ---------------------------------------------------------------------------------------------------------------------------

/// The four lent numbers, each between two others that must stay as they are.
#[derive(Clone, PartialEq, Debug)]
struct Numbers {
    place: [usize; 3],
    kind: [u8; 3],
    start: [usize; 3],
    length: [usize; 3],
}

impl Numbers {
    fn new(rng: &mut Rng, place: usize) -> Numbers {
        let mut wide = || [0; 3].map(|_| rng.next() as usize);
        let [before, _, behind] = wide();
        let (start, length) = (wide(), wide());
        Numbers { place: [before, place, behind], kind: [rng.byte(), rng.byte(), rng.byte()], start, length }
    }

    /// "With 1 and with 22 to 26 the four numbers are as they came." Gives the number that is returned.
    fn set(&mut self, answer: Answer) -> u8 {
        match answer {
            Ok(packet) => {
                self.place[1] = packet.next;
                self.kind[1] = packet.kind;
                self.start[1] = packet.start;
                self.length[1] = packet.length;
                DONE
            }
            Err(number) => number,
        }
    }
}

/// A packet, or the number that is given in its stead.
type Answer = Result<Packet, u8>;

struct Test {
    part: &'static str,
    seed: u64,
    sequence: u64,
    in_sequence: u64,
    calls: u64,
    rng: Rng,
    panel: Panel,
    seen: Seen,
}

impl Test {
    fn new() -> Test {
        Test {
            part: "",
            seed: FIXED_SEED,
            sequence: 0,
            in_sequence: 0,
            calls: 0,
            rng: Rng(0),
            panel: Panel::new(),
            seen: Seen::default(),
        }
    }

    fn begin(&mut self, part: &'static str, seed: u64, sequence: u64) {
        self.part = part;
        self.seed = seed;
        self.sequence = sequence;
        self.in_sequence = 0;
        self.rng = Rng::for_sequence(seed, sequence);
    }

    /// Counts a call, and gives a pointer that leads nowhere for what has no bytes.
    fn next_call(&mut self) -> *mut u8 {
        self.calls += 1;
        self.in_sequence += 1;
        if self.in_sequence.is_multiple_of(2) {
            std::ptr::null_mut()
        } else {
            std::ptr::without_provenance_mut(1)
        }
    }

    /// Asks both sides for the next packet from a place on, and gives what both answered. A difference ends the program.
    fn next(&mut self, recording: &[u8], place: usize) -> Answer {
        let nowhere = self.next_call();
        let (lent, numbers) = (Buffer::new(recording), Numbers::new(&mut self.rng, place));

        let (mut their_lent, mut their_numbers) = (lent.clone(), numbers.clone());
        let pointer = their_lent.pointer(nowhere);
        let Numbers { place: lent_place, kind, start, length } = &mut their_numbers;
        // Safety: every pointer points to as many bytes or numbers as it has to, and no two of them overlap.
        let their_number = unsafe {
            library::naupelys_recording_next(
                pointer,
                recording.len(),
                &mut lent_place[1],
                &mut kind[1],
                &mut start[1],
                &mut length[1],
            )
        };

        let answer = recording_reading::next(recording, place);
        let mut our_numbers = numbers;
        let our_number = our_numbers.set(answer);
        if our_number != their_number || our_numbers != their_numbers || lent != their_lent {
            self.print_where("DIFFERENCE");
            println!("  call: place {place}, recording of {} bytes: {}", recording.len(), hex(recording));
            println!("  number returned: library {their_number}, reading {our_number}");
            println!("  library: {their_numbers:?}");
            println!("  reading: {our_numbers:?}");
            if lent != their_lent {
                print_difference("recording", &lent, &their_lent);
            }
            exit(1);
        }
        self.seen.note(recording, answer);
        answer
    }

    /// Ends the program where both sides gave something else than the papers say.
    fn must<T: PartialEq + Debug>(&self, what: &str, bytes: &[u8], got: T, want: T) {
        if got == want {
            return;
        }
        self.print_where("WRONG");
        println!("  {what}: {}", hex(bytes));
        println!("  got {got:?}, the papers say {want:?}");
        exit(1);
    }

    fn print_where(&self, what: &str) {
        println!();
        println!("{what} in {}, seed {}, sequence {}, call {}", self.part, self.seed, self.sequence, self.in_sequence);
    }

    /// All packets, asked for from the recording's front on until there are no more; or the number of its fault.
    fn read(&mut self, recording: &[u8]) -> Result<Vec<Packet>, u8> {
        let (mut packets, mut place) = (Vec::new(), 0);
        loop {
            match self.next(recording, place) {
                Ok(packet) => {
                    place = packet.next;
                    packets.push(packet);
                }
                Err(NO_MORE) => break,
                Err(number) => return Err(number),
            }
        }
        self.hear(recording, &packets);
        Ok(packets)
    }

    /// "within an entry its packets equal those that line calls find from an empty hold".
    fn hear(&mut self, recording: &[u8], packets: &[Packet]) {
        let entries = recording_reading::entries(recording).expect("the recording was read");
        self.seen.note_entries(recording, &entries);
        let mut heard = Vec::new();
        for entry in entries.iter().filter(|entry| entry.direction == HOST) {
            self.hear_entry(recording, entry.from, entry.end, &mut heard);
        }
        self.must("the packets that line calls find", recording, packets, &heard);
    }

    /// The library's panel hears an entry from power-on, in pieces of any size.
    fn hear_entry(&mut self, recording: &[u8], from: usize, end: usize, heard: &mut Vec<Packet>) {
        self.panel.power_on();
        // Where the oldest byte that is held stands, and how far the entry has been given to the panel.
        let (mut oldest, mut given) = (from, from);
        while given < end {
            let size = if self.rng.flag() { self.rng.between(1, 30) } else { self.rng.between(1, PIECE_MOST) };
            let piece_end = end.min(given + size);
            loop {
                self.panel.line(&recording[given..piece_end]);
                let [number, command, ..] = self.panel.answer();
                let [taken, dropped, _, held] = self.panel.counts();
                given += taken;
                let begin = oldest + dropped;
                oldest = given - held;
                if number == WAITING {
                    break;
                }
                let found = Packet { kind: recording[begin], start: begin + 2, length: oldest - begin - 4, next: oldest };
                self.must("its low six type bits", recording, command, found.kind % 64);
                self.must("whether it is a stray", recording, number == STRAY, found.kind >= 64);
                heard.push(found);
                if dropped > 0 {
                    self.seen.other("a byte dropped before a packet");
                }
                if held > 0 {
                    self.seen.other("bytes held behind a packet");
                }
            }
        }
        if oldest < end {
            self.seen.other("bytes forgotten at an entry's end");
        }
    }

    /// Asks from a place on in a recording with these packets.
    fn ask(&mut self, recording: &[u8], place: usize, packets: &[Packet]) {
        let answer = self.next(recording, place);
        if packets.iter().any(|packet| packet.start - 2 < place && place < packet.next) {
            self.seen.other("a place inside a packet");
        }
        if answer.is_ok_and(|found| !packets.contains(&found)) {
            self.seen.other("a packet found from inside another");
        }
    }

    /// Asks from every place of the recording on, and from places behind it.
    fn every_place(&mut self, recording: &[u8], packets: &[Packet]) {
        for place in 0..=recording.len() + 2 {
            self.ask(recording, place, packets);
        }
        self.places_behind(recording, packets);
    }

    /// Asks from some places on: any, near packets, and behind the recording.
    fn some_places(&mut self, recording: &[u8], packets: &[Packet]) {
        for _ in 0..10 {
            let place = self.rng.between(0, recording.len() + 2);
            self.ask(recording, place, packets);
            if !packets.is_empty() {
                let near = self.rng.pick(packets).start + self.rng.below(8);
                self.ask(recording, near - 4, packets);
            }
        }
        self.places_behind(recording, packets);
    }

    /// "from one behind the recording on there is no more"; also where its low bytes are a place inside it.
    fn places_behind(&mut self, recording: &[u8], packets: &[Packet]) {
        let inside = packets.first().map_or(0, |packet| packet.start - 2);
        let size = recording.len();
        let wide = [65_536, 1 << 31, 1 << 32, 1 << 63].map(|high| high + inside);
        let ends = [size, size + 1, RECORDING_MOST, 1 << 32, usize::MAX - 3, usize::MAX - 1, usize::MAX];
        let want = fault(recording).map_or(NO_MORE, |(number, _)| number);
        for place in wide.into_iter().chain(ends).filter(|&place| place >= size) {
            let answer = self.next(recording, place);
            self.must("from a place behind the recording", recording, answer, Err(want));
        }
        if !packets.is_empty() {
            self.seen.other("a place whose low bytes are a packet's");
        }
    }

    /// Reads a small recording, and asks from every place of it.
    fn small(&mut self, recording: &[u8]) {
        let packets = self.read(recording).unwrap_or_default();
        self.every_place(recording, &packets);
    }

    /// Reads a recording, and asks from some places of it.
    fn any_size(&mut self, recording: &[u8]) {
        let packets = self.read(recording).unwrap_or_default();
        self.some_places(recording, &packets);
    }
}

// ---------------------------------------------------------------------------------------------------------------------------
// What was seen, so that a broken generator cannot pass
// ---------------------------------------------------------------------------------------------------------------------------

#[derive(Default)]
struct Seen {
    numbers: BTreeMap<u8, u64>,
    /// Of packets that are commands, and of strays.
    commands: u64,
    strays: u64,
    lengths: BTreeSet<usize>,
    other: BTreeMap<&'static str, u64>,
}

/// Further things that have to be seen.
const OTHER: [&str; 17] = [
    "a byte dropped before a packet",
    "bytes held behind a packet",
    "bytes forgotten at an entry's end",
    "a place inside a packet",
    "a packet found from inside another",
    "a place whose low bytes are a packet's",
    "no entries",
    "an entry without bytes",
    "an entry of the panel",
    "an entry of more than 4,096 bytes",
    "65,535 bytes, read",
    "22 of 65,536 bytes",
    "22, and the mark is wrong",
    "23, and the version is unknown",
    "24, and the direction is bad",
    "25 or 26 at the first entry",
    "25 or 26 behind a fine entry",
];

impl Seen {
    fn other(&mut self, name: &'static str) {
        *self.other.entry(name).or_default() += 1;
    }

    fn note(&mut self, recording: &[u8], answer: Answer) {
        *self.numbers.entry(answer.err().unwrap_or(DONE)).or_default() += 1;
        match answer {
            Ok(packet) => {
                let count = if packet.kind < 64 { &mut self.commands } else { &mut self.strays };
                *count += 1;
                self.lengths.insert(packet.length);
            }
            Err(NO_MORE) => {}
            Err(number) => self.note_fault(recording, number),
        }
    }

    fn note_fault(&mut self, recording: &[u8], number: u8) {
        let mark = recording.starts_with(b"PLR");
        let entries = recording.get(5..).unwrap_or_default();
        match number {
            TOO_LONG if !mark => self.other("22, and the mark is wrong"),
            TOO_LONG if recording.len() == RECORDING_MOST + 1 => self.other("22 of 65,536 bytes"),
            NO_MARK if recording.get(3..5).is_some_and(|version| version != [1, 0]) => {
                self.other("23, and the version is unknown");
            }
            NO_VERSION if entries.first().is_some_and(|&direction| direction > 1) => {
                self.other("24, and the direction is bad");
            }
            BAD_DIRECTION | CUT_SHORT => self.other(match fault(recording) {
                Some((_, 5)) => "25 or 26 at the first entry",
                _ => "25 or 26 behind a fine entry",
            }),
            _ => {}
        }
    }

    fn note_entries(&mut self, recording: &[u8], entries: &[recording_reading::Entry]) {
        let any = |seen: fn(&recording_reading::Entry) -> bool| entries.iter().any(seen);
        for (name, seen) in [
            ("no entries", entries.is_empty()),
            ("an entry without bytes", any(|entry| entry.from == entry.end)),
            ("an entry of the panel", any(|entry| entry.direction == recording_reading::PANEL)),
            ("an entry of more than 4,096 bytes", any(|entry| entry.end - entry.from > PIECE_MOST)),
            ("65,535 bytes, read", recording.len() == RECORDING_MOST),
        ] {
            if seen {
                self.other(name);
            }
        }
    }

    /// What was expected and not seen.
    fn missing(&self) -> Vec<String> {
        let mut missing = Vec::new();
        let mut want = |seen: bool, what: String| {
            if !seen {
                missing.push(what);
            }
        };
        for number in [NO_MORE, DONE, TOO_LONG, NO_MARK, NO_VERSION, BAD_DIRECTION, CUT_SHORT] {
            want(self.numbers.contains_key(&number), format!("number {number}"));
        }
        want(self.commands > 0, "a command".to_string());
        want(self.strays > 0, "a stray".to_string());
        for length in 0..=22 {
            want(self.lengths.contains(&length), format!("a packet of {length} data bytes"));
        }
        for name in OTHER {
            want(self.other.contains_key(name), name.to_string());
        }
        missing
    }

    fn print(&self) {
        print!("recordings, by number:");
        for (number, count) in &self.numbers {
            print!(" {number}: {count};");
        }
        println!(" packets that are commands: {}; strays: {}", self.commands, self.strays);
    }
}

// ---------------------------------------------------------------------------------------------------------------------------
// The worked cases of the papers, and the names of the header
// ---------------------------------------------------------------------------------------------------------------------------

fn host(bytes: &[u8]) -> Recorded {
    (FROM_HOST, bytes.to_vec())
}

fn panel_sent(bytes: &[u8]) -> Recorded {
    (FROM_PANEL, bytes.to_vec())
}

/// What stands behind the mark and the version.
fn behind_head(bytes: &[u8]) -> Vec<u8> {
    [&HEAD, bytes].concat()
}

/// Bytes with which no packet begins, and a packet at their end.
fn packet_at_end_of(size: usize) -> Vec<u8> {
    [&vec![255; size - PING.len()][..], &PING].concat()
}

/// Two host entries in a recording of this size, which is fine but for that.
fn two_entries_of(size: usize) -> Vec<u8> {
    let bytes = size - HEAD.len() - 3 - 3;
    let first = bytes / 2;
    recording(&[host(&packet_at_end_of(first)), host(&packet_at_end_of(bytes - first))])
}

/// Gives how many cases there are.
fn worked_cases(test: &mut Test) -> u64 {
    test.begin("the worked cases", FIXED_SEED, 0);
    worked_faults(test) + worked_packets(test) + worked_places(test)
}

/// What is refused, with which number, and at which byte.
fn worked_faults(test: &mut Test) -> u64 {
    let mut too_long = two_entries_of(RECORDING_MOST + 1);
    let mut rows: Vec<(&str, Vec<u8>, (u8, usize))> = vec![
        ("no bytes", b"".to_vec(), (23, 0)),
        ("a third of the mark", b"P".to_vec(), (23, 0)),
        ("two thirds of it", b"PL".to_vec(), (23, 0)),
        ("the mark alone", b"PLR".to_vec(), (24, 3)),
        ("half a version", b"PLR\x01".to_vec(), (24, 3)),
        ("another first letter", b"QLR\x01\x00".to_vec(), (23, 0)),
        ("another second letter", b"PMR\x01\x00".to_vec(), (23, 0)),
        ("another third letter", b"PLS\x01\x00".to_vec(), (23, 0)),
        ("small letters", b"plr\x01\x00".to_vec(), (23, 0)),
        ("another mark and version", b"PLS\x02\x00".to_vec(), (23, 0)),
        ("version 0", b"PLR\x00\x00".to_vec(), (24, 3)),
        ("version 2", b"PLR\x02\x00".to_vec(), (24, 3)),
        ("version 256", b"PLR\x00\x01".to_vec(), (24, 3)),
        ("version 257", b"PLR\x01\x01".to_vec(), (24, 3)),
        ("version 2 and a bad direction", b"PLR\x02\x00\x02".to_vec(), (24, 3)),
        ("a lone 0", behind_head(&[0]), (26, 5)),
        ("a lone 1", behind_head(&[1]), (26, 5)),
        ("a lone 2", behind_head(&[2]), (25, 5)),
        ("direction 255", behind_head(&[255, 0, 0]), (25, 5)),
        ("half a length", behind_head(&[0, 0]), (26, 5)),
        ("a length and no bytes", behind_head(&[0, 1, 0]), (26, 5)),
        ("a byte too few", behind_head(&[1, 3, 0, 9, 9]), (26, 5)),
        ("256 bytes said, none there", behind_head(&[0, 0, 1]), (26, 5)),
        ("65,535 bytes said", behind_head(&[0, 255, 255, 9]), (26, 5)),
        ("25 before 26 in one entry", behind_head(&[2, 9, 0]), (25, 5)),
        ("25, and 26 in the next entry", behind_head(&[2, 1, 0, 9, 0, 9, 0]), (25, 5)),
        ("26, and a 2 among its bytes", behind_head(&[0, 9, 0, 2, 0, 0]), (26, 5)),
        ("25 in the second entry", behind_head(&[0, 1, 0, 9, 2, 0, 0]), (25, 9)),
        ("26 in the second entry", behind_head(&[1, 0, 0, 0, 1, 0]), (26, 8)),
        ("25 behind a packet", [recording(&[host(&PING)]), vec![7]].concat(), (25, 12)),
        ("26 behind a packet", [recording(&[host(&PING)]), vec![0]].concat(), (26, 12)),
        ("65,536 bytes", too_long.clone(), (22, 65_535)),
        ("65,536 + 5 bytes", two_entries_of(65_541), (22, 65_535)),
        ("131,072 + 24 bytes", [two_entries_of(131_000), vec![0; 96]].concat(), (22, 65_535)),
    ];
    too_long[0] = b'Q';
    rows.push(("65,536 bytes with another mark", too_long.clone(), (22, 65_535)));
    too_long.fill(0);
    rows.push(("65,536 zeros", too_long, (22, 65_535)));
    for (name, bytes, (number, byte)) in &rows {
        expect(name, fault(bytes), Some((*number, *byte)));
        expect(name, test.read(bytes), Err(*number));
        for place in [3, 5, 8, 9, 15, bytes.len(), usize::MAX] {
            expect(name, test.next(bytes, place), Err(*number));
        }
    }
    rows.len() as u64
}

/// Type, where the data bytes begin, how many they are.
type Found = (u8, usize, usize);

/// What is found.
fn worked_packets(test: &mut Test) -> u64 {
    let text = [0x1F, 0x05, 0x00, 0x03, 0x41, 0x42, 0x43];
    let text = [&text[..], &reading::checksum(&text).to_le_bytes()].concat();
    let reply = packet(0x5F, &[]);
    expect("the recording of a text and its reply", recording(&[host(&text), panel_sent(&reply)]).len(), 24);

    let stray = [0x40, 0x00, 0x21, 0x49];
    let clear = [0x06, 0x00, 0x97, 0x5B];
    let strays = [packet(128, &[1]), packet(255, &[])].concat();
    let most = packet(0, &[7; 22]);
    let mut too_many = [&[0, 23][..], &[255; 23]].concat();
    too_many.extend(reading::checksum(&too_many).to_le_bytes());
    let rows: Vec<(&str, Vec<Recorded>, Vec<Found>)> = vec![
        ("no entries", vec![], vec![]),
        ("entries without bytes", vec![host(&[]), panel_sent(&[]), host(&[])], vec![]),
        ("behind entries without bytes", vec![host(&[]), panel_sent(&[]), host(&PING)], vec![(0, 16, 0)]),
        ("a text and its reply", vec![host(&text), panel_sent(&reply)], vec![(31, 10, 5)]),
        ("two in one entry", vec![host(&[PING, clear].concat())], vec![(0, 10, 0), (6, 14, 0)]),
        ("one in each of two", vec![host(&PING), host(&clear)], vec![(0, 10, 0), (6, 17, 0)]),
        ("22 data bytes", vec![host(&most)], vec![(0, 10, 22)]),
        ("23 are too many", vec![host(&too_many)], vec![]),
        ("P4, a byte dropped", vec![host(&[&[255], &PING[..]].concat())], vec![(0, 11, 0)]),
        ("P5, a stray", vec![host(&stray)], vec![(64, 10, 0)]),
        ("a report and an error", vec![host(&strays)], vec![(128, 10, 1), (255, 15, 0)]),
        ("P6, two held", vec![host(&[0, 22])], vec![]),
        ("forgotten before the next entry", vec![host(&[0, 22]), host(&PING)], vec![(0, 15, 0)]),
        ("never judged, and forgotten", vec![host(&[&[0, 22], &PING[..]].concat())], vec![]),
        ("judged with 20 bytes behind it", vec![host(&[&[0, 22], &PING[..], &[255; 20]].concat())], vec![(0, 12, 0)]),
        ("inside a wrong one", vec![host(&[&[9, 4], &PING[..], &[0, 0]].concat())], vec![(0, 12, 0)]),
        ("cut over two entries", vec![host(&PING[..2]), host(&PING[2..])], vec![]),
        ("cut by its last byte", vec![host(&PING[..3]), host(&PING[3..])], vec![]),
        ("cut by what the panel sent", vec![host(&PING[..2]), panel_sent(&stray), host(&PING[2..])], vec![]),
        ("what the panel sent", vec![panel_sent(&[PING, clear, stray].concat())], vec![]),
        ("behind what the panel sent", vec![panel_sent(&PING), host(&PING), panel_sent(&PING)], vec![(0, 17, 0)]),
        ("at the end of 4,097 bytes", vec![host(&packet_at_end_of(4_097))], vec![(0, 4_103, 0)]),
        ("at the end of 65,527 bytes", vec![host(&packet_at_end_of(65_527))], vec![(0, 65_533, 0)]),
    ];
    for (name, entries, want) in &rows {
        let bytes = recording(entries);
        expect(name, fault(&bytes), None);
        let found = test.read(&bytes).map(|packets| packets.iter().map(|p| (p.kind, p.start, p.length)).collect::<Vec<_>>());
        expect(name, found, Ok(want.clone()));
    }
    rows.len() as u64
}

/// What is found from which place on.
fn worked_places(test: &mut Test) -> u64 {
    let ping = |begin: usize| Ok(Packet { kind: 0, start: begin + 2, length: 0, next: begin + 4 });
    let twice = recording(&[panel_sent(&PING), host(&PING), host(&PING)]);
    // A packet with another among its data bytes, 8 to 15.
    let inside = recording(&[host(&packet(0, &PING))]);
    let outer = Ok(Packet { kind: 0, start: 10, length: 4, next: 16 });
    let rows: [(&str, &[u8], usize, Answer); 18] = [
        ("from the front", &twice, 0, ping(15)),
        ("from what the panel sent", &twice, 8, ping(15)),
        ("from the second entry's direction", &twice, 12, ping(15)),
        ("from its length", &twice, 13, ping(15)),
        ("from its first byte", &twice, 15, ping(15)),
        ("from its second byte", &twice, 16, ping(22)),
        ("from behind it", &twice, 19, ping(22)),
        ("from the third entry's first byte", &twice, 22, ping(22)),
        ("from the third entry's second byte", &twice, 23, Err(1)),
        ("from the recording's end", &twice, 26, Err(1)),
        ("from 65,536 + 15", &twice, 65_551, Err(1)),
        ("from 2^32 + 15", &twice, (1 << 32) + 15, Err(1)),
        ("from the last place", &twice, usize::MAX, Err(1)),
        ("the outer packet", &inside, 8, outer),
        ("from the outer packet's length", &inside, 9, ping(10)),
        ("the packet inside", &inside, 10, ping(10)),
        ("from inside that", &inside, 11, Err(1)),
        ("from behind both", &inside, 16, Err(1)),
    ];
    for (name, bytes, place, want) in rows {
        expect(name, test.next(bytes, place), want);
    }
    rows.len() as u64
}

/// Each name of the header that belongs to recordings stands for the number that a call returns. Gives how many names.
fn header_names(test: &mut Test) -> u64 {
    let mut header = Header::read(include_str!("../include/naupelys_host.h"), "NAUPELYS_HOST_");
    let most = header.number("RECORDING_MOST");
    let cases = [
        ("NO_MORE", HEAD.to_vec()),
        ("NO_MORE", two_entries_of(most)),
        ("TOO_LONG", two_entries_of(most + 1)),
        ("NO_MARK", b"PL".to_vec()),
        ("NO_VERSION", b"PLR".to_vec()),
        ("BAD_DIRECTION", behind_head(&[2])),
        ("CUT_SHORT", behind_head(&[0])),
    ];
    for (name, bytes) in cases {
        let number = test.next(&bytes, most).map_err(usize::from);
        expect(name, number, Err(header.number(name)));
    }
    let found = recording(&[host(&PING)]);
    expect("DONE", test.next(&found, 0).map(|_| usize::from(DONE)), Ok(header.number("DONE")));
    header.asked.len() as u64
}

// ---------------------------------------------------------------------------------------------------------------------------
// The sweeps
// ---------------------------------------------------------------------------------------------------------------------------

/// Packets in two host entries, with what the panel sent and an entry without bytes between them.
fn sample() -> Vec<Recorded> {
    vec![
        host(&[&[255], &packet(31, b"\x00\x03ABC")[..], &PING].concat()),
        panel_sent(&[packet(95, &[]), packet(64, &[])].concat()),
        host(&[]),
        host(&[packet(64, &[]), packet(0, &PING), vec![0, 22]].concat()),
    ]
}

fn sweeps(test: &mut Test) {
    let entries = sample();
    let bytes = recording(&entries);
    sweep_cuts(test, &entries, &bytes);

    test.begin("the sweep over bits", FIXED_SEED, 0);
    for at in 0..8 * bytes.len() {
        let mut flipped = bytes.clone();
        flipped[at / 8] ^= 1 << (at % 8);
        test.small(&flipped);
    }
    test.begin("the sweep over the bytes of the heads", FIXED_SEED, 0);
    let heads = heads(&entries);
    for at in (0..5).chain(heads.iter().flat_map(|&head| head..head + 3)) {
        for value in 0..=255 {
            let mut changed = bytes.clone();
            changed[at] = value;
            test.any_size(&changed);
        }
    }
    test.begin("the sweep over bytes behind the last entry", FIXED_SEED, 0);
    for value in 0..=255 {
        for more in 0..4 {
            let longer = [&bytes[..], &[value], &vec![value % 2; more]].concat();
            test.any_size(&longer);
        }
    }
    sweep_entry_sizes(test);
    sweep_sizes(test);
}

/// A recording is fine where it is cut between two entries, and nowhere else.
fn sweep_cuts(test: &mut Test, entries: &[Recorded], bytes: &[u8]) {
    test.begin("the sweep over cuts", FIXED_SEED, 0);
    let heads = heads(entries);
    for size in 0..=bytes.len() {
        let want = match size {
            0..3 => Some(NO_MARK),
            3 | 4 => Some(NO_VERSION),
            _ if size == bytes.len() || heads.contains(&size) => None,
            _ => Some(CUT_SHORT),
        };
        let cut = &bytes[..size];
        let read = test.read(cut);
        test.must("the number of a recording that is cut", cut, read.clone().err(), want);
        test.every_place(cut, &read.unwrap_or_default());
    }
}

/// A packet at the end of entries of many sizes, alone and behind another.
fn sweep_entry_sizes(test: &mut Test) {
    let sizes = (4..300).chain(510..514).chain(4_094..4_100).chain(8_191..8_194).chain(32_767..32_770);
    for size in sizes {
        test.begin("the sweep over the sizes of entries", FIXED_SEED, size as u64);
        let bytes = recording(&[host(&PING), panel_sent(&vec![0; size % 300]), host(&packet_at_end_of(size))]);
        let end = bytes.len();
        let packets = test.read(&bytes).unwrap_or_default();
        let places: Vec<(usize, usize)> = packets.iter().map(|packet| (packet.start, packet.next)).collect();
        test.must("where the packets stand", &bytes, places, vec![(10, 12), (end - 2, end)]);
        test.some_places(&bytes, &packets);
    }
}

/// Recordings of many sizes around the longest.
fn sweep_sizes(test: &mut Test) {
    for size in (65_530..65_545).chain([65_560, 98_304, 131_071, 131_072]) {
        test.begin("the sweep over sizes", FIXED_SEED, size as u64);
        let mut bytes = two_entries_of(size);
        let read = test.read(&bytes);
        let want = if size > RECORDING_MOST { Err(TOO_LONG) } else { Ok(2) };
        test.must("how many packets", &bytes, read.clone().map(|packets| packets.len()), want);
        test.some_places(&bytes, &read.unwrap_or_default());
        bytes[2] = b'S';
        test.any_size(&bytes);
    }
    // As many entries as there can be.
    test.begin("the sweep over sizes", FIXED_SEED, 0);
    let bytes = recording(&vec![host(&[]); (RECORDING_MOST - HEAD.len()) / 3]);
    test.any_size(&bytes);
    for last in 0..3 {
        test.any_size(&[&bytes[..], &[last]].concat());
    }
}

// ---------------------------------------------------------------------------------------------------------------------------
// The random sequences
// ---------------------------------------------------------------------------------------------------------------------------

fn sequence(test: &mut Test, seed: u64, number: u64) {
    test.begin("the random sequences", seed, number);
    if test.rng.one_in(100) {
        let size = test.rng.pick(&[4_200, 20_000, 65_534, 65_535, 65_535, 65_536, 65_537]);
        let entries = entries_of_size(&mut test.rng, size);
        test.any_size(&recording(&entries));
        let bytes = damaged(&mut test.rng, &entries);
        test.any_size(&bytes);
        return;
    }
    let count = test.rng.below(7);
    let entries = any_entries(&mut test.rng, count);
    let bytes = recording(&entries);
    if bytes.len() <= 300 {
        test.small(&bytes);
    } else {
        test.any_size(&bytes);
    }
    for _ in 0..4 {
        let bytes = damaged(&mut test.rng, &entries);
        test.any_size(&bytes);
    }
    let bytes = nonsense(&mut test.rng);
    test.any_size(&bytes);
    let n = test.rng.below(60);
    let bytes = test.rng.bytes(n);
    test.any_size(&behind_head(&bytes));
    test.any_size(&bytes);
}

fn main() {
    let arguments: Vec<u64> =
        std::env::args().skip(1).map(|text| text.parse().expect("the arguments are numbers: SEED SEQUENCE")).collect();
    let clock = SystemTime::now().duration_since(UNIX_EPOCH).map_or(1, |since| since.as_nanos() as u64);
    let second_seed = arguments.first().copied().unwrap_or(clock);
    let mut test = Test::new();

    if let Some(&number) = arguments.get(1) {
        sequence(&mut test, second_seed, number);
        println!("recordings: seed {second_seed}, sequence {number}: {} calls, no difference", test.calls);
        return;
    }

    println!("recordings: fixed seed {FIXED_SEED}, second seed {second_seed}");
    std::io::stdout().flush().ok();
    let start = Instant::now();
    let cases = worked_cases(&mut test) + header_names(&mut test);
    sweeps(&mut test);
    let swept = test.calls;
    for seed in [FIXED_SEED, second_seed] {
        for number in 0..SEQUENCES {
            sequence(&mut test, seed, number);
        }
    }
    test.seen.print();
    let missing = test.seen.missing();
    if !missing.is_empty() {
        println!("NOT SEEN, so the generator is broken: {}", missing.join("; "));
        exit(1);
    }
    println!(
        "recordings: no difference: {cases} worked cases, {} sequences; {} calls compared, {swept} of them in cases and \
         sweeps, and {} calls of the panel; {:.1} s",
        2 * SEQUENCES,
        test.calls,
        test.panel.calls,
        start.elapsed().as_secs_f64()
    );
}
