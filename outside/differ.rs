//! The differential test: the library and the reading get the same calls, and after every call the number returned and every
//! lent byte are compared. `differ` runs the worked cases, the sweeps, and random sequences from a fixed seed and from the
//! clock; `differ SEED` takes SEED in the clock's place; `differ SEED SEQUENCE` repeats that one sequence.

#[allow(dead_code)]
#[path = "common.rs"]
mod common;
#[allow(dead_code)]
#[path = "library.rs"]
mod library;
#[allow(dead_code)]
#[path = "reading.rs"]
mod reading;
#[allow(dead_code)]
#[path = "states.rs"]
mod states;
#[allow(dead_code)]
#[path = "traffic.rs"]
mod traffic;

use common::{expect, hex, print_difference, wrong_size, Buffer, Header, GUARD};
use reading::{checksum, FONT, LIST, PICTURE, PIECE_MOST, REGISTER, REPLY, SAID, STATE};
use states::{mark, search, set_right, spoil_sets, way_of_wrong_sets, WRONG_SETS};
use states::{possible_keys, program_font, random_font, random_register, random_state, spoil};
use states::{BOOT, FLASH, GLYPHS, GLYPHS_END, LIVE, PINS, SETS, SETTINGS, TEXT, UNFILED};
use std::collections::{BTreeMap, BTreeSet};
use std::io::Write;
use std::process::exit;
use std::time::{Instant, SystemTime, UNIX_EPOCH};
use traffic::{any_packet, code, honest_data, packet, traffic, Rng, COMMANDS};

const FIXED_SEED: u64 = 635;
const SEQUENCES: u64 = 24_000;

// ---------------------------------------------------------------------------------------------------------------------------
// What is lent to a call
// ---------------------------------------------------------------------------------------------------------------------------

/// The buffers that a call may write.
#[derive(Clone)]
struct Lent {
    state: Buffer,
    picture: Buffer,
    list: Buffer,
    reply: Buffer,
    faults: Buffer,
    said: Buffer,
}

impl Lent {
    fn named(&self) -> [(&'static str, &Buffer); 6] {
        [
            ("said", &self.said),
            ("state", &self.state),
            ("picture", &self.picture),
            ("list", &self.list),
            ("reply", &self.reply),
            ("register", &self.faults),
        ]
    }

    fn said(&self) -> Said {
        let bytes = self.said.bytes();
        let two = |at: usize| usize::from(u16::from_le_bytes([bytes[at], bytes[at + 1]]));
        Said {
            number: bytes[0],
            command: bytes[1],
            reason: bytes[2],
            place: bytes[3],
            taken: two(4),
            dropped: two(6),
            checked: u32::from_le_bytes([bytes[8], bytes[9], bytes[10], bytes[11]]),
            reply: usize::from(bytes[12]),
            cells: usize::from(bytes[13]),
        }
    }
}

#[derive(Clone, Copy, PartialEq, Debug)]
struct Said {
    number: u8,
    command: u8,
    reason: u8,
    place: u8,
    taken: usize,
    dropped: usize,
    checked: u32,
    reply: usize,
    cells: usize,
}

#[derive(Clone, Copy, Debug)]
enum Call {
    PowerOn,
    Line,
    Key(u32, bool),
    Pin(u32, bool),
    SymbolCells(u32),
}

// ---------------------------------------------------------------------------------------------------------------------------
// Both sides, compared
// ---------------------------------------------------------------------------------------------------------------------------

struct Test {
    part: &'static str,
    seed: u64,
    sequence: u64,
    in_sequence: u64,
    calls: u64,
    lists: u64,
    seen: Seen,
}

impl Test {
    /// Makes the call on both sides and gives back what both left. A difference ends the program.
    fn call(&mut self, call: Call, lent: Lent, piece: &[u8], font: &[u8]) -> Lent {
        self.calls += 1;
        self.in_sequence += 1;
        let nowhere = if self.calls.is_multiple_of(2) { std::ptr::null_mut() } else { std::ptr::without_provenance_mut(1) };

        let mut theirs = lent.clone();
        let mut their_piece = Buffer::new(piece);
        let mut their_font = Buffer::new(font);
        let (state_size, picture_size) = (theirs.state.size(), theirs.picture.size());
        let (list_size, reply_size, faults_size) = (theirs.list.size(), theirs.reply.size(), theirs.faults.size());
        let state = theirs.state.pointer(nowhere);
        let picture = theirs.picture.pointer(nowhere);
        let list = theirs.list.pointer(nowhere);
        let reply = theirs.reply.pointer(nowhere);
        let faults = theirs.faults.pointer(nowhere);
        let said = theirs.said.pointer(nowhere);
        let piece_pointer = their_piece.pointer(nowhere);
        let font_pointer = their_font.pointer(nowhere);
        // Safety: every pointer points to as many bytes as its length says, and no two buffers overlap.
        let their_number = unsafe {
            match call {
                Call::PowerOn => {
                    library::naupelys_power_on(state, state_size, picture, picture_size, font_pointer, font.len(), said)
                }
                Call::Line => library::naupelys_line(
                    state,
                    state_size,
                    piece_pointer,
                    piece.len(),
                    picture,
                    picture_size,
                    font_pointer,
                    font.len(),
                    list,
                    list_size,
                    reply,
                    reply_size,
                    faults,
                    faults_size,
                    said,
                ),
                Call::Key(key, down) => library::naupelys_key(state, state_size, key, down, reply, reply_size, said),
                Call::Pin(pin, high) => library::naupelys_pin(state, state_size, pin, high, said),
                Call::SymbolCells(glyph) => library::naupelys_symbol_cells(state, state_size, glyph, list, list_size, said),
            }
        };

        let mut ours = lent.clone();
        let mut our_said = [0; SAID];
        our_said.copy_from_slice(ours.said.bytes());
        let our_number = match call {
            Call::PowerOn => reading::power_on(ours.state.bytes_mut(), ours.picture.bytes_mut(), font, &mut our_said),
            Call::Line => reading::line(
                ours.state.bytes_mut(),
                piece,
                ours.picture.bytes_mut(),
                font,
                ours.list.bytes_mut(),
                ours.reply.bytes_mut(),
                ours.faults.bytes_mut(),
                &mut our_said,
            ),
            Call::Key(key, down) => reading::key(ours.state.bytes_mut(), key, down, ours.reply.bytes_mut(), &mut our_said),
            Call::Pin(pin, high) => reading::pin(ours.state.bytes_mut(), pin, high, &mut our_said),
            Call::SymbolCells(glyph) => {
                reading::symbol_cells(ours.state.bytes(), glyph, ours.list.bytes_mut(), &mut our_said)
            }
        };
        ours.said.bytes_mut().copy_from_slice(&our_said);

        if their_number != our_number {
            self.report(call, &lent, piece, font, &ours, &theirs);
            println!("  number returned: library {their_number}, reading {our_number}");
            exit(1);
        }
        for ((name, our), (_, their)) in ours.named().into_iter().zip(theirs.named()) {
            if our != their {
                self.report(call, &lent, piece, font, &ours, &theirs);
                print_difference(name, our, their);
                exit(1);
            }
        }
        if their_piece.bytes() != piece || their_font.bytes() != font {
            self.report(call, &lent, piece, font, &ours, &theirs);
            println!("  piece or font: written by the library");
            exit(1);
        }
        self.seen.note(call, &lent, &ours);
        ours
    }

    /// "After any calls each set equals what a search of the text finds": the sets of a state in its ranges, and the list of
    /// each glyph that the library gives and that the reading gives, are those that a search finds here.
    fn lists_are_the_search(&mut self, state: &[u8]) {
        if state[SETS..] != search(state) {
            self.not_the_search("the sets in the state", state);
        }
        let junk = self.calls as u8;
        for glyph in 0..8 {
            self.lists += 1;
            let mut want = [junk; GUARD + LIST + GUARD];
            let mut want_said = [0; SAID];
            want_said[0] = reading::DONE;
            for (cell, &code) in (0..).zip(&state[LIVE..LIVE + GLYPHS]) {
                if code == glyph || code == glyph + 8 {
                    want[GUARD + usize::from(want_said[13])] = cell;
                    want_said[13] += 1;
                }
            }
            let (mut theirs, mut ours) = ([junk; GUARD + LIST + GUARD], [junk; GUARD + LIST + GUARD]);
            let (mut their_said, mut our_said) = ([junk; SAID], [junk; SAID]);
            let their_list = &mut theirs[GUARD..GUARD + LIST];
            // Safety: every pointer points to as many bytes as its length says, and no two buffers overlap.
            let their_number = unsafe {
                library::naupelys_symbol_cells(
                    state.as_ptr(),
                    state.len(),
                    u32::from(glyph),
                    their_list.as_mut_ptr(),
                    their_list.len(),
                    their_said.as_mut_ptr(),
                )
            };
            let our_number = reading::symbol_cells(state, u32::from(glyph), &mut ours[GUARD..GUARD + LIST], &mut our_said);
            if (their_number, their_said, theirs) != (reading::DONE, want_said, want) {
                self.not_the_search("a list of the library", state);
            }
            if (our_number, our_said, ours) != (reading::DONE, want_said, want) {
                self.not_the_search("a list of the reading", state);
            }
        }
    }

    fn not_the_search(&self, what: &str, state: &[u8]) -> ! {
        println!();
        println!("NOT THE SEARCH in {}, seed {}, sequence {}: {what}", self.part, self.seed, self.sequence);
        println!("  after call {}; the text: {}", self.in_sequence, hex(&state[LIVE..LIVE + GLYPHS]));
        println!("  the sets: {}", hex(&state[SETS..]));
        exit(1);
    }

    fn report(&self, call: Call, lent: &Lent, piece: &[u8], font: &[u8], ours: &Lent, theirs: &Lent) {
        println!();
        println!("DIFFERENCE in {}, seed {}, sequence {}, call {}", self.part, self.seed, self.sequence, self.in_sequence);
        println!("  call: {call:?}");
        print!("  sizes: state {}, piece {}, font {}", lent.state.size(), piece.len(), font.len());
        for (name, buffer) in &lent.named()[2..] {
            print!(", {name} {}", buffer.size());
        }
        println!();
        if let [count, held @ ..] = lent.state.bytes() {
            println!("  held before: {count}, {}", hex(&held[..held.len().min(usize::from(*count).min(25))]));
        }
        if matches!(call, Call::Line) {
            println!("  piece: {}", hex(piece));
        }
        println!("  library said: {:?}", theirs.said());
        println!("  reading said: {:?}", ours.said());
    }
}

// ---------------------------------------------------------------------------------------------------------------------------
// What was seen, so that a broken generator cannot pass
// ---------------------------------------------------------------------------------------------------------------------------

struct Seen {
    /// By call, in the order power-on, line, key, pin, symbol cells.
    numbers: [[u64; 28]; 5],
    /// 10 for nothing but the sets, by call and by the way in which they are wrong.
    wrong_sets: [[u64; WRONG_SETS.len()]; 5],
    /// Lists that are not empty, by glyph.
    listed: [u64; 8],
    /// By command.
    done: [u64; 64],
    refused: [u64; 64],
    reasons: [u64; 6],
    /// By command, reason and place.
    keys: BTreeMap<[u8; 3], u64>,
    reports: [u64; 13],
    no_report: u64,
    held: [u64; 26],
    other: BTreeMap<&'static str, u64>,
}

/// Further things that have to be seen.
const OTHER: [&str; 52] = [
    "count raised",
    "free record taken",
    "unfiled, no room",
    "unfiled, count full",
    "unfiled at its end",
    "one cell listed",
    "80 cells listed",
    "text changed, none listed",
    "glyph changed, none listed",
    "glyph changed, cells listed",
    "reboot lists cells",
    "glyphs and codes changed, none listed",
    "a code over the one eight apart, none listed",
    "glyph changed, a cell of code 8 to 15 listed",
    "glyph changed, a cell of code 16 to 23 not listed",
    "packet from an empty piece",
    "above 65,535 checked",
    "above 4,000 dropped",
    "key above 255 refused",
    "key above 65,535 refused",
    "pin above 255 refused",
    "pin above 65,535 refused",
    "a pin bit of its own in each byte",
    "last levels above 31",
    "fell above 31",
    "rose above 31",
    "10 where 27 applies too",
    "10 where 14 applies too",
    "10 where 27 and 14 apply too",
    "10 for sets, where 27 and 14 apply too",
    "27 where 14 applies too",
    "glyph 8 refused",
    "glyph 255 refused",
    "glyph 256 refused",
    "glyph 4,294,967,295 refused",
    "glyph above 255 refused",
    "glyph above 65,535 refused",
    "a list of 0 bytes refused",
    "a list of 79 bytes refused",
    "a list of 81 bytes refused",
    "a glyph on no cell",
    "a glyph on one cell",
    "a glyph on 80 cells",
    "a glyph on cells of both its codes",
    "31 puts a cell into a set",
    "31 takes a cell out of a set",
    "31 moves a cell to another set",
    "31 writes another code of the same set",
    "6 empties sets",
    "5 brings other sets",
    "4 with other sets than the boot text's",
    "power-on empties sets",
];

impl Seen {
    fn nothing() -> Seen {
        Seen {
            numbers: [[0; 28]; 5],
            wrong_sets: [[0; WRONG_SETS.len()]; 5],
            listed: [0; 8],
            done: [0; 64],
            refused: [0; 64],
            reasons: [0; 6],
            keys: BTreeMap::new(),
            reports: [0; 13],
            no_report: 0,
            held: [0; 26],
            other: BTreeMap::new(),
        }
    }

    fn note(&mut self, call: Call, before: &Lent, after: &Lent) {
        let said = after.said();
        let kind = match call {
            Call::PowerOn => 0,
            Call::Line => 1,
            Call::Key(..) => 2,
            Call::Pin(..) => 3,
            Call::SymbolCells(_) => 4,
        };
        self.numbers[kind][usize::from(said.number)] += 1;
        if let (Call::Key(..), reading::DONE) = (call, said.number) {
            match said.reply {
                0 => self.no_report += 1,
                _ => self.reports[usize::from(after.reply.bytes()[2])] += 1,
            }
        }
        self.note_numbers(call, before, after);
        self.note_sets(kind, call, before, after);
        if !matches!(call, Call::Line) || said.number > reading::REFUSED {
            return;
        }
        let command = usize::from(said.command);
        self.held[usize::from(after.state.bytes()[0])] += 1;
        match said.number {
            reading::DONE => self.done[command] += 1,
            reading::REFUSED => {
                self.refused[command] += 1;
                self.reasons[usize::from(said.reason)] += 1;
                *self.keys.entry([said.command, said.reason, said.place]).or_default() += 1;
            }
            _ => {}
        }
        let (old, new) = (before.state.bytes(), after.state.bytes());
        let glyph = 9;
        let mut other = |name: &'static str, seen: bool| *self.other.entry(name).or_default() += u64::from(seen);
        if said.number == reading::REFUSED {
            let (old_register, new_register) = (before.faults.bytes(), after.faults.bytes());
            let record = (0..64).find(|i| old_register[7 * i..7 * i + 7] != new_register[7 * i..7 * i + 7]);
            let was_free = record.is_some_and(|i| old_register[7 * i + 3..7 * i + 7] == [0; 4]);
            let any_free = old_register.chunks(7).any(|record| record[3..] == [0; 4]);
            let key = [said.command, said.reason, said.place];
            let full_match = old_register.chunks(7).any(|record| record[..3] == key && record[3..] == [255; 4]);
            let at_end = old[UNFILED..LIVE] == [255; 4];
            other("count raised", record.is_some() && !was_free);
            other("free record taken", was_free);
            other("unfiled, no room", record.is_none() && !any_free && !full_match && !at_end);
            other("unfiled, count full", record.is_none() && full_match && !at_end);
            other("unfiled at its end", record.is_none() && at_end);
        }
        other("one cell listed", said.cells == 1);
        other("80 cells listed", said.cells == 80);
        let text = |state: &[u8]| state[LIVE + TEXT..LIVE + GLYPHS].to_vec();
        let glyphs = |state: &[u8]| state[LIVE + GLYPHS..LIVE + GLYPHS_END].to_vec();
        let (codes_differ, glyphs_differ) = (text(old) != text(new), glyphs(old) != glyphs(new));
        other("text changed, none listed", said.cells == 0 && codes_differ);
        other("glyph changed, none listed", said.cells == 0 && glyphs_differ);
        other("glyph changed, cells listed", said.cells > 0 && command == glyph);
        other("reboot lists cells", said.cells > 0 && command == 5);
        other("glyphs and codes changed, none listed", said.cells == 0 && codes_differ && glyphs_differ);
        let eight_apart = |(a, b): (&u8, &u8)| a == b || *a.max(b) < 16 && a.abs_diff(*b) == 8;
        let all_eight_apart = text(old).iter().zip(&text(new)).all(eight_apart);
        other("a code over the one eight apart, none listed", said.cells == 0 && codes_differ && all_eight_apart);
        if command == glyph && glyphs_differ {
            let row = glyphs(old).iter().zip(&glyphs(new)).position(|(a, b)| a != b).expect("some row differs");
            let listed = &after.list.bytes()[..said.cells];
            // Whether some cell of the code is listed, or some is not.
            let some = |code: usize, is: bool| {
                (0..).zip(text(new)).any(|(cell, shown)| usize::from(shown) == code && listed.contains(&cell) == is)
            };
            other("glyph changed, a cell of code 8 to 15 listed", some(row / 8 + 8, true));
            other("glyph changed, a cell of code 16 to 23 not listed", some(row / 8 + 16, false));
        }
        other("packet from an empty piece", said.number > reading::WAITING && said.taken == 0);
        other("above 65,535 checked", said.checked > 65_535);
        other("above 4,000 dropped", said.dropped > 4_000);
    }

    /// Numbers that are wider than a byte, and pins' bits.
    fn note_numbers(&mut self, call: Call, before: &Lent, after: &Lent) {
        let said = after.said();
        let mut other = |name: &'static str, seen: bool| *self.other.entry(name).or_default() += u64::from(seen);
        match call {
            // Only those whose low bytes alone would be a key or a pin.
            Call::Key(key, _) if said.number == reading::BAD_NUMBER => {
                other("key above 255 refused", key > 255 && key & 255 <= 5);
                other("key above 65,535 refused", key > 65_535 && key & 65_535 <= 5);
            }
            Call::Pin(pin, _) if said.number == reading::BAD_NUMBER => {
                other("pin above 255 refused", pin > 255 && pin & 255 <= 4);
                other("pin above 65,535 refused", pin > 65_535 && pin & 65_535 <= 4);
            }
            Call::Pin(..) if said.number == reading::DONE => {
                let pins = &after.state.bytes()[PINS..FLASH];
                other(
                    "a pin bit of its own in each byte",
                    (0..3).all(|at| pins[at] & !pins[(at + 1) % 3] & !pins[(at + 2) % 3] != 0),
                );
            }
            _ => {}
        }
        // Only those that nothing else makes out of range: the same state with the bits away is read.
        let state = before.state.bytes();
        if said.number == reading::BAD_STATE && state.len() == STATE && !matches!(call, Call::PowerOn) {
            for (at, name) in [(PINS, "last levels above 31"), (PINS + 1, "fell above 31"), (PINS + 2, "rose above 31")] {
                if state[at] > 31 {
                    let mut without = state.to_vec();
                    without[at] &= 31;
                    other(name, reading::pin(&mut without, 0, false, &mut [0; SAID]) == reading::DONE);
                }
            }
        }
    }

    /// The sets, and what is said of them.
    fn note_sets(&mut self, kind: usize, call: Call, before: &Lent, after: &Lent) {
        let said = after.said();
        let (old, new) = (before.state.bytes(), after.state.bytes());
        let mut other = |name: &'static str, seen: bool| *self.other.entry(name).or_default() += u64::from(seen);
        // Only those that nothing else makes out of range: the same state with the right sets is read.
        let mut way = None;
        if said.number == reading::BAD_STATE && old.len() == STATE {
            let mut right = old.to_vec();
            set_right(&mut right);
            if reading::pin(&mut right, 0, false, &mut [0; SAID]) == reading::DONE {
                way = way_of_wrong_sets(old);
                self.wrong_sets[kind][way.expect("nothing else is wrong")] += 1;
            }
        }
        match (call, said.number) {
            (Call::SymbolCells(glyph), reading::BAD_STATE) => {
                let (no_glyph, no_list) = (glyph > 7, before.list.size() != LIST);
                other("10 where 27 applies too", no_glyph && !no_list);
                other("10 where 14 applies too", !no_glyph && no_list);
                other("10 where 27 and 14 apply too", no_glyph && no_list);
                other("10 for sets, where 27 and 14 apply too", no_glyph && no_list && way.is_some());
            }
            (Call::SymbolCells(glyph), reading::BAD_GLYPH) => {
                other("27 where 14 applies too", before.list.size() != LIST);
                other("glyph 8 refused", glyph == 8);
                other("glyph 255 refused", glyph == 255);
                other("glyph 256 refused", glyph == 256);
                other("glyph 4,294,967,295 refused", glyph == u32::MAX);
                // Only those whose low bytes alone would be a glyph.
                other("glyph above 255 refused", glyph > 255 && glyph & 255 <= 7);
                other("glyph above 65,535 refused", glyph > 65_535 && glyph & 65_535 <= 7);
            }
            (Call::SymbolCells(_), reading::BAD_LIST) => {
                other("a list of 0 bytes refused", before.list.size() == 0);
                other("a list of 79 bytes refused", before.list.size() == 79);
                other("a list of 81 bytes refused", before.list.size() == 81);
            }
            (Call::SymbolCells(glyph), reading::DONE) => {
                let codes: BTreeSet<u8> =
                    after.list.bytes()[..said.cells].iter().map(|&cell| old[LIVE + usize::from(cell)]).collect();
                self.listed[glyph as usize] += u64::from(said.cells > 0);
                other("a glyph on no cell", said.cells == 0);
                other("a glyph on one cell", said.cells == 1);
                other("a glyph on 80 cells", said.cells == 80);
                other("a glyph on cells of both its codes", codes.len() == 2);
            }
            (Call::Line, reading::DONE) => {
                let cells: Vec<usize> = (0..80).filter(|&cell| old[LIVE + cell] != new[LIVE + cell]).collect();
                let some = |change: fn(u8, u8) -> bool| cells.iter().any(|cell| change(old[SETS + cell], new[SETS + cell]));
                let sets = |state: &[u8]| state[SETS..].to_vec();
                match said.command {
                    31 => {
                        other("31 puts a cell into a set", some(|was, is| was == 0 && is > 0));
                        other("31 takes a cell out of a set", some(|was, is| was > 0 && is == 0));
                        other("31 moves a cell to another set", some(|was, is| was > 0 && is > 0 && was != is));
                        other("31 writes another code of the same set", some(|was, is| was > 0 && was == is));
                    }
                    6 => other("6 empties sets", sets(old) != [0; 80]),
                    5 => other("5 brings other sets", sets(old) != sets(new) && sets(new) != [0; 80]),
                    4 => {
                        let of_boot_text = old[BOOT..BOOT + GLYPHS].iter().map(|&code| mark(code));
                        other("4 with other sets than the boot text's", of_boot_text.ne(sets(old)));
                    }
                    _ => {}
                }
            }
            (Call::PowerOn, reading::DONE) => other("power-on empties sets", old[SETS..] != [0; 80]),
            _ => {}
        }
    }

    /// Prints the counts; gives what was expected and not seen.
    fn print(&self) -> Vec<String> {
        let mut missing = Vec::new();
        let expected: [(&str, &[usize]); 5] = [
            ("power-on", &[3, 10, 12, 13]),
            ("line", &[1, 2, 3, 4, 10, 11, 12, 13, 14, 15, 16]),
            ("key", &[3, 10, 15, 17, 18]),
            ("pin", &[3, 10, 17]),
            ("symbol cells", &[3, 10, 27, 14]),
        ];
        for (kind, (name, numbers)) in expected.into_iter().enumerate() {
            print!("answers, {name}:");
            for &number in numbers {
                print!(" {number}: {};", self.numbers[kind][number]);
                if self.numbers[kind][number] == 0 {
                    missing.push(format!("{name} answering {number}"));
                }
            }
            println!();
        }
        for (kind, (name, _)) in expected.into_iter().enumerate().skip(1) {
            print!("10 for sets alone, {name}:");
            for (way, seen) in WRONG_SETS.into_iter().zip(self.wrong_sets[kind]) {
                print!(" {way}: {seen};");
                if seen == 0 {
                    missing.push(format!("{name} answering 10 for wrong sets: {way}"));
                }
            }
            println!();
        }
        print!("symbol cells with some, by glyph:");
        for (glyph, seen) in self.listed.into_iter().enumerate() {
            print!(" {glyph}: {seen};");
            if seen == 0 {
                missing.push(format!("cells of glyph {glyph}"));
            }
        }
        println!();
        print!("commands, done/refused:");
        for command in COMMANDS {
            let at = usize::from(command);
            print!(" {command}: {}/{};", self.done[at], self.refused[at]);
            if self.done[at] == 0 {
                missing.push(format!("command {command} done"));
            }
            // Command 0 allows every packet.
            if self.refused[at] == 0 && command != 0 {
                missing.push(format!("command {command} refused"));
            }
        }
        let unknown = (0..64u8).filter(|code| !COMMANDS.contains(code));
        println!(" unknown: {}", unknown.map(|code| self.refused[usize::from(code)]).sum::<u64>());
        print!("reasons:");
        for reason in 1..6 {
            print!(" {reason}: {};", self.reasons[reason]);
            if self.reasons[reason] == 0 {
                missing.push(format!("reason {reason}"));
            }
        }
        let keys = possible_keys();
        for key in &keys {
            if !self.keys.contains_key(key) {
                missing.push(format!("a refusal with command, reason, place {key:?}"));
            }
        }
        println!(" keys: {} of {}", self.keys.len(), keys.len());
        print!("key reports:");
        for report in 1..13 {
            print!(" {report}: {};", self.reports[report]);
            if self.reports[report] == 0 {
                missing.push(format!("key report {report}"));
            }
        }
        println!(" none: {}", self.no_report);
        for (count, &seen) in self.held.iter().enumerate() {
            if seen == 0 {
                missing.push(format!("{count} bytes held"));
            }
        }
        let names: Vec<String> =
            OTHER.iter().map(|name| format!("{name}: {}", self.other.get(name).copied().unwrap_or(0))).collect();
        println!("further: {}", names.join("; "));
        for name in OTHER {
            if self.other.get(name).copied().unwrap_or(0) == 0 {
                missing.push(name.to_string());
            }
        }
        missing
    }
}

// ---------------------------------------------------------------------------------------------------------------------------
// A panel with all that is lent to it
// ---------------------------------------------------------------------------------------------------------------------------

struct Desk {
    rng: Rng,
    state: Vec<u8>,
    picture: Vec<u8>,
    register: Vec<u8>,
    font: Vec<u8>,
    reply: Vec<u8>,
    list: Vec<u8>,
    queue: Vec<u8>,
}

impl Desk {
    fn random(mut rng: Rng) -> Desk {
        Desk {
            state: random_state(&mut rng),
            picture: rng.bytes(PICTURE),
            register: random_register(&mut rng),
            font: random_font(&mut rng),
            reply: Vec::new(),
            list: Vec::new(),
            queue: Vec::new(),
            rng,
        }
    }

    /// All as it stands, with junk in list, reply and said.
    fn lend(&mut self) -> Lent {
        Lent {
            state: Buffer::new(&self.state),
            picture: Buffer::new(&self.picture),
            list: Buffer::new(&self.rng.bytes(LIST)),
            reply: Buffer::new(&self.rng.bytes(REPLY)),
            faults: Buffer::new(&self.register),
            said: Buffer::new(&self.rng.bytes(SAID)),
        }
    }

    /// Makes a call and keeps what it left.
    fn call(&mut self, test: &mut Test, call: Call, piece: &[u8]) -> Said {
        let lent = self.lend();
        let left = test.call(call, lent, piece, &self.font);
        self.state.copy_from_slice(left.state.bytes());
        self.picture.copy_from_slice(left.picture.bytes());
        self.register.copy_from_slice(left.faults.bytes());
        let said = left.said();
        self.reply = left.reply.bytes()[..said.reply].to_vec();
        self.list = left.list.bytes()[..said.cells].to_vec();
        said
    }

    /// Makes a call that has something wrong, on copies: bit 0 state, 1 piece, 2 picture, 3 font, 4 list, 5 reply, 6 register.
    fn call_with_wrong(&mut self, test: &mut Test, call: Call, piece: &[u8], wrong: usize) -> Said {
        let mut lent = self.lend();
        let rng = &mut self.rng;
        let mut resized = |buffer: &[u8]| {
            let mut bytes = buffer.to_vec();
            let size = wrong_size(rng, bytes.len());
            let more = rng.bytes(size.saturating_sub(bytes.len()));
            bytes.extend(more);
            bytes.truncate(size);
            bytes
        };
        for (bit, buffer) in
            [(0, &mut lent.state), (2, &mut lent.picture), (4, &mut lent.list), (5, &mut lent.reply), (6, &mut lent.faults)]
        {
            if wrong & 1 << bit != 0 {
                *buffer = Buffer::new(&resized(buffer.bytes()));
            }
        }
        let font = if wrong & 8 != 0 { resized(&self.font) } else { self.font.clone() };
        if wrong & 1 != 0 && rng.flag() {
            // The right size, but out of its ranges.
            let mut state = self.state.clone();
            for _ in 0..rng.pick(&[1, 1, 2, 5]) {
                spoil(rng, &mut state);
            }
            lent.state = Buffer::new(&state);
        }
        let piece = if wrong & 2 != 0 {
            let size = match rng.below(8) {
                0..=2 => PIECE_MOST + 1,
                3 => 2 * PIECE_MOST,
                4 => PIECE_MOST + rng.between(2, 300),
                5 => 65_536 + rng.between(0, 20),
                _ => rng.between(PIECE_MOST + 1, 9000),
            };
            let mut long = traffic(rng, 40);
            long.resize(size, 0x16);
            long
        } else {
            piece.to_vec()
        };
        test.call(call, lent, &piece, &font).said()
    }

    /// Symbol cells with a list of this size.
    fn symbol_cells(&mut self, test: &mut Test, glyph: u32, size: usize) -> Said {
        let mut lent = self.lend();
        lent.list = Buffer::new(&self.rng.bytes(size));
        test.call(Call::SymbolCells(glyph), lent, &[], &self.font).said()
    }

    /// The number of a glyph, more often of one that some cell draws.
    fn glyph(&mut self) -> u32 {
        let drawn: Vec<u8> = self.state[SETS..].iter().copied().filter(|&mark| (1..=8).contains(&mark)).collect();
        if drawn.is_empty() || self.rng.one_in(4) {
            self.rng.number(7)
        } else {
            u32::from(self.rng.pick(&drawn) - 1)
        }
    }

    fn any_call(&mut self) -> Call {
        let glyph = self.glyph();
        let rng = &mut self.rng;
        match rng.below(8) {
            0 => Call::Key(rng.number(5), rng.flag()),
            1 => Call::Pin(rng.number(4), rng.flag()),
            2 => Call::SymbolCells(glyph),
            3 if rng.one_in(4) => Call::Key(rng.no_number(5), rng.flag()),
            3 if rng.one_in(3) => Call::Pin(rng.no_number(4), rng.flag()),
            3 if rng.flag() => Call::SymbolCells(rng.no_number(7)),
            3 => Call::PowerOn,
            _ => Call::Line,
        }
    }

    /// One step of a random sequence.
    fn step(&mut self, test: &mut Test) {
        match self.rng.below(100) {
            0..=9 => {
                let key = if self.rng.one_in(12) { self.rng.no_number(5) } else { self.rng.number(5) };
                let down = self.rng.flag();
                self.call(test, Call::Key(key, down), &[]);
            }
            10..=17 => {
                let pin = if self.rng.one_in(12) { self.rng.no_number(4) } else { self.rng.number(4) };
                let high = self.rng.flag();
                self.call(test, Call::Pin(pin, high), &[]);
            }
            18 if self.rng.one_in(3) => {
                self.call(test, Call::PowerOn, &[]);
            }
            19..=23 => {
                let call = self.any_call();
                let wrong = match self.rng.below(3) {
                    0 => self.rng.below(128),
                    _ => 1 << self.rng.below(7),
                };
                let n = self.rng.below(30).min(self.queue.len());
                let piece = self.queue[..n].to_vec();
                self.call_with_wrong(test, call, &piece, wrong);
            }
            24 => self.font = random_font(&mut self.rng),
            25 => self.rng.fill(&mut self.picture),
            26 if self.rng.one_in(3) => self.state = random_state(&mut self.rng),
            27 if self.rng.one_in(3) => self.register = random_register(&mut self.rng),
            28..=30 => {
                let glyph = if self.rng.one_in(6) { self.rng.no_number(7) } else { self.glyph() };
                self.call(test, Call::SymbolCells(glyph), &[]);
            }
            _ => self.next_piece(test),
        }
    }

    /// The next piece of the queue, cut somehow; the call ends where it will.
    fn next_piece(&mut self, test: &mut Test) {
        if self.queue.is_empty() {
            let n = if self.rng.one_in(300) { 5000 } else { self.rng.between(1, 80) };
            self.queue = traffic(&mut self.rng, n);
        }
        let all = self.queue.len().min(PIECE_MOST);
        let n = match self.rng.below(8) {
            0 => 0,
            1 => 1,
            2 => self.rng.between(1, 4),
            3 => self.rng.between(1, 30),
            _ => all,
        };
        let piece = self.queue[..n.min(all)].to_vec();
        let said = self.call(test, Call::Line, &piece);
        self.queue.drain(..said.taken);
    }
}

fn sequence(test: &mut Test, seed: u64, number: u64) {
    test.seed = seed;
    test.sequence = number;
    test.in_sequence = 0;
    let mut desk = Desk::random(Rng::for_sequence(seed, number));
    if desk.rng.flag() {
        desk.call(test, Call::PowerOn, &[]);
        test.lists_are_the_search(&desk.state);
        if desk.rng.flag() {
            desk.register.fill(0);
        }
    }
    for _ in 0..desk.rng.between(10, 70) {
        desk.step(test);
        test.lists_are_the_search(&desk.state);
    }
}

// ---------------------------------------------------------------------------------------------------------------------------
// The worked cases of the paper
// ---------------------------------------------------------------------------------------------------------------------------

/// Name, bytes, what is said, reply, held afterwards.
type LineCase = (&'static str, &'static [u8], Said, &'static [u8], u8);

/// Name, command, data; number, reason and place.
type CommandCase = (&'static str, u8, &'static [u8], (u8, u8, u8));

/// P1 to P10, the cases behind them, and the published checksums. Gives how many.
fn worked_cases(test: &mut Test) -> u64 {
    test.part = "the worked cases";
    let mut cases = 0;
    let mut rng = Rng(1);
    let mut at_power_on = |test: &mut Test| {
        let mut desk = Desk::random(Rng(rng.next()));
        desk.font = program_font();
        desk.register.fill(0);
        desk.call(test, Call::PowerOn, &[]);
        desk
    };
    let none = Said { number: 1, command: 0, reason: 0, place: 0, taken: 0, dropped: 0, checked: 0, reply: 0, cells: 0 };

    let rows: [LineCase; 7] = [
        (
            "P1",
            &[0x00, 0x00, 0x47, 0x0F],
            Said { number: 3, taken: 4, checked: 2, reply: 4, ..none },
            &[0x40, 0x00, 0x21, 0x49],
            0,
        ),
        (
            "P2",
            &[0x06, 0x00, 0x97, 0x5B],
            Said { number: 3, command: 6, taken: 4, checked: 2, reply: 4, ..none },
            &[0x46, 0x00, 0xF1, 0x1D],
            0,
        ),
        (
            "P3",
            &[0x06, 0x01, 0x00, 0xCD, 0x09],
            Said { number: 4, command: 6, reason: 2, place: 1, taken: 5, checked: 3, reply: 4, ..none },
            &[0xC6, 0x00, 0x3D, 0x91],
            0,
        ),
        (
            "P4",
            &[0xFF, 0x00, 0x00, 0x47, 0x0F],
            Said { number: 3, taken: 5, dropped: 1, checked: 4, reply: 4, ..none },
            &[0x40, 0x00, 0x21, 0x49],
            0,
        ),
        ("P5", &[0x40, 0x00, 0x21, 0x49], Said { number: 2, taken: 4, checked: 2, ..none }, &[], 0),
        ("P6", &[0x00, 0x16], Said { number: 1, taken: 2, ..none }, &[], 2),
        ("P7", &[0x00, 0x17], Said { number: 1, taken: 2, dropped: 1, ..none }, &[], 1),
    ];
    for (name, bytes, said, reply, held) in rows {
        let mut desk = at_power_on(test);
        expect(name, desk.call(test, Call::Line, bytes), said);
        expect(name, desk.reply.clone(), reply.to_vec());
        expect(name, desk.state[0], held);
        cases += 1;
    }

    let rows: [CommandCase; 17] = [
        ("P8, contrast 254", 13, &[254], (3, 0, 0)),
        ("P8, contrast 255", 13, &[255], (4, 3, 2)),
        ("P9, one character", 31, &[19, 0, 65], (3, 0, 0)),
        ("P9, two", 31, &[19, 0, 65, 65], (4, 4, 5)),
        ("glyph 7", 9, &[7, 0, 0, 0, 0, 0, 0, 0, 0], (3, 0, 0)),
        ("glyph 8", 9, &[8, 0, 0, 0, 0, 0, 0, 0, 0], (4, 3, 2)),
        ("row byte 63", 9, &[0, 0, 0, 0, 0, 0, 0, 0, 63], (3, 0, 0)),
        ("row byte 64", 9, &[0, 0, 0, 0, 0, 0, 0, 0, 64], (4, 3, 10)),
        ("address 120", 10, &[120], (3, 0, 0)),
        ("address 121", 10, &[121], (4, 3, 2)),
        ("reboot", 5, &[8, 18, 99], (3, 0, 0)),
        ("reset of the host", 5, &[12, 28, 97], (4, 5, 2)),
        ("power of the host", 5, &[3, 11, 95], (4, 5, 2)),
        ("config of pin 5", 34, &[5, 0, 0], (4, 3, 4)),
        ("config 6", 34, &[0, 0, 6], (4, 3, 4)),
        ("a fan command", 17, &[0, 0, 0, 0], (4, 1, 0)),
        ("text of 20", 31, &[0, 3, 1, 2, 3, 4, 5, 6, 7, 8, 9, 10, 11, 12, 13, 14, 15, 16, 17, 18, 19, 20], (3, 0, 0)),
    ];
    for (name, command, data, want) in rows {
        let mut desk = at_power_on(test);
        let said = desk.call(test, Call::Line, &packet(command, data));
        expect(name, (said.number, said.reason, said.place), want);
        cases += 1;
    }

    let mut desk = at_power_on(test);
    let write = packet(31, &[3, 1, 0]);
    let glyph = packet(9, &[0, 1, 1, 1, 1, 1, 1, 1, 1]);
    for (step, bytes, list) in [("text", &write, vec![23]), ("glyph", &glyph, vec![23]), ("again", &glyph, vec![])] {
        expect("P10", (step, desk.call(test, Call::Line, bytes).number), (step, 3));
        expect("P10", (step, desk.list.clone()), (step, list));
        cases += 1;
    }

    // Order 2: step, command and data; the cells listed, and the data of the reply.
    let mut desk = at_power_on(test);
    let rows: [(&str, u8, &[u8], &[u8], &[u8]); 12] = [
        ("0 written", 31, &[3, 1, 0], &[23], &[]),
        ("8 over 0", 31, &[3, 1, 8], &[], &[]),
        ("8 read as 8", 10, &[163], &[], &[163, 8, 32, 32, 32, 32, 32, 32, 32]),
        ("1, 9, 17 and 15 written", 31, &[0, 0, 1, 9, 17, 15], &[0, 1, 2, 3], &[]),
        ("9 written at the end", 31, &[19, 3, 9], &[79], &[]),
        ("glyph 1", 9, &[1, 63, 0, 0, 0, 0, 0, 0, 1], &[0, 1, 79], &[]),
        ("glyph 1 again", 9, &[1, 63, 0, 0, 0, 0, 0, 0, 1], &[], &[]),
        ("glyph 7", 9, &[7, 1, 2, 3, 4, 5, 6, 7, 8], &[3], &[]),
        ("stored", 4, &[], &[], &[]),
        ("9, 1, 16 and 7 over 1, 9, 17 and 15", 31, &[0, 0, 9, 1, 16, 7], &[2], &[]),
        ("reboot", 5, &[8, 18, 99], &[2], &[]),
        ("the codes that were stored", 10, &[128], &[], &[128, 1, 9, 17, 15, 32, 32, 32, 32]),
    ];
    for (step, command, data, list, reply) in rows {
        expect("order 2", (step, desk.call(test, Call::Line, &packet(command, data)).number), (step, 3));
        expect("order 2", (step, desk.list.clone()), (step, list.to_vec()));
        expect("order 2", (step, desk.reply.clone()), (step, packet(64 + command, reply)));
        cases += 1;
    }
    expect("code 15 draws glyph 7", &desk.picture[24..32], &[1, 2, 3, 4, 5, 6, 7, 8]);
    expect("code 17 draws the font", &desk.picture[16..24], &[17; 8]);

    let mut desk = at_power_on(test);
    cases += symbol_cases(test, &mut desk);

    // The line program's sample: offset, number, command, reason and place of each event.
    let bytes = [0xFF, 0x00, 0x00, 0x47, 0x0F, 0x06, 0x01, 0x00, 0xCD, 0x09];
    let mut desk = at_power_on(test);
    let (mut read, mut dropped, mut checked, mut events) = (0, 0, 0, Vec::new());
    loop {
        let said = desk.call(test, Call::Line, &bytes[read..]);
        (read, dropped, checked) = (read + said.taken, dropped + said.dropped, checked + said.checked);
        if said.number == 1 {
            break;
        }
        let length = if said.reason == 2 { 5 } else { 4 };
        events.push((read - length, said.number, said.command, said.reason, said.place, said.cells));
    }
    expect("the program's sample", events, vec![(1, 3, 0, 0, 0, 0), (5, 4, 6, 2, 1, 0)]);
    expect("the program's sample", (read, dropped, desk.state[0], checked), (10, 1, 0, 7));

    expect("checksum of 123456789", checksum(b"123456789"), 0x906E);
    expect("checksum of the data sheets", checksum(b"\x07\x10This is a test. "), 0x93FA);
    expect("possible keys", possible_keys().len(), 106);
    cases + 4
}

/// Step, command and data; its number; a glyph, and the cells that it is on then.
type SymbolCase = (&'static str, u8, &'static [u8], u8, u32, &'static [u8]);

/// Order 4, from power-on. Gives how many cases.
fn symbol_cases(test: &mut Test, desk: &mut Desk) -> u64 {
    let mut cases = 0;
    let done = Said { number: 3, command: 0, reason: 0, place: 0, taken: 0, dropped: 0, checked: 0, reply: 0, cells: 0 };

    let rows: [SymbolCase; 21] = [
        ("nothing written", 0, &[], 3, 0, &[]),
        ("0 and 8 written at the end", 31, &[18, 3, 0, 8], 3, 0, &[78, 79]),
        ("no other glyph is there", 0, &[], 3, 1, &[]),
        ("8 over 0, 0 over 8", 31, &[18, 3, 8, 0], 3, 0, &[78, 79]),
        ("1 over 0", 31, &[19, 3, 1], 3, 0, &[78]),
        ("and then glyph 1 is there", 0, &[], 3, 1, &[79]),
        ("a text that does not fit is refused", 31, &[19, 3, 0, 0], 4, 1, &[79]),
        ("cleared", 6, &[], 3, 0, &[]),
        ("and glyph 1 is gone too", 0, &[], 3, 1, &[]),
        ("7, 15, 16 and 7 written", 31, &[0, 0, 7, 15, 16, 7], 3, 7, &[0, 1, 3]),
        ("16 draws no glyph", 0, &[], 3, 0, &[]),
        ("glyph 7 set", 9, &[7, 1, 2, 3, 4, 5, 6, 7, 8], 3, 7, &[0, 1, 3]),
        ("stored", 4, &[], 3, 7, &[0, 1, 3]),
        ("32, 6, 14 and 255 over them", 31, &[0, 0, 32, 6, 14, 255], 3, 7, &[]),
        ("the boot text is not searched", 0, &[], 3, 6, &[1, 2]),
        ("7 at the end", 31, &[19, 3, 7], 3, 7, &[79]),
        ("no reboot, other bytes", 5, &[8, 18, 98], 4, 7, &[79]),
        ("reboot", 5, &[8, 18, 99], 3, 7, &[0, 1, 3]),
        ("and glyph 6 is gone", 0, &[], 3, 6, &[]),
        ("cleared, and the boot text is not searched", 6, &[], 3, 7, &[]),
        ("reboot again", 5, &[8, 18, 99], 3, 7, &[0, 1, 3]),
    ];
    for (step, command, data, number, glyph, cells) in rows {
        expect("order 4", (step, desk.call(test, Call::Line, &packet(command, data)).number), (step, number));
        let said = desk.call(test, Call::SymbolCells(glyph), &[]);
        expect("order 4", (step, said), (step, Said { cells: cells.len(), ..done }));
        expect("order 4", (step, desk.list.clone()), (step, cells.to_vec()));
        test.lists_are_the_search(&desk.state);
        cases += 1;
    }

    // "10, ... 27 glyph above 7, then 14": glyph, size of the list, and the number; then with sets that no longer fit the text.
    let state = desk.state.clone();
    let rows =
        [(7, 80, 3), (8, 80, 27), (7, 79, 14), (8, 79, 27), (0, 81, 14), (u32::MAX, 0, 27), (256, 80, 27), (0, 0, 14)];
    for (glyph, size, number) in rows {
        expect("order 4, refusals", (glyph, size, desk.symbol_cells(test, glyph, size).number), (glyph, size, number));
        desk.state[SETS + 2] = 1;
        expect("order 4, 10 first", desk.symbol_cells(test, glyph, size), Said { number: 10, ..done });
        desk.state.copy_from_slice(&state);
        cases += 2;
    }

    // "10, now also for sets that differ from that search", for every call that checks 10. The boot text has glyph 7 in cells 0,
    // 1 and 3, the live text glyph 2 in cell 5.
    for piece in [packet(6, &[]), packet(31, &[5, 0, 10])] {
        desk.call(test, Call::Line, &piece);
    }
    let right = desk.state.clone();
    let cell_5 = |byte: u8| std::array::from_fn(|cell| if cell == 5 { byte } else { 0 });
    let rows: [(&str, u8, [u8; 80]); 9] = [
        ("the sets of the live text", 3, cell_5(3)),
        ("no cell in a set", 10, [0; 80]),
        ("glyph for 1 + glyph", 10, cell_5(2)),
        ("the code for the glyph", 10, cell_5(11)),
        ("a bit that means nothing", 10, cell_5(128 + 3)),
        ("a cell on the left", 10, std::array::from_fn(|cell| 3 * u8::from(cell == 4))),
        ("a cell on the right", 10, std::array::from_fn(|cell| 3 * u8::from(cell == 6))),
        ("a cell too many, the last", 10, std::array::from_fn(|cell| 3 * u8::from(cell == 5 || cell == 79))),
        ("the sets of the boot text", 10, std::array::from_fn(|cell| 8 * u8::from([0, 1, 3].contains(&cell)))),
    ];
    for (name, number, sets) in rows {
        for call in [Call::Line, Call::Key(0, true), Call::Pin(0, true), Call::SymbolCells(2)] {
            desk.state.copy_from_slice(&right);
            desk.state[SETS..].copy_from_slice(&sets);
            expect("order 4, sets", (name, desk.call(test, call, &packet(1, &[])).number), (name, number));
            cases += 1;
        }
    }
    cases
}

// ---------------------------------------------------------------------------------------------------------------------------
// The names of the header
// ---------------------------------------------------------------------------------------------------------------------------

/// Each name of the header stands for the place where the calls put what it names. Gives how many names.
fn header_names(test: &mut Test) -> u64 {
    test.part = "the header's names";
    let mut header = Header::read(include_str!("../include/naupelys.h"), "NAUPELYS_");
    let sizes = [
        ("STATE", STATE),
        ("PIECE_MOST", PIECE_MOST),
        ("PICTURE", PICTURE),
        ("FONT", FONT),
        ("LIST", LIST),
        ("REPLY", REPLY),
        ("REGISTER", REGISTER),
        ("SAID", SAID),
        ("SETTINGS", SETTINGS),
        ("RECORD", REGISTER / 64),
        ("RECORDS", 64),
        ("LAYOUT", 3),
    ];
    for (name, size) in sizes {
        expect(name, header.number(name), size);
    }
    let numbers = ["WAITING", "STRAY", "DONE", "REFUSED"].into_iter().zip(1..);
    let refused = ["BAD_STATE", "BAD_PIECE", "BAD_PICTURE", "BAD_FONT", "BAD_LIST", "BAD_REPLY", "BAD_REGISTER"];
    let refused = refused.into_iter().chain(["BAD_NUMBER", "KEY_AS_TOLD"]).zip(10..);
    for (name, number) in numbers.chain(refused).chain([("BAD_GLYPH", 27)]) {
        expect(name, header.number(name), number);
    }

    let mut desk = Desk::random(Rng(2));
    desk.call(test, Call::PowerOn, &[]);
    desk.register.fill(0);
    let factory = desk.state[LIVE..BOOT].to_vec();
    let live = header.number("STATE_LIVE");

    // Command, data, and where its last bytes come to stand.
    let glyph = [2, 1, 2, 3, 4, 5, 6, 7, 8];
    let settings: [(u8, &[u8], &'static str, usize, usize); 12] = [
        (31, &[3, 1, 65], "SETTINGS_TEXT", 23, 1),
        (9, &glyph, "SETTINGS_GLYPHS", 16, 8),
        (11, &[17, 2], "SETTINGS_COLUMN", 0, 2),
        (11, &[16, 1], "SETTINGS_ROW", 0, 1),
        (12, &[3], "SETTINGS_STYLE", 0, 1),
        (13, &[201], "SETTINGS_CONTRAST", 0, 1),
        (14, &[77], "SETTINGS_BACKLIGHT", 0, 1),
        (23, &[11, 22], "SETTINGS_PRESS_MASK", 0, 2),
        (23, &[12, 23], "SETTINGS_RELEASE_MASK", 0, 1),
        (34, &[7, 51], "SETTINGS_LEVELS", 7, 1),
        (34, &[3, 52, 13], "SETTINGS_CONFIGS", 3, 1),
        (2, &[9; 16], "STATE_FLASH", 0, 16),
    ];
    for (command, data, name, index, length) in settings {
        let start = header.number(name) + index + if name == "STATE_FLASH" { 0 } else { live };
        desk.call(test, Call::Line, &packet(command, data));
        expect(name, &desk.state[start..start + length], &data[data.len() - length..]);
    }
    // Codes 13 and 32 are in cells 23 and 24: the one draws glyph 5, the other none.
    desk.call(test, Call::Line, &packet(31, &[3, 1, 13, 32]));
    let sets = header.number("STATE_SETS");
    expect("STATE_SETS", &desk.state[sets + 22..sets + 25], &[0, 6, 0]);
    let boot = header.number("STATE_BOOT");
    expect("STATE_BOOT", desk.state[boot..boot + SETTINGS].to_vec(), factory);
    desk.call(test, Call::Line, &packet(4, &[]));
    expect("STATE_BOOT", desk.state[boot..boot + SETTINGS].to_vec(), desk.state[live..live + SETTINGS].to_vec());

    // Key 4 and then key 2 are pressed, key 4 is let go. Pins 0 and 3 go high, pin 3 low.
    let keys = [(4, true), (2, true), (4, false)].map(|(key, down)| Call::Key(key, down));
    let pins = [(0, true), (3, true), (3, false)].map(|(pin, high)| Call::Pin(pin, high));
    for call in keys.into_iter().chain(pins) {
        desk.call(test, call, &[]);
    }
    let bits = [
        ("STATE_KEYS_DOWN", 4),
        ("STATE_KEYS_PRESSED", 20),
        ("STATE_KEYS_RELEASED", 16),
        ("STATE_PINS_LAST", 1),
        ("STATE_PINS_FELL", 8),
        ("STATE_PINS_ROSE", 9),
    ];
    for (name, byte) in bits {
        expect(name, desk.state[header.number(name)], byte);
    }

    // A refusal is filed, a second one finds no room, and two bytes are held.
    let refusal = packet(13, &[255]);
    desk.call(test, Call::Line, &refusal);
    for (name, byte) in [("RECORD_COMMAND", 13), ("RECORD_REASON", 3), ("RECORD_PLACE", 2), ("RECORD_COUNT", 1)] {
        expect(name, desk.register[header.number(name)], byte);
    }
    desk.register.fill(255);
    desk.call(test, Call::Line, &refusal);
    expect("STATE_UNFILED", desk.state[header.number("STATE_UNFILED")], 1);
    desk.call(test, Call::Line, &[0x1F, 0x05]);
    expect("STATE_HELD_COUNT", desk.state[header.number("STATE_HELD_COUNT")], 2);
    expect("STATE_HELD", desk.state[header.number("STATE_HELD")], 0x1F);

    // A byte is dropped, and a text that does not fit is refused; then one that fits is written.
    desk.state[0] = 0;
    let long = [&[255][..], &packet(31, &[19, 0, 65, 66])[..]].concat();
    let said = [
        ("SAID_NUMBER", 4),
        ("SAID_COMMAND", 31),
        ("SAID_REASON", 4),
        ("SAID_PLACE", 5),
        ("SAID_TAKEN", 9),
        ("SAID_DROPPED", 1),
        ("SAID_CHECKED", 6),
        ("SAID_REPLY", 4),
    ];
    let lent = desk.lend();
    let left = test.call(Call::Line, lent, &long, &program_font());
    for (name, byte) in said {
        expect(name, left.said.bytes()[header.number(name)], byte);
    }
    let lent = desk.lend();
    let left = test.call(Call::Line, lent, &packet(31, &[0, 0, 33, 34, 35]), &program_font());
    expect("SAID_CELLS", left.said.bytes()[header.number("SAID_CELLS")], 3);

    let all: BTreeSet<&str> = header.numbers.keys().copied().collect();
    expect("names of the header that were tried", header.asked.clone(), all);
    header.asked.len() as u64
}

// ---------------------------------------------------------------------------------------------------------------------------
// The sweeps
// ---------------------------------------------------------------------------------------------------------------------------

/// Goes through single bytes, sizes and numbers one by one.
fn sweeps(test: &mut Test) {
    let mut number = 0;
    let mut fresh = |test: &mut Test, part: &'static str| {
        number += 1;
        test.part = part;
        test.sequence = number;
        test.in_sequence = 0;
        Desk::random(Rng::for_sequence(FIXED_SEED, number))
    };

    for offset in 0..STATE {
        let mut desk = fresh(test, "the sweep over states");
        let base = random_state(&mut desk.rng);
        for value in 0..=255 {
            let key = Call::Key(desk.rng.number(5), desk.rng.flag());
            let pin = Call::Pin(desk.rng.number(4), desk.rng.flag());
            let glyph = if desk.rng.flag() { u32::from(value % 8) } else { desk.glyph() };
            let piece = if value % 4 == 0 { any_packet(&mut desk.rng) } else { Vec::new() };
            for call in [Call::Line, key, pin, Call::SymbolCells(glyph)] {
                desk.state.copy_from_slice(&base);
                desk.state[offset] = value;
                desk.call(test, call, &piece);
                if (LIVE..LIVE + GLYPHS).contains(&offset) {
                    // The same text with its own sets.
                    desk.state.copy_from_slice(&base);
                    desk.state[offset] = value;
                    set_right(&mut desk.state);
                    desk.call(test, call, &piece);
                }
            }
        }
        desk.call(test, Call::PowerOn, &[]);
    }

    for kind in 0..=255 {
        let mut desk = fresh(test, "the sweep over types and lengths");
        for length in 0..=22 {
            desk.state = random_state(&mut desk.rng);
            desk.state[0] = 0;
            for most in [255, 3] {
                let data: Vec<u8> = (0..length).map(|_| desk.rng.up_to(most)).collect();
                desk.call(test, Call::Line, &packet(kind, &data));
            }
        }
    }

    for command in COMMANDS {
        for index in 0..22 {
            let mut desk = fresh(test, "the sweep over data bytes");
            for value in 0..=255 {
                let mut data = honest_data(&mut desk.rng, command);
                for _ in 0..20 {
                    if data.len() <= index {
                        data = honest_data(&mut desk.rng, command);
                    }
                }
                if data.len() <= index {
                    break;
                }
                if value % 16 == 0 {
                    desk.state = random_state(&mut desk.rng);
                    desk.state[0] = 0;
                }
                data[index] = value;
                desk.call(test, Call::Line, &packet(command, &data));
            }
        }
    }

    for column in 0..=20 {
        let mut desk = fresh(test, "the sweep over texts");
        for row in 0..=4 {
            for n in 1..=20 {
                desk.state = random_state(&mut desk.rng);
                desk.state[0] = 0;
                let mut data = vec![column, row];
                data.extend((0..n).map(|_| code(&mut desk.rng)));
                desk.call(test, Call::Line, &packet(31, &data));
            }
        }
    }

    for cell in 0..80 {
        let mut desk = fresh(test, "the sweep over codes");
        for code in 0..=255 {
            if code % 32 == 0 {
                desk.state = random_state(&mut desk.rng);
                desk.state[0] = 0;
            }
            desk.call(test, Call::Line, &packet(31, &[cell % 20, cell / 20, code]));
            test.lists_are_the_search(&desk.state);
        }
    }

    for pin in 0..=13 {
        let mut desk = fresh(test, "the sweep over configs");
        for config in 0..=255 {
            desk.state[0] = 0;
            let level = if config % 8 == 7 { 101 } else { desk.rng.up_to(100) };
            desk.call(test, Call::Line, &packet(34, &[pin, level, config]));
            desk.call(test, Call::Line, &packet(35, &[pin]));
        }
    }

    // Every number of a byte, and those that would be one of them if their high bytes were lost.
    let wider = [256, 512, 0xFF00, 65_536, 0x00FF_0000, 0x0100_0000, 0x8000_0000, 0xFFFF_FF00];
    let wide = wider.into_iter().flat_map(|high| (0..=8).map(move |low| high + low));
    for value in (0..=255).chain(wide) {
        let mut desk = fresh(test, "the sweep over keys, pins and glyphs");
        for _ in 0..8 {
            let state = random_state(&mut desk.rng);
            for flag in [false, true] {
                for call in [Call::Key(value, flag), Call::Pin(value, flag), Call::SymbolCells(value)] {
                    desk.state.copy_from_slice(&state);
                    desk.call(test, call, &[]);
                }
            }
        }
    }

    // Glyphs and sizes of the list, with a state in its ranges, with wrong sets, with another wrong value, and of a wrong size.
    for glyph in (0..=16).chain([255, 256, 263, 65_535, 65_536, 0x0100_0000, 0x8000_0000, u32::MAX]) {
        let mut desk = fresh(test, "the sweep over symbol cells");
        for size in (0..=3).chain(78..=82).chain([40, 160, 255, 256, 336, 65_536, 65_616]) {
            let right = random_state(&mut desk.rng);
            desk.state.copy_from_slice(&right);
            desk.symbol_cells(test, glyph, size);
            spoil_sets(&mut desk.rng, &mut desk.state);
            desk.symbol_cells(test, glyph, size);
            desk.state.copy_from_slice(&right);
            spoil(&mut desk.rng, &mut desk.state);
            desk.symbol_cells(test, glyph, size);
            for state_size in [0, STATE - 80, STATE - 1, STATE + 1, STATE + 80] {
                desk.state = right.clone();
                desk.state.resize(state_size, 0);
                desk.symbol_cells(test, glyph, size);
            }
            desk.state = right;
        }
    }

    // Every way of wrong sets, for every call.
    for number in 0..2_000 {
        let mut desk = fresh(test, "the sweep over wrong sets");
        let key = Call::Key(desk.rng.number(5), number % 2 == 0);
        let pin = Call::Pin(desk.rng.number(4), number % 2 == 0);
        spoil_sets(&mut desk.rng, &mut desk.state);
        let piece = any_packet(&mut desk.rng);
        for call in [Call::Line, key, pin, Call::SymbolCells(desk.rng.number(7))] {
            expect("wrong sets", desk.call(test, call, &piece).number, reading::BAD_STATE);
        }
    }

    for wrong in 0..128 {
        let mut desk = fresh(test, "the sweep over sizes");
        for _ in 0..60 {
            desk.state = random_state(&mut desk.rng);
            let piece = if desk.rng.one_in(4) { Vec::new() } else { any_packet(&mut desk.rng) };
            desk.call_with_wrong(test, Call::Line, &piece, wrong);
            let call = desk.any_call();
            desk.call_with_wrong(test, call, &piece, wrong);
        }
    }

    for value in 0..=255u8 {
        let mut desk = fresh(test, "the sweep over runs");
        for (most, size) in [(PIECE_MOST, PIECE_MOST), (7, 120), (1, 60)] {
            desk.state = random_state(&mut desk.rng);
            desk.queue = vec![value; size];
            desk.queue.extend(any_packet(&mut desk.rng));
            while !desk.queue.is_empty() {
                let piece = desk.queue[..most.min(desk.queue.len())].to_vec();
                let said = desk.call(test, Call::Line, &piece);
                desk.queue.drain(..said.taken);
            }
        }
        for size in [PIECE_MOST - 1, PIECE_MOST] {
            let piece = desk.rng.bytes(size);
            desk.call(test, Call::Line, &piece);
        }
    }
}

fn main() {
    let arguments: Vec<u64> =
        std::env::args().skip(1).map(|text| text.parse().expect("the arguments are numbers: SEED SEQUENCE")).collect();
    let clock = SystemTime::now().duration_since(UNIX_EPOCH).map_or(1, |since| since.as_nanos() as u64);
    let second_seed = arguments.first().copied().unwrap_or(clock);
    let mut test =
        Test { part: "", seed: FIXED_SEED, sequence: 0, in_sequence: 0, calls: 0, lists: 0, seen: Seen::nothing() };

    if let Some(&number) = arguments.get(1) {
        test.part = "the random sequences";
        sequence(&mut test, second_seed, number);
        println!("seed {second_seed}, sequence {number}: {} calls, no difference", test.calls);
        return;
    }

    println!("fixed seed {FIXED_SEED}, second seed {second_seed}");
    std::io::stdout().flush().ok();
    let start = Instant::now();
    let cases = worked_cases(&mut test) + header_names(&mut test);
    sweeps(&mut test);
    let swept = test.calls;
    test.part = "the random sequences";
    for seed in [FIXED_SEED, second_seed] {
        for number in 0..SEQUENCES {
            sequence(&mut test, seed, number);
        }
    }
    let missing = test.seen.print();
    if !missing.is_empty() {
        println!("NOT SEEN, so the generator is broken: {}", missing.join("; "));
        exit(1);
    }
    println!(
        "no difference: {cases} worked cases, {} sequences; {} calls compared, {swept} of them in cases and sweeps; {} lists of \
         a glyph are what a search finds; {:.1} s",
        2 * SEQUENCES,
        test.calls,
        test.lists,
        start.elapsed().as_secs_f64()
    );
}
