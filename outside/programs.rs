//! What the programs have to write, worked out by the reading.
//!
//! `programs input` writes a long input for the line program, `programs line < INPUT` prints what the line program has to print
//! of it. `programs host` writes what a host sends to the emulator, `programs glass GLASS REPLIES < HOST` looks at what the
//! emulator drew and replied.
//!
//! `programs recordings FOLDER` writes recordings into a folder, `programs recording < RECORDING` prints what the recording
//! program has to print of one, and on standard error how the line there has to end. `programs noise BYTES` writes what comes
//! from a host over a bad line, `programs slowly < HOST` writes it byte by byte. `programs recorded RECORDING REPLIES < HOST`
//! looks at the emulator's recording of its line, `programs full RECORDING REPLIES < HOST` at one that had no room for all.

#[allow(dead_code)]
#[path = "reading.rs"]
mod reading;
#[allow(dead_code)]
#[path = "recorded.rs"]
mod recorded;
#[path = "recording_reading.rs"]
mod recording_reading;
#[allow(dead_code)]
#[path = "traffic.rs"]
mod traffic;

use reading::{checksum, FONT, LIST, PICTURE, REGISTER, REPLY, SAID, STATE};
use recorded::{entries_of_size, entry, recording, FROM_HOST, FROM_PANEL};
use recording_reading::{fault, next, Entry, Packet, HOST, PANEL, RECORDING_MOST};
use std::collections::BTreeSet;
use std::fmt::Write as _;
use std::io::{Read, Write};
use std::path::Path;
use std::process::exit;
use std::time::Duration;
use traffic::{packet, Rng};

/// Ends the program: what was to be seen is not there.
fn fail(what: &str) -> ! {
    eprintln!("programs: {what}");
    exit(1);
}

fn demand(seen: bool, what: &str) {
    if !seen {
        fail(what);
    }
}

// ---------------------------------------------------------------------------------------------------------------------------
// A panel from power-on, with an empty register
// ---------------------------------------------------------------------------------------------------------------------------

struct Desk {
    font: [u8; FONT],
    state: [u8; STATE],
    picture: [u8; PICTURE],
    faults: [u8; REGISTER],
}

/// What one call said and wrote.
struct Event {
    number: u8,
    command: u8,
    reason: u8,
    place: u8,
    taken: usize,
    dropped: usize,
    checked: usize,
    reply: Vec<u8>,
    cells: usize,
}

impl Desk {
    fn at_power_on(font: [u8; FONT]) -> Desk {
        let mut desk = Desk { font, state: [0; STATE], picture: [0; PICTURE], faults: [0; REGISTER] };
        reading::power_on(&mut desk.state, &mut desk.picture, &desk.font, &mut [0; SAID]);
        desk
    }

    fn held(&self) -> usize {
        usize::from(self.state[0])
    }

    fn call(&mut self, piece: &[u8]) -> Event {
        let (mut list, mut reply, mut said) = ([0; LIST], [0; REPLY], [0; SAID]);
        let (state, picture, faults) = (&mut self.state, &mut self.picture, &mut self.faults);
        let number = reading::line(state, piece, picture, &self.font, &mut list, &mut reply, faults, &mut said);
        let two = |at: usize| usize::from(said[at]) + 256 * usize::from(said[at + 1]);
        Event {
            number,
            command: said[1],
            reason: said[2],
            place: said[3],
            taken: two(4),
            dropped: two(6),
            checked: two(8) + 65_536 * two(10),
            reply: reply[..usize::from(said[12])].to_vec(),
            cells: usize::from(said[13]),
        }
    }

    /// All calls on the bytes in pieces of such a size, up to the one that waits.
    fn hear(&mut self, bytes: &[u8], size: usize, mut each: impl FnMut(&Desk, &Event)) {
        for piece in bytes.chunks(size) {
            let mut rest = piece;
            loop {
                let event = self.call(rest);
                rest = &rest[event.taken..];
                each(self, &event);
                if event.number == reading::WAITING {
                    break;
                }
            }
        }
    }
}

// ---------------------------------------------------------------------------------------------------------------------------
// The line program
// ---------------------------------------------------------------------------------------------------------------------------

/// "with a font whose rows for code c all equal c mod 64".
fn program_font() -> [u8; FONT] {
    std::array::from_fn(|at| (at / 8 % 64) as u8)
}

/// The program reads so many bytes at once, or fewer.
const READ: usize = 4096;

/// How the reading cuts the line: otherwise than the program does.
const CUT: usize = 997;

/// What the line program prints of an input, and what was met on the way.
#[derive(Default)]
struct Lines {
    text: String,
    kinds: [usize; 5],
    reasons: [usize; 6],
    /// Packets that listed one cell, some, all 80.
    one: usize,
    some: usize,
    all: usize,
    /// Packets that stand on both sides of a read.
    across: usize,
    dropped: usize,
    held: usize,
}

fn line_program(input: &[u8], font: [u8; FONT]) -> Lines {
    let mut lines = Lines { text: "event offset kind command reason place cells\n".into(), ..Lines::default() };
    let (mut number, mut read, mut left, mut checked) = (0, 0, 0, 0);
    let mut desk = Desk::at_power_on(font);
    desk.hear(input, CUT, |desk, event| {
        let offset = left + event.dropped;
        read += event.taken;
        // A byte that was read and is not held has left the line, dropped or in a packet.
        left = read - desk.held();
        lines.dropped += event.dropped;
        checked += event.checked;
        let kind = match event.number {
            reading::STRAY => "stray",
            reading::DONE => "done",
            reading::REFUSED => "refused",
            _ => return,
        };
        let (front, sum) = input[offset..left].split_at(left - offset - 2);
        demand(checksum(front).to_le_bytes() == sum, "there is no packet where the reading found one");
        number += 1;
        let Event { command, reason, place, cells, .. } = event;
        writeln!(lines.text, "{number} {offset} {kind} {command} {reason} {place} {cells}").expect("a string has room");
        lines.kinds[usize::from(event.number)] += 1;
        lines.reasons[usize::from(event.reason)] += 1;
        match event.cells {
            0 => {}
            1 => lines.one += 1,
            80 => lines.all += 1,
            _ => lines.some += 1,
        }
        lines.across += usize::from(offset / READ != (left - 1) / READ);
    });
    lines.held = desk.held();
    let Lines { dropped, held, .. } = lines;
    writeln!(lines.text, "end {read} skipped {dropped} held {held} checked {checked}").expect("a string has room");
    lines
}

/// Text over all four rows, one code in each.
fn rows_of(codes: [u8; 4]) -> Vec<u8> {
    (0..).zip(codes).flat_map(|(row, code)| packet(31, &[&[0, row][..], &[code; 20][..]].concat())).collect()
}

/// Packets of all kinds, strays, damage and noise, from a fixed seed; at the end the front of a packet that does not come.
fn long_input() -> Vec<u8> {
    let mut rng = Rng(635);
    let mut input = Vec::new();
    while input.len() < 9 * READ {
        input.extend(traffic::traffic(&mut rng, 300));
        // Every cell is drawn by glyph 1, by either of its codes, and the glyph is changed.
        input.extend(rows_of([1, 9, 1, 9]));
        input.extend(packet(9, &[&[1][..], &[1 + rng.up_to(31); 8][..]].concat()));
        // The same code again, codes of which the font's rows are 32 and 64 apart, and both codes of a glyph.
        for code in [65, 65, 97, 33, 161, 15, 7, 16, 8] {
            input.extend(packet(31, &[&[0, rng.up_to(3)][..], &[code; 20][..]].concat()));
        }
        // Cut off before each read's end, with a packet on both of its sides.
        let end = input.len().next_multiple_of(READ);
        if end - input.len() < 300 {
            let filler = packet(0, &[]);
            while end - input.len() > 10 {
                input.extend_from_slice(&filler);
            }
            input.extend(packet(31, &[&[0, rng.up_to(3)][..], &[7; 20][..]].concat()));
        }
    }
    input.extend(&packet(2, &[9; 16])[..7]);
    input
}

/// Fails where the input would let a wrong program pass.
fn check_input(input: &[u8]) {
    let lines = line_program(input, program_font());
    demand(input.len() > READ, "the input is read at once");
    demand(lines.kinds[2..].iter().all(|&kind| kind > 100), "the input has few strays, done or refused packets");
    demand(lines.reasons[1..].iter().all(|&reason| reason > 0), "the input has not every reason");
    demand(lines.one > 0 && lines.some > 0 && lines.all > 0, "the input has not lists of every size");
    demand(lines.across > 4, "the input has no packets across reads");
    demand(lines.dropped > 0 && lines.held > 0, "the input has nothing dropped, or nothing held at its end");
    let half: [u8; FONT] = std::array::from_fn(|at| (at / 8 % 32) as u8);
    demand(line_program(input, half).text != lines.text, "the input does not tell a font of c mod 32");
}

// ---------------------------------------------------------------------------------------------------------------------------
// The emulator's glass
// ---------------------------------------------------------------------------------------------------------------------------

/// The letters of the emulator's font that the host below writes: five dots by seven, left column and lowest line free.
const LETTERS: [(u8, [&str; 8]); 4] = [
    (b'F', [".#####", ".#....", ".#....", ".####.", ".#....", ".#....", ".#....", "......"]),
    (b'J', ["...###", "....#.", "....#.", "....#.", "....#.", ".#..#.", "..##..", "......"]),
    (b'L', [".#....", ".#....", ".#....", ".#....", ".#....", ".#....", ".#####", "......"]),
    // The filled block.
    (214, [".#####"; 8]),
];

/// The rows of a glyph from its dots: "bit 5 is left".
fn rows(dots: &[&str; 8]) -> [u8; 8] {
    dots.map(|line| line.chars().fold(0, |row, dot| 2 * row + u8::from(dot == '#')))
}

fn glass_font() -> [u8; FONT] {
    let mut font = [0; FONT];
    for (code, dots) in &LETTERS {
        font[8 * usize::from(*code)..][..8].copy_from_slice(&rows(dots));
    }
    font
}

/// Glyphs and letters that look otherwise in a mirror, at every edge of the glass.
fn host() -> Vec<u8> {
    let flag = rows(&["######", "#....#", "#..###", "#....#", "######", "#.....", "#.....", "#....."]);
    let stairs = rows(&[".....#", "....##", "...#.#", "..#..#", ".#...#", "######", "......", "#....."]);
    let glyph = |index: u8, rows: [u8; 8]| packet(9, &[&[index][..], &rows[..]].concat());
    let text = |column: u8, row: u8, codes: &[u8]| packet(31, &[&[column, row][..], codes].concat());
    [
        packet(6, &[]),
        packet(0, b"alive"),
        text(0, 0, &[0, 1, b'F', b'L']),
        glyph(0, flag),
        glyph(1, stairs),
        text(18, 0, &[1, 0]),
        packet(10, &[64 + 12]),
        text(0, 1, b"FJL"),
        text(7, 1, &[214, b' ', 214, 7, 0]),
        text(13, 1, &[8, 9, 15, 16, b'F']),
        // Nothing changes, a packet is refused, and a reply is none of the panel's business.
        glyph(0, flag),
        packet(13, &[255]),
        packet(64, &[]),
        text(0, 2, &[1; 20]),
        text(6, 2, &[9; 3]),
        glyph(1, flag),
        glyph(1, stairs),
        text(0, 3, &[0]),
        text(0, 3, &[8]),
        glyph(7, flag),
        text(19, 3, &[b'J']),
        text(4, 2, b"        "),
    ]
    .concat()
}

/// What a terminal shows.
struct Screen {
    /// Rows and columns count from 1.
    characters: [[char; Screen::COLUMNS + 1]; Screen::ROWS + 1],
    row: usize,
    column: usize,
    braille: usize,
}

impl Screen {
    const ROWS: usize = 11;
    const COLUMNS: usize = 62;

    fn new() -> Screen {
        Screen { characters: [[' '; Screen::COLUMNS + 1]; Screen::ROWS + 1], row: 1, column: 1, braille: 0 }
    }

    /// Carries out what was written to the terminal: characters, ESC [2J, and ESC [row;columnH.
    fn write(&mut self, text: &str) {
        let mut rest = text;
        while let Some(character) = rest.chars().next() {
            rest = &rest[character.len_utf8()..];
            if character != '\u{1b}' {
                demand(self.row <= Screen::ROWS && self.column <= Screen::COLUMNS, "the glass leaves its terminal");
                self.characters[self.row][self.column] = character;
                self.column += 1;
                self.braille += usize::from(('\u{2800}'..='\u{28ff}').contains(&character));
                continue;
            }
            let end = rest.find(['H', 'J']).unwrap_or_else(|| fail("the glass has a sequence that no terminal knows"));
            let sequence = &rest[..=end];
            rest = &rest[end + 1..];
            if sequence == "[2J" {
                self.characters = [[' '; Screen::COLUMNS + 1]; Screen::ROWS + 1];
                continue;
            }
            let place = sequence.strip_prefix('[').and_then(|s| s.strip_suffix('H')).and_then(|s| s.split_once(';'));
            let place = place.and_then(|(row, column)| Some((row.parse().ok()?, column.parse().ok()?)));
            (self.row, self.column) = place.unwrap_or_else(|| fail("the glass has a sequence that no terminal knows"));
            demand(self.row > 0 && self.column > 0, "the glass leaves its terminal");
        }
    }
}

/// Whether a dot of the glass is on, 120 dots by 32: "top line first; bit 5 is left".
fn dot(picture: &[u8; PICTURE], x: usize, y: usize) -> bool {
    let cell = 20 * (y / 8) + x / 6;
    picture[8 * cell + y % 8] >> (5 - x % 6) & 1 == 1
}

/// The braille character of two dots by four. Unicode counts the dots down the left column, then down the right one, and the
/// fourth line last.
fn braille(picture: &[u8; PICTURE], x: usize, y: usize) -> char {
    let order = [(0, 0), (0, 1), (0, 2), (1, 0), (1, 1), (1, 2), (0, 3), (1, 3)];
    let dots: u32 = (0..8).map(|bit| u32::from(dot(picture, x + order[bit].0, y + order[bit].1)) << bit).sum();
    char::from_u32(0x2800 + dots).expect("a braille character")
}

/// The character of a row and column: a frame of 62 by 10 around the dots.
fn glass_at(picture: &[u8; PICTURE], row: usize, column: usize) -> char {
    match (row, column) {
        (1, 1) => '┌',
        (1, 62) => '┐',
        (10, 1) => '└',
        (10, 62) => '┘',
        (1 | 10, _) => '─',
        (11, _) => ' ',
        (_, 1 | 62) => '│',
        _ => braille(picture, 2 * (column - 2), 4 * (row - 2)),
    }
}

fn check_glass(host: &[u8], glass: &str, replies: &[u8]) {
    let mut desk = Desk::at_power_on(glass_font());
    let (mut listed, mut expected) = (80, Vec::new());
    desk.hear(host, CUT, |_, event| {
        listed += event.cells;
        expected.extend_from_slice(&event.reply);
    });
    demand(replies == expected, "the emulator's replies are others");

    let mut screen = Screen::new();
    screen.write(glass);
    for row in 1..=Screen::ROWS {
        for column in 1..=Screen::COLUMNS {
            let (is, should) = (screen.characters[row][column], glass_at(&desk.picture, row, column));
            demand(is == should, &format!("row {row}, column {column} of the glass is {is} and should be {should}"));
        }
    }
    demand((screen.row, screen.column) == (Screen::ROWS, 1), "the cursor is not below the frame");
    // A cell is three characters by two; all are drawn at power-on, and then those that are listed.
    demand(screen.braille == 6 * listed, "the emulator draws other cells than those listed");
}

// ---------------------------------------------------------------------------------------------------------------------------
// The recording program
// ---------------------------------------------------------------------------------------------------------------------------

/// All packets of a recording that is fine.
fn packets_of(recording: &[u8]) -> Vec<Packet> {
    let mut place = 0;
    let step = || {
        let packet = next(recording, place).ok()?;
        place = packet.next;
        Some(packet)
    };
    std::iter::from_fn(step).collect()
}

/// What the recording program prints, and how its line on standard error ends, if there is one.
fn recording_program(recording: &[u8]) -> (String, String) {
    let entries = match recording_reading::entries(recording) {
        Ok(entries) => entries,
        Err((number, byte)) => return (format!("refused {number}\n"), format!("at byte {byte}\n")),
    };
    let mut text = String::from("packet entry offset type length data\n");
    let packets = packets_of(recording);
    for (number, packet) in (1..).zip(&packets) {
        let Packet { kind, start, length, .. } = packet;
        let offset = start - 2;
        let entry = 1 + entries.iter().take_while(|entry| entry.end <= offset).count();
        let data = hexadecimal(&recording[*start..start + length]);
        writeln!(text, "{number} {entry} {offset} {kind} {length} {data}").expect("a string has room");
    }
    let (packets, entries, bytes) = (packets.len(), entries.len(), recording.len());
    writeln!(text, "end packets {packets} entries {entries} bytes {bytes}").expect("a string has room");
    (text, String::new())
}

fn hexadecimal(data: &[u8]) -> String {
    if data.is_empty() {
        return "-".into();
    }
    data.iter().map(|byte| format!("{byte:02x}")).collect()
}

/// Recordings that are fine, the longest among them, and one with each fault and more, each with its name.
fn recordings() -> Vec<(&'static str, Vec<u8>)> {
    let mut rng = Rng(635);
    let ping = packet(0, &[]);
    let longest = recording(&entries_of_size(&mut rng, RECORDING_MOST));
    let long_entry = traffic::traffic(&mut rng, 65_527)[..65_527].to_vec();
    let tiny = recording(&vec![(FROM_HOST, ping.clone()); (RECORDING_MOST - 5) / 7]);
    let text = recording(&[(FROM_HOST, packet(31, b"\x00\x03ABC")), (FROM_PANEL, packet(95, &[]))]);
    let with = |front: &[u8], behind: &[u8]| [front, behind].concat();
    let another_mark = |recording: &[u8]| with(b"PLS", &recording[3..]);
    let nearly_longest = recording(&entries_of_size(&mut rng, RECORDING_MOST - 1));
    vec![
        ("text", text.clone()),
        ("longest", longest.clone()),
        ("tiny-entries", tiny.clone()),
        ("empty-entries", recording(&vec![(FROM_HOST, Vec::new()); (RECORDING_MOST - 5) / 3])),
        ("long-entry", recording(&[(FROM_HOST, long_entry)])),
        ("panel-alone", recording(&[(FROM_PANEL, ping.clone()), (FROM_PANEL, ping)])),
        ("no-entries", recording(&[])),
        ("too-long", with(&nearly_longest, &[1, 0])),
        ("too-long-and-fine", with(&tiny, &entry(FROM_PANEL, &[0; 100]))),
        ("too-long-without-mark", another_mark(&with(&longest, &[0]))),
        ("much-too-long", with(&longest, &longest)),
        ("no-bytes", Vec::new()),
        ("another-mark", another_mark(&text)),
        ("mark-alone", b"PLR".to_vec()),
        ("version-257", with(b"PLR\x01\x01", &text[5..])),
        ("bad-direction", with(&recording(&[]), &[2, 0, 0])),
        ("bad-direction-behind", with(&nearly_longest, &[2])),
        ("cut-short", text[..12].to_vec()),
        ("cut-short-behind", with(&nearly_longest, &[0])),
    ]
}

/// Fails where the recordings would let a wrong program pass.
fn check_recordings(recordings: &[(&str, Vec<u8>)]) {
    let faults: Vec<(u8, usize)> = recordings.iter().filter_map(|(_, bytes)| fault(bytes)).collect();
    let numbers: BTreeSet<u8> = faults.iter().map(|(number, _)| *number).collect();
    demand(numbers == (22..=26).collect(), "the recordings have not every fault");
    demand(faults.iter().any(|&(number, byte)| number > 24 && byte == RECORDING_MOST - 1), "no fault is far behind");

    let fine = recordings.iter().filter(|(_, bytes)| fault(bytes).is_none());
    let packets: Vec<Packet> = fine.flat_map(|(_, bytes)| packets_of(bytes)).collect();
    let lengths: BTreeSet<usize> = packets.iter().map(|packet| packet.length).collect();
    demand(lengths == (0..=22).collect(), "the recordings have not packets of every length");
    demand(packets.iter().filter(|packet| packet.kind > 63).count() > 100, "the recordings have few strays");
    demand(packets.iter().any(|packet| packet.next > RECORDING_MOST - 7), "no packet is far behind");
}

// ---------------------------------------------------------------------------------------------------------------------------
// The emulator's recording
// ---------------------------------------------------------------------------------------------------------------------------

/// A packet on the line, without regard to any recording: its bytes and the reply.
struct Heard {
    begin: usize,
    end: usize,
    reply: Vec<u8>,
    /// How many bytes were held behind it when it was found.
    behind: usize,
}

fn heard_on(line: &[u8]) -> Vec<Heard> {
    let (mut taken, mut left) = (0, 0);
    let mut heard = Vec::new();
    Desk::at_power_on(program_font()).hear(line, CUT, |desk, event| {
        let begin = left + event.dropped;
        taken += event.taken;
        left = taken - desk.held();
        if event.number != reading::WAITING {
            heard.push(Heard { begin, end: left, reply: event.reply.clone(), behind: desk.held() });
        }
    });
    heard
}

/// What comes from a host over a bad line. Before many packets stand bytes that could begin a longer one, so that packets are
/// found with others held behind them. At the end is the front of a packet that does not come.
fn noise(at_least: usize) -> Vec<u8> {
    let mut rng = Rng(635);
    let mut bytes = Vec::new();
    while bytes.len() < at_least {
        if rng.one_in(3) {
            bytes.extend([rng.pick(&[0, 0, 31, 255]), rng.pick(&[22, 22, 17, 5])]);
        }
        bytes.extend(traffic::stretch(&mut rng));
    }
    bytes.extend(&packet(2, &[9; 16])[..7]);
    bytes
}

/// Fails where the noise would let a wrong emulator pass.
fn check_noise(line: &[u8]) {
    let heard = heard_on(line);
    let found: usize = heard.iter().map(|packet| packet.end - packet.begin).sum();
    demand(heard.iter().filter(|packet| packet.behind > 4).count() > 4, "few packets have others held behind them");
    demand(heard.iter().any(|packet| packet.reply.is_empty()), "the noise has no stray");
    demand(heard.iter().any(|packet| packet.reply.len() > 4), "the noise asks for nothing");
    demand(found + 100 < line.len(), "little is dropped");
    demand(heard.last().is_some_and(|packet| packet.end < line.len()), "nothing is held at the end");
}

/// The bytes of all entries of a direction.
fn joined(recording: &[u8], entries: &[Entry], direction: u8) -> Vec<u8> {
    let of_direction = entries.iter().filter(|entry| entry.direction == direction);
    of_direction.flat_map(|entry| &recording[entry.from..entry.end]).copied().collect()
}

/// Looks at what the emulator replied to a host, and at its recording: all of the line, or as much as there is room for.
fn check_recorded(host: &[u8], recording: &[u8], replies: &[u8], whole: bool) {
    let heard = heard_on(host);
    let expected: Vec<u8> = heard.iter().flat_map(|packet| &packet.reply).copied().collect();
    demand(replies == expected, "the emulator's replies are others");

    let entries = recording_reading::entries(recording)
        .unwrap_or_else(|(number, byte)| fail(&format!("the recording is refused with {number}, at byte {byte}")));
    demand(entries.iter().all(|entry| entry.from < entry.end), "an entry has no bytes");
    let (sent, replied) = (joined(recording, &entries, HOST), joined(recording, &entries, PANEL));
    if whole {
        demand(sent == host, "what the host sent is not what the recording has");
        demand(replied == replies, "what the panel replied is not what the recording has");
    } else {
        demand(host.starts_with(&sent), "what the host sent does not begin as in the recording");
        demand(replies.starts_with(&replied), "what the panel replied does not begin as in the recording");
        // What comes next is at most a read's bytes.
        demand(recording.len() + 3 + READ > RECORDING_MOST, "the recording ends where it had room");
    }
    check_packets(&heard, recording, &entries, sent.len());
}

/// A recording of so many host bytes has the packets of the line, none of them lost where entries are cut; and what the panel
/// replied stands behind what it replies to.
fn check_packets(heard: &[Heard], recording: &[u8], entries: &[Entry], sent: usize) {
    let packets = packets_of(recording);
    let place_on_line = |packet: &Packet| {
        let begin = before_in_host_entries(entries, packet.start - 2);
        (begin, begin + packet.length + 4)
    };
    let recorded: Vec<(usize, usize)> = packets.iter().map(place_on_line).collect();
    let on_line = heard.iter().map(|packet| (packet.begin, packet.end)).filter(|&(_, end)| end <= sent);
    let on_line: Vec<(usize, usize)> = on_line.collect();
    let same = recorded.iter().zip(&on_line).take_while(|(recorded, on_line)| recorded == on_line).count();
    demand(recorded == on_line, &format!("the recording has the line's first {same} packets, and then not the next"));

    let (mut found, mut due) = (0, 0);
    for entry in entries {
        if entry.direction == PANEL {
            let length = entry.end - entry.from;
            demand(length <= due, "what the panel replied stands before what it replies to");
            due -= length;
        }
        while packets.get(found).is_some_and(|packet| packet.next <= entry.end) {
            due += heard[found].reply.len();
            found += 1;
        }
    }
}

/// How many bytes of host entries stand before a place inside one of them.
fn before_in_host_entries(entries: &[Entry], place: usize) -> usize {
    let from_host = entries.iter().filter(|entry| entry.direction == HOST && entry.from <= place);
    from_host.map(|entry| entry.end.min(place) - entry.from).sum()
}

// ---------------------------------------------------------------------------------------------------------------------------

fn standard_input() -> Vec<u8> {
    let mut bytes = Vec::new();
    std::io::stdin().read_to_end(&mut bytes).expect("standard input can be read");
    bytes
}

fn write(bytes: &[u8]) {
    std::io::stdout().write_all(bytes).expect("standard output can be written");
}

fn file(name: &str) -> Vec<u8> {
    std::fs::read(name).unwrap_or_else(|error| fail(&format!("{name}: {error}")))
}

fn main() {
    let arguments: Vec<String> = std::env::args().skip(1).collect();
    match arguments.iter().map(String::as_str).collect::<Vec<_>>()[..] {
        ["input"] => {
            let input = long_input();
            check_input(&input);
            write(&input);
        }
        ["line"] => write(line_program(&standard_input(), program_font()).text.as_bytes()),
        ["host"] => write(&host()),
        ["glass", glass, replies] => {
            let drawn = std::fs::read_to_string(glass).expect("the glass can be read");
            check_glass(&standard_input(), &drawn, &file(replies));
        }
        ["recordings", folder] => {
            let recordings = recordings();
            check_recordings(&recordings);
            for (name, bytes) in &recordings {
                std::fs::write(Path::new(folder).join(name), bytes).expect("the folder can be written");
            }
        }
        ["recording"] => {
            let (text, ending) = recording_program(&standard_input());
            write(text.as_bytes());
            eprint!("{ending}");
        }
        ["noise", bytes] => {
            let line = noise(bytes.parse().unwrap_or_else(|_| fail("noise: how many bytes")));
            check_noise(&line);
            write(&line);
        }
        ["slowly"] => {
            for byte in standard_input() {
                write(&[byte]);
                std::io::stdout().flush().expect("standard output can be written");
                std::thread::sleep(Duration::from_millis(1));
            }
        }
        ["recorded", recording, replies] => check_recorded(&standard_input(), &file(recording), &file(replies), true),
        ["full", recording, replies] => check_recorded(&standard_input(), &file(recording), &file(replies), false),
        _ => fail("an unknown word, or too few"),
    }
}
