//! The benchmark: the library against the reading, on the same bytes in one run. Prints a table for docs/BENCH.md. Built with
//! `--cfg earlier`, and linked with an earlier library too, whose names begin with `earlier_`, `bench earlier` prints both in one table.
//!
//! For counting instructions: `bench host` writes the host traffic, `bench packets` prints how many packets it has,
//! `bench library` gives it to the library once, and `bench nothing` does all of that but the calls. `bench recordings PROGRAM FOLDER`
//! prints the table of recordings, by the call and by the program, with its files in the folder.

#[allow(dead_code)]
#[path = "../outside/reading.rs"]
mod reading;

use std::hint::black_box;
use std::io::Write;

use reading::{checksum, Settings, CELLS, FONT, LIST, PICTURE, PIECE_MOST, REGISTER, REPLY, SAID, STATE};

/// How often every contestant has its turn in every row, and how many seconds a turn has at least.
const ROUNDS: usize = 21;
const TURN: f64 = 0.03;

/// The checksum of so many bytes.
type Checksum = unsafe extern "C" fn(bytes: *const u8, size: usize) -> u16;

/// A library's line call, as `naupelys.h` has it, and its checksum, which `bench/run` makes a call of.
macro_rules! library {
    ($library:ident, $line:literal, $checksum:literal) => {
        mod $library {
            use super::{Desk, FONT, LIST, PICTURE, REGISTER, REPLY, STATE};

            extern "C" {
                #[link_name = $checksum]
                pub fn sum(bytes: *const u8, size: usize) -> u16;
                #[link_name = $line]
                fn line(
                    state: *mut u8,
                    state_size: usize,
                    piece: *const u8,
                    piece_size: usize,
                    picture: *mut u8,
                    picture_size: usize,
                    font: *const u8,
                    font_size: usize,
                    list: *mut u8,
                    list_size: usize,
                    reply: *mut u8,
                    reply_size: usize,
                    faults: *mut u8,
                    faults_size: usize,
                    said: *mut u8,
                ) -> u8;
            }

            pub fn contestant(desk: &mut Desk, piece: &[u8]) -> u8 {
                // Safety: every pointer points to as many bytes as its length says, and no two buffers overlap.
                unsafe {
                    line(
                        desk.state.as_mut_ptr(),
                        STATE,
                        piece.as_ptr(),
                        piece.len(),
                        desk.picture.as_mut_ptr(),
                        PICTURE,
                        desk.font.as_ptr(),
                        FONT,
                        desk.list.as_mut_ptr(),
                        LIST,
                        desk.reply.as_mut_ptr(),
                        REPLY,
                        desk.faults.as_mut_ptr(),
                        REGISTER,
                        desk.said.as_mut_ptr(),
                    )
                }
            }
        }
    };
}

library!(library, "naupelys_line", "now_checksum");
// One whose lent bytes have the same sizes and places.
#[cfg(earlier)]
library!(earlier, "earlier_naupelys_line", "earlier_checksum");

// Of `naupelys_host.h` the call on recordings.
extern "C" {
    fn naupelys_recording_next(
        recording: *const u8,
        recording_size: usize,
        place: *mut usize,
        kind: *mut u8,
        start: *mut usize,
        length: *mut usize,
    ) -> u8;
}

/// Seconds that this program has had a core, so that others on the machine do not count. (POSIX; the number is Linux's.)
fn seconds() -> f64 {
    #[repr(C)]
    struct Time {
        seconds: i64,
        nanoseconds: i64,
    }
    extern "C" {
        fn clock_gettime(clock: i32, time: *mut Time) -> i32;
    }
    const PROCESS_CPU_TIME: i32 = 2;
    let mut time = Time { seconds: 0, nanoseconds: 0 };
    // Safety: the pointer is to a Time.
    let failed = unsafe { clock_gettime(PROCESS_CPU_TIME, &mut time) };
    assert_eq!(failed, 0, "no clock");
    time.seconds as f64 + time.nanoseconds as f64 * 1e-9
}

// ---------------------------------------------------------------------------------------------------------------------------
// The contestants
// ---------------------------------------------------------------------------------------------------------------------------

/// All that is lent to a call.
#[derive(PartialEq)]
struct Desk {
    state: [u8; STATE],
    picture: [u8; PICTURE],
    font: [u8; FONT],
    list: [u8; LIST],
    reply: [u8; REPLY],
    faults: [u8; REGISTER],
    said: [u8; SAID],
}

impl Desk {
    fn at_power_on() -> Desk {
        let mut desk = Desk {
            state: [0; STATE],
            picture: [0; PICTURE],
            font: std::array::from_fn(|at| (at / 8 * 37 + at % 8 * 11) as u8),
            list: [0; LIST],
            reply: [0; REPLY],
            faults: [0; REGISTER],
            said: [0; SAID],
        };
        reading::power_on(&mut desk.state, &mut desk.picture, &desk.font, &mut desk.said);
        desk
    }
}

type Contestant = fn(&mut Desk, &[u8]) -> u8;

fn by_reading(desk: &mut Desk, piece: &[u8]) -> u8 {
    reading::line(
        &mut desk.state,
        piece,
        &mut desk.picture,
        &desk.font,
        &mut desk.list,
        &mut desk.reply,
        &mut desk.faults,
        &mut desk.said,
    )
}

/// The reading with a repaint that draws all 80 cells before and after, on every call.
fn by_draw_all(desk: &mut Desk, piece: &[u8]) -> u8 {
    reading::line_with(
        draw_all,
        &mut desk.state,
        piece,
        &mut desk.picture,
        &desk.font,
        &mut desk.list,
        &mut desk.reply,
        &mut desk.faults,
        &mut desk.said,
    )
}

fn draw_all(before: &Settings, after: &Settings, font: &[u8], picture: &mut [u8], list: &mut [u8]) -> usize {
    let drawings =
        |settings: &Settings| -> [[u8; 8]; CELLS] { std::array::from_fn(|cell| reading::draw(settings, cell, font)) };
    let (old, new) = (drawings(before), drawings(after));
    let mut listed = 0;
    for cell in 0..CELLS {
        if old[cell] != new[cell] {
            picture[8 * cell..8 * cell + 8].copy_from_slice(&new[cell]);
            list[listed] = cell as u8;
            listed += 1;
        }
    }
    listed
}

/// Gives all bytes in pieces; after a packet calls again with the rest, until the answer is waiting. Gives how many calls.
fn drive(contestant: Contestant, desk: &mut Desk, bytes: &[u8], size: usize) -> u64 {
    let mut calls = 0;
    for piece in bytes.chunks(size) {
        let mut rest = piece;
        loop {
            calls += 1;
            let number = contestant(desk, rest);
            assert!(number <= reading::REFUSED, "the call was refused with {number}");
            rest = &rest[usize::from(u16::from_le_bytes([desk.said[4], desk.said[5]]))..];
            if number == reading::WAITING {
                break;
            }
        }
    }
    calls
}

// ---------------------------------------------------------------------------------------------------------------------------
// The bytes
// ---------------------------------------------------------------------------------------------------------------------------

fn send(line: &mut Vec<u8>, command: u8, data: &[u8]) {
    let start = line.len();
    line.extend_from_slice(&[command, data.len() as u8]);
    line.extend_from_slice(data);
    let sum = checksum(&line[start..]);
    line.extend_from_slice(&sum.to_le_bytes());
}

/// A vertical bar of so many lines.
fn bar(glyph: u8, lines: u8) -> [u8; 9] {
    std::array::from_fn(|at| match at {
        0 => glyph,
        _ => 63 * u8::from(at as u8 + lines > 8),
    })
}

/// What a host such as LCDproc sends: whole rows of text, the glyphs of its bars sent again although they are the same, a
/// heart that beats, the cursor, and now and then a ping, a poll, contrast and backlight.
fn host_traffic() -> Vec<u8> {
    let mut line = Vec::new();
    send(&mut line, 6, &[]);
    for second in 0..120usize {
        // The bars, which change nothing after the first time, and the heart.
        for glyph in 1..=7 {
            send(&mut line, 9, &bar(glyph, glyph));
        }
        let heart = if second % 2 == 0 { [0, 10, 31, 31, 31, 14, 4, 0] } else { [0, 10, 21, 17, 17, 10, 4, 0] };
        send(&mut line, 9, &[&[0][..], &heart[..]].concat());

        let load = (second * 7) % 13;
        let rows = [
            format!("CPU load {:3}%  {:02}:{:02} ", load * 8, second / 60, second % 60),
            format!("Mem  {:5}K free     ", 40_000 - second * 17 % 900),
            "Uptime 12 days       ".to_string(),
            " ".repeat(20),
        ];
        for (row, text) in rows.iter().enumerate() {
            let mut data = [32; 22];
            (data[0], data[1]) = (0, row as u8);
            data[2..].copy_from_slice(&text.as_bytes()[..20]);
            match row {
                0 => data[21] = 0,
                3 => (0..20).for_each(|column| data[2 + column] = ((second * 3 + column * 5) % 8) as u8 + 1),
                _ => {}
            }
            data[2..].iter_mut().filter(|code| **code == 8).for_each(|code| *code = 255);
            send(&mut line, 31, &data);
        }
        send(&mut line, 11, &[(second % 20) as u8, 3]);
        send(&mut line, 12, &[0]);
        send(&mut line, 24, &[]);
        if second % 10 == 0 {
            send(&mut line, 0, b"alive");
            send(&mut line, 13, &[95 + (second / 10 % 3) as u8]);
            send(&mut line, 14, &[100 - (second / 10 % 2) as u8 * 50]);
        }
        if second == 100 {
            // A user turns the contrast up too far.
            send(&mut line, 13, &[255]);
        }
    }
    line
}

/// Random bytes, by splitmix64.
fn noise(count: usize) -> Vec<u8> {
    let mut seed: u64 = 635;
    let next = || {
        seed = seed.wrapping_add(0x9E37_79B9_7F4A_7C15);
        let mut z = seed;
        z = (z ^ (z >> 30)).wrapping_mul(0xBF58_476D_1CE4_E5B9);
        z = (z ^ (z >> 27)).wrapping_mul(0x94D0_49BB_1331_11EB);
        (z ^ (z >> 31)) as u8
    };
    std::iter::repeat_with(next).take(count).collect()
}

// ---------------------------------------------------------------------------------------------------------------------------
// Recordings
// ---------------------------------------------------------------------------------------------------------------------------

const RECORDING_MOST: usize = 65_535;

/// A recording, and what the host sent in it without the cuts.
struct Recording {
    name: &'static str,
    file: Vec<u8>,
    line: Vec<u8>,
}

impl Recording {
    fn new(name: &'static str) -> Recording {
        Recording { name, file: b"PLR\x01\x00".to_vec(), line: Vec::new() }
    }

    /// An entry more, unless it does not fit.
    fn entry(&mut self, direction: u8, bytes: &[u8]) -> bool {
        let fits = self.file.len() + 3 + bytes.len() <= RECORDING_MOST;
        if fits {
            self.file.push(direction);
            self.file.extend_from_slice(&(bytes.len() as u16).to_le_bytes());
            self.file.extend_from_slice(bytes);
            if direction == 0 {
                self.line.extend_from_slice(bytes);
            }
        }
        fits
    }
}

/// The packets of a line that has no other bytes.
fn packets_of(line: &[u8]) -> Vec<&[u8]> {
    let mut packets = Vec::new();
    let mut rest = line;
    while !rest.is_empty() {
        let (packet, more) = rest.split_at(usize::from(rest[1]) + 4);
        packets.push(packet);
        rest = more;
    }
    packets
}

/// One small packet an entry, as many as fit.
fn small_entries() -> Recording {
    let mut recording = Recording::new("entries of one packet of 5 bytes");
    let mut contrast = Vec::new();
    send(&mut contrast, 13, &[95]);
    while recording.entry(0, &contrast) {}
    recording
}

/// Host traffic as the emulator records it: a packet, and its reply.
fn traffic_entries(host: &[u8]) -> Recording {
    let mut recording = Recording::new("host traffic, an entry a packet and one its reply");
    for packet in packets_of(host).into_iter().cycle() {
        let mut reply = Vec::new();
        send(&mut reply, 64 + packet[0], &[]);
        if !recording.entry(0, packet) || !recording.entry(1, &reply) {
            return recording;
        }
    }
    recording
}

/// Host traffic in a few long entries.
fn long_entries(host: &[u8]) -> Recording {
    let mut recording = Recording::new("host traffic in entries of some 4,000 bytes");
    let mut entry = Vec::new();
    for packet in packets_of(host).into_iter().cycle() {
        entry.extend_from_slice(packet);
        if entry.len() > 4_000 && !recording.entry(0, &std::mem::take(&mut entry)) {
            return recording;
        }
    }
    recording
}

/// A plain scan: every byte judged in turn, and a packet's passed over. Gives how many packets.
fn plain_scan(line: &[u8]) -> usize {
    let (mut packets, mut at) = (0, 0);
    while at + 2 <= line.len() {
        let n = usize::from(line[at + 1]);
        let end = at + n + 4;
        if n > 22 {
            at += 1;
        } else if end > line.len() {
            break;
        } else if checksum(&line[at..end - 2]).to_le_bytes() == line[end - 2..end] {
            packets += 1;
            at = end;
        } else {
            at += 1;
        }
    }
    packets
}

/// The call until there is no more. Gives how many packets.
fn asked(file: &[u8]) -> usize {
    let (mut packets, mut place, mut kind, mut start, mut length) = (0, 0, 0, 0, 0);
    loop {
        // Safety: every pointer points to as many bytes as its length says, or to a number.
        let number =
            unsafe { naupelys_recording_next(file.as_ptr(), file.len(), &mut place, &mut kind, &mut start, &mut length) };
        match number {
            3 => packets += 1,
            1 => return packets,
            _ => panic!("the recording is refused with {number}"),
        }
    }
}

/// Seconds that ended children have had a core. (POSIX; the number and the sizes are Linux's.)
fn seconds_of_children() -> f64 {
    #[repr(C)]
    struct Usage {
        times: [[i64; 2]; 2],
        rest: [i64; 14],
    }
    extern "C" {
        fn getrusage(who: i32, usage: *mut Usage) -> i32;
    }
    const CHILDREN: i32 = -1;
    let mut usage = Usage { times: [[0; 2]; 2], rest: [0; 14] };
    // Safety: the pointer is to a Usage.
    let failed = unsafe { getrusage(CHILDREN, &mut usage) };
    assert_eq!(failed, 0, "no usage");
    usage.times.iter().map(|[seconds, microseconds]| *seconds as f64 + *microseconds as f64 * 1e-6).sum()
}

/// Seconds that the program takes for a recording, and what it prints last.
fn run_program(program: &str, path: &str) -> (f64, String) {
    let input = std::fs::File::open(path).expect("the recording can be read");
    let before = seconds_of_children();
    let ran = std::process::Command::new(program).stdin(input).output().expect("the program can be run");
    let text = String::from_utf8(ran.stdout).expect("the program prints text");
    (seconds_of_children() - before, text.lines().last().unwrap_or_default().to_string())
}

/// Seconds for one time, from as many times as a turn needs.
fn seconds_for(mut job: impl FnMut() -> usize, packets: usize) -> f64 {
    let start = seconds();
    let mut times = 0;
    loop {
        assert_eq!(job(), packets, "other packets");
        times += 1;
        let passed = seconds() - start;
        if passed >= TURN {
            return passed / f64::from(times);
        }
    }
}

fn recordings(host: &[u8], program: &str, folder: &str) {
    println!("| recording | bytes | packets | plain scan, µs | asked until no more / scan | the program / scan |");
    println!("| --- | ---: | ---: | ---: | ---: | ---: |");
    let empty = format!("{folder}/empty.plr");
    std::fs::write(&empty, &Recording::new("empty").file).expect("the folder can be written");
    for (number, recording) in [small_entries(), traffic_entries(host), long_entries(host)].into_iter().enumerate() {
        let path = format!("{folder}/{number}.plr");
        std::fs::write(&path, &recording.file).expect("the folder can be written");
        let packets = plain_scan(&recording.line);
        let (mut scans, mut asks, mut programs) = (Vec::new(), Vec::new(), Vec::new());
        // A turn of each, three times; the program has many more, since it is quick and its start is not its work.
        for _ in 0..3 {
            scans.push(seconds_for(|| plain_scan(&recording.line), packets));
            asks.push(seconds_for(|| asked(&recording.file), packets));
        }
        for _ in 0..10 * ROUNDS {
            let (time, last) = run_program(program, &path);
            assert!(last.starts_with(&format!("end packets {packets} ")), "the program prints {last}");
            programs.push(time - run_program(program, &empty).0);
        }
        let (scan, ask, program) = (median(scans), median(asks), median(programs));
        println!(
            "| {} | {} | {} | {:.0} | {} | {:.1} |",
            recording.name,
            with_commas(recording.file.len()),
            with_commas(packets),
            scan * 1e6,
            rounded(ask / scan),
            program / scan
        );
    }
}

// ---------------------------------------------------------------------------------------------------------------------------
// The table
// ---------------------------------------------------------------------------------------------------------------------------

/// A job again and again for one turn. Gives bytes a second, where the job is so many bytes.
fn pace(bytes: usize, mut job: impl FnMut()) -> f64 {
    let start = seconds();
    let mut given = 0;
    loop {
        job();
        given += bytes;
        let passed = seconds() - start;
        if passed >= TURN {
            return given as f64 / passed;
        }
    }
}

/// A contestant's turn on a line.
fn turn(contestant: Contestant, bytes: &[u8], size: usize) -> f64 {
    let mut desk = Desk::at_power_on();
    pace(bytes.len(), || {
        drive(contestant, &mut desk, bytes, size);
    })
}

/// A checksum's turn: the line in pieces of that size, each by itself.
fn sum_turn(sum: Checksum, bytes: &[u8], size: usize) -> f64 {
    pace(bytes.len(), || {
        for piece in bytes.chunks(size) {
            // Safety: the pointer points to as many bytes as the length says.
            black_box(unsafe { sum(piece.as_ptr(), piece.len()) });
        }
    })
}

/// The reading's, called as the library's is.
extern "C" fn checksum_by_reading(bytes: *const u8, size: usize) -> u16 {
    // Safety: `sum_turn` lends as many bytes as it says.
    checksum(unsafe { std::slice::from_raw_parts(bytes, size) })
}

fn median(mut values: Vec<f64>) -> f64 {
    values.sort_by(f64::total_cmp);
    values[values.len() / 2]
}

/// Three digits, then zeros: 12,300,000.
fn rounded(value: f64) -> String {
    let unit = 10f64.powi((value.log10().floor() as i32 - 2).max(0));
    with_commas(((value / unit).round() * unit) as usize)
}

fn with_commas(value: usize) -> String {
    let digits = value.to_string();
    let mut text = String::new();
    for (at, digit) in digits.chars().enumerate() {
        if at > 0 && (digits.len() - at).is_multiple_of(3) {
            text.push(',');
        }
        text.push(digit);
    }
    text
}

fn main() {
    let host = host_traffic();
    match std::env::args().nth(1).as_deref() {
        None => beside_reading(&host),
        Some("earlier") => beside_earlier(&host),
        Some("host") => std::io::stdout().write_all(&host).expect("standard output can be written"),
        // Every piece ends with one call that waits.
        Some("packets") => {
            let calls = drive(by_reading, &mut Desk::at_power_on(), &host, PIECE_MOST);
            println!("{}", calls - host.chunks(PIECE_MOST).len() as u64);
        }
        Some("library") => assert!(drive(library::contestant, &mut Desk::at_power_on(), &host, PIECE_MOST) > 0),
        Some("nothing") => assert!(drive(|_, _| reading::WAITING, &mut Desk::at_power_on(), &host, PIECE_MOST) > 0),
        Some("recordings") => {
            let arguments: Vec<String> = std::env::args().skip(2).collect();
            recordings(&host, &arguments[0], &arguments[1]);
        }
        Some(word) => panic!("{word}: earlier, host, packets, library, nothing or recordings"),
    }
}

/// What is given in a row, in pieces of one size.
struct Row<'a> {
    name: &'static str,
    bytes: &'a [u8],
    size: usize,
}

impl Row<'_> {
    /// That all come to the same end on a line, in as many calls.
    fn agreed(&self, contestants: &[Contestant]) {
        let end = |contestant| {
            let mut desk = Desk::at_power_on();
            (drive(contestant, &mut desk, self.bytes, self.size), desk)
        };
        let first = end(contestants[0]);
        let Row { name, size, .. } = self;
        assert!(contestants.iter().all(|&other| end(other) == first), "{name}, pieces of {size}: different ends");
    }

    /// That all give the same checksums.
    fn summed_alike(&self, sums: &[Checksum]) {
        for piece in self.bytes.chunks(self.size) {
            // Safety: the pointer points to as many bytes as the length says.
            let sum = |sum: Checksum| unsafe { sum(piece.as_ptr(), piece.len()) };
            assert!(sums.iter().all(|&other| sum(other) == sum(sums[0])), "{}: different checksums", self.name);
        }
    }
}

/// A contestant's turn on a row. Gives bytes a second.
type Turn<'a> = Box<dyn Fn() -> f64 + 'a>;

/// The median of every contestant's turns: turn by turn, each round in another order.
fn medians(rows: &[Vec<Turn>]) -> Vec<Vec<f64>> {
    let mut measured: Vec<Vec<Vec<f64>>> = rows.iter().map(|turns| vec![Vec::new(); turns.len()]).collect();
    for round in 0..ROUNDS {
        for (turns, values) in rows.iter().zip(&mut measured) {
            for place in 0..turns.len() {
                let which = (place + round) % turns.len();
                values[which].push(turns[which]());
            }
        }
    }
    measured.into_iter().map(|values| values.into_iter().map(median).collect()).collect()
}

/// A table, its columns but the first to the right.
fn print_table(table: &[Vec<String>]) {
    let widths: Vec<usize> =
        (0..table[0].len()).map(|column| table.iter().map(|cells| cells[column].len()).max().unwrap_or(0)).collect();
    for (number, cells) in table.iter().enumerate() {
        let padded: Vec<String> = cells
            .iter()
            .zip(&widths)
            .enumerate()
            .map(|(column, (cell, &width))| if column == 0 { format!("{cell:<width$}") } else { format!("{cell:>width$}") })
            .collect();
        println!("| {} |", padded.join(" | "));
        if number == 0 {
            let lines: Vec<String> = widths
                .iter()
                .enumerate()
                .map(|(column, &width)| if column == 0 { "-".repeat(width) } else { format!("{}:", "-".repeat(width - 1)) })
                .collect();
            println!("| {} |", lines.join(" | "));
        }
    }
}

/// The rows of the checksum alone, of the least and of the most that a packet has for it, and those of lines.
fn rows<'a>(host: &'a [u8], noise: &'a [u8], run: &'a [u8]) -> (Vec<Row<'a>>, Vec<Row<'a>>) {
    let row = |name, bytes, size| Row { name, bytes, size };
    let sums = [2, 24].map(|size| row("checksum alone", noise, size));
    let lines = [1, 2, 16, PIECE_MOST].map(|size| row("host traffic", host, size)).into_iter();
    let lines = lines.chain([16, PIECE_MOST].map(|size| row("noise", noise, size)));
    let lines = lines.chain([16, PIECE_MOST].map(|size| row("run of 0x16", run, size)));
    (sums.into(), lines.collect())
}

/// Measures contestants on rows, and prints a table: with each one's speed, and the first one's as a ratio to each of the others.
/// Those of a line beyond the second have only the rows of host traffic.
fn compared(host: &[u8], names: &[&str], sums: &[Checksum], contestants: &[Contestant]) {
    let (noise, run) = (noise(16 * PIECE_MOST), vec![0x16; 2 * PIECE_MOST]);
    let (sum_rows, line_rows) = rows(host, &noise, &run);
    let mut turns: Vec<Vec<Turn>> = Vec::new();
    for row in &sum_rows {
        row.summed_alike(sums);
        turns.push(sums.iter().map(|&sum| Box::new(move || sum_turn(sum, row.bytes, row.size)) as Turn).collect());
    }
    for row in &line_rows {
        let of_row = if row.name == "host traffic" { contestants } else { &contestants[..2] };
        row.agreed(of_row);
        turns.push(of_row.iter().map(|&one| Box::new(move || turn(one, row.bytes, row.size)) as Turn).collect());
    }

    let mut head = vec!["bytes".to_string(), "piece".to_string(), format!("{}, B/s", names[0])];
    for other in &names[1..] {
        head.extend([format!("{other}, B/s"), format!("{} / {other}", names[0])]);
    }
    let mut table = vec![head];
    for (row, speeds) in sum_rows.iter().chain(&line_rows).zip(medians(&turns)) {
        let mut cells = vec![row.name.to_string(), with_commas(row.size), rounded(speeds[0])];
        for other in 1..names.len() {
            match speeds.get(other) {
                Some(&speed) => cells.extend([rounded(speed), format!("{:.2}", speeds[0] / speed)]),
                None => cells.extend([String::new(), String::new()]),
            }
        }
        table.push(cells);
    }
    print_table(&table);
}

fn beside_reading(host: &[u8]) {
    let sums = [library::sum as Checksum, checksum_by_reading];
    compared(host, &["library", "reading", "draw-all"], &sums, &[library::contestant, by_reading, by_draw_all]);
}

#[cfg(earlier)]
fn beside_earlier(host: &[u8]) {
    let sums = [library::sum as Checksum, earlier::sum];
    compared(host, &["now", "before"], &sums, &[library::contestant, earlier::contestant]);
}

#[cfg(not(earlier))]
fn beside_earlier(_: &[u8]) {
    panic!("this one is built without an earlier library");
}
