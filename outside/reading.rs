//! A second reading of document 01 and of document 02's orders 2 and 4, in plain Rust, written from the papers and from
//! `naupelys.h` alone. It shares nothing with the library, so that the two can be compared. The headings are document 01's.

pub const STATE: usize = 470;
pub const PIECE_MOST: usize = 4096;
pub const PICTURE: usize = 640;
pub const FONT: usize = 2048;
pub const LIST: usize = 80;
pub const REPLY: usize = 26;
pub const REGISTER: usize = 448;
pub const SAID: usize = 16;

// ---------------------------------------------------------------------------------------------------------------------------
// Packets on the line
// ---------------------------------------------------------------------------------------------------------------------------

/// "A packet is type, length n (0 to 22), n data bytes, checksum with its low byte first."
const DATA_MOST: usize = 22;

/// The top two type bits; the low six are the command.
const COMMAND: u8 = 0;
const NORMAL: u8 = 64;
const REPORT: u8 = 128;
const ERROR: u8 = 192;
const LOW_SIX: u8 = 63;

/// "start 65535; polynomial 0x8408 in reflected form, low bit first; ... all bits inverted at the end".
pub fn checksum(bytes: &[u8]) -> u16 {
    let mut sum: u16 = 65535;
    for &byte in bytes {
        sum ^= u16::from(byte);
        for _ in 0..8 {
            let low_bit = sum & 1;
            sum >>= 1;
            if low_bit == 1 {
                sum ^= 0x8408;
            }
        }
    }
    !sum
}

/// A packet without its checksum.
struct Packet {
    kind: u8,
    length: usize,
    data: [u8; DATA_MOST],
}

impl Packet {
    fn new(kind: u8, data: &[u8]) -> Packet {
        let mut packet = Packet { kind, length: data.len(), data: [0; DATA_MOST] };
        packet.data[..data.len()].copy_from_slice(data);
        packet
    }

    fn data(&self) -> &[u8] {
        &self.data[..self.length]
    }

    /// Fills the front of the reply buffer; bytes behind keep their values. Gives the whole packet's length, n + 4.
    fn write(&self, reply: &mut [u8]) -> usize {
        let n = self.length;
        reply[0] = self.kind;
        reply[1] = n as u8;
        reply[2..n + 2].copy_from_slice(self.data());
        let sum = checksum(&reply[..n + 2]);
        reply[n + 2..n + 4].copy_from_slice(&sum.to_le_bytes());
        n + 4
    }
}

/// The unjudged bytes, oldest first. One more than 25, since a packet of 26 bytes is whole for a moment.
struct Hold {
    count: usize,
    bytes: [u8; HELD_MOST + 1],
}

/// "So at most 25 bytes are held between calls."
const HELD_MOST: usize = DATA_MOST + 3;

/// The judgement at the oldest byte.
enum Judgement {
    Wait,
    TooLong,
    Wrong { checked: usize },
    Packet { n: usize },
}

impl Hold {
    fn judge(&self) -> Judgement {
        if self.count < 2 {
            return Judgement::Wait;
        }
        let n = usize::from(self.bytes[1]);
        if n > DATA_MOST {
            return Judgement::TooLong;
        }
        if self.count < n + 4 {
            return Judgement::Wait;
        }
        let sum = u16::from_le_bytes([self.bytes[n + 2], self.bytes[n + 3]]);
        if checksum(&self.bytes[..n + 2]) != sum {
            return Judgement::Wrong { checked: n + 2 };
        }
        Judgement::Packet { n }
    }

    fn add(&mut self, byte: u8) {
        self.bytes[self.count] = byte;
        self.count += 1;
    }

    fn remove(&mut self, oldest: usize) {
        self.bytes.copy_within(oldest..self.count, 0);
        self.count -= oldest;
    }

    /// A line call leaves zeros behind the count; key and pin calls leave the hold as it came.
    fn clear_behind(&mut self) {
        self.bytes[self.count..].fill(0);
    }
}

/// What one call found on its piece of the line.
struct Scan {
    packet: Option<Packet>,
    taken: usize,
    dropped: usize,
    checked: usize,
}

/// "It judges; on a wait it takes one more byte, and when the piece is used up it ends. It also ends at the first packet."
fn scan(hold: &mut Hold, piece: &[u8]) -> Scan {
    let mut found = Scan { packet: None, taken: 0, dropped: 0, checked: 0 };
    loop {
        match hold.judge() {
            Judgement::Wait => {
                if found.taken == piece.len() {
                    break;
                }
                hold.add(piece[found.taken]);
                found.taken += 1;
            }
            Judgement::TooLong => {
                hold.remove(1);
                found.dropped += 1;
            }
            Judgement::Wrong { checked } => {
                hold.remove(1);
                found.dropped += 1;
                found.checked += checked;
            }
            Judgement::Packet { n } => {
                found.packet = Some(Packet::new(hold.bytes[0], &hold.bytes[2..n + 2]));
                hold.remove(n + 4);
                found.checked += n + 2;
                break;
            }
        }
    }
    hold.clear_behind();
    found
}

// ---------------------------------------------------------------------------------------------------------------------------
// The state
// ---------------------------------------------------------------------------------------------------------------------------

/// The highest value that the commands can set, for data bytes and for states alike.
const COLUMN_MOST: u8 = 19;
const ROW_MOST: u8 = 3;
const GLYPH_ROW_MOST: u8 = 63;
const STYLE_MOST: u8 = 4;
const CONTRAST_MOST: u8 = 254;
const BACKLIGHT_MOST: u8 = 100;
const MASK_MOST: u8 = 63;
const LEVEL_MOST: u8 = 100;

/// "Pin config: 0 to 15 with its low three bits not 6."
fn config_in_range(config: u8) -> bool {
    config <= 15 && config & 7 != 6
}

/// Live or boot: "text, glyphs, cursor, style, contrast, backlight, masks, pin levels and configs".
#[derive(Clone, PartialEq)]
pub struct Settings {
    text: [u8; 80],
    glyphs: [[u8; 8]; 8],
    column: u8,
    row: u8,
    style: u8,
    contrast: u8,
    backlight: u8,
    press_mask: u8,
    release_mask: u8,
    levels: [u8; 13],
    configs: [u8; 5],
}

impl Settings {
    /// "Factory boot state, also at power-on".
    fn factory() -> Settings {
        Settings {
            text: [32; 80],
            glyphs: [[0; 8]; 8],
            column: 0,
            row: 0,
            style: 0,
            contrast: 95,
            backlight: 100,
            press_mask: 63,
            release_mask: 63,
            levels: [0; 13],
            configs: [2, 3, 2, 2, 2],
        }
    }

    /// Each value is one that a command can set; text is free.
    fn in_range(&self) -> bool {
        self.glyphs.iter().flatten().all(|&line| line <= GLYPH_ROW_MOST)
            && self.column <= COLUMN_MOST
            && self.row <= ROW_MOST
            && self.style <= STYLE_MOST
            && self.contrast <= CONTRAST_MOST
            && self.backlight <= BACKLIGHT_MOST
            && self.press_mask <= MASK_MOST
            && self.release_mask <= MASK_MOST
            && self.levels.iter().all(|&level| level <= LEVEL_MOST)
            && self.configs.iter().all(|&config| config_in_range(config))
    }

    fn decode(bytes: &mut Bytes) -> Settings {
        Settings {
            text: bytes.take(),
            glyphs: std::array::from_fn(|_| bytes.take()),
            column: bytes.byte(),
            row: bytes.byte(),
            style: bytes.byte(),
            contrast: bytes.byte(),
            backlight: bytes.byte(),
            press_mask: bytes.byte(),
            release_mask: bytes.byte(),
            levels: bytes.take(),
            configs: bytes.take(),
        }
    }

    fn encode(&self, room: &mut Room) {
        room.put(&self.text);
        for glyph in &self.glyphs {
            room.put(glyph);
        }
        room.put(&[self.column, self.row, self.style, self.contrast, self.backlight]);
        room.put(&[self.press_mask, self.release_mask]);
        room.put(&self.levels);
        room.put(&self.configs);
    }
}

/// All that the panel knows.
struct Panel {
    hold: Hold,
    live: Settings,
    boot: Settings,
    /// One bit a key; the last two since the last poll.
    down: u8,
    pressed: u8,
    released: u8,
    /// Pins 0 to 4: last level, and whether each fell and rose since it was last read.
    last: [u8; 5],
    fell: [u8; 5],
    rose: [u8; 5],
    flash: [u8; 16],
    unfiled: u32,
    /// "Keep, beside the text": the live one.
    sets: Sets,
}

impl Panel {
    /// "At power-on flash is zeros, keys up, pins low, poll bytes and edges clear, nothing held, unfiled 0."
    fn at_power_on() -> Panel {
        let live = Settings::factory();
        Panel {
            hold: Hold { count: 0, bytes: [0; HELD_MOST + 1] },
            sets: search(&live.text),
            live,
            boot: Settings::factory(),
            down: 0,
            pressed: 0,
            released: 0,
            last: [0; 5],
            fell: [0; 5],
            rose: [0; 5],
            flash: [0; 16],
            unfiled: 0,
        }
    }

    /// "at most 25 bytes are held and each value, boot state included and taken alone (each key and edge bit too), is one that
    /// the commands and events below can set". Document 02, order 4: "10, now also for sets that differ from that search". It
    /// is the live text that is searched.
    fn in_range(&self) -> bool {
        self.hold.count <= HELD_MOST
            && self.live.in_range()
            && self.boot.in_range()
            && [self.down, self.pressed, self.released].iter().all(|&keys| keys < 1 << KEYS)
            && self.sets == search(&self.live.text)
    }

    /// The panel in these bytes, if there are 470 and it is in its ranges.
    fn decode(state: &[u8]) -> Option<Panel> {
        if state.len() != STATE {
            return None;
        }
        let mut bytes = Bytes(state);
        let count = usize::from(bytes.byte());
        let mut held = [0; HELD_MOST + 1];
        held[..HELD_MOST].copy_from_slice(&bytes.take::<HELD_MOST>());
        let panel = Panel {
            hold: Hold { count, bytes: held },
            unfiled: u32::from_le_bytes(bytes.take()),
            live: Settings::decode(&mut bytes),
            boot: Settings::decode(&mut bytes),
            down: bytes.byte(),
            pressed: bytes.byte(),
            released: bytes.byte(),
            last: pins_of(bytes.byte())?,
            fell: pins_of(bytes.byte())?,
            rose: pins_of(bytes.byte())?,
            flash: bytes.take(),
            sets: bytes.take(),
        };
        panel.in_range().then_some(panel)
    }

    fn encode(&self, state: &mut [u8]) {
        let mut room = Room(state);
        room.put(&[self.hold.count as u8]);
        room.put(&self.hold.bytes[..HELD_MOST]);
        room.put(&self.unfiled.to_le_bytes());
        self.live.encode(&mut room);
        self.boot.encode(&mut room);
        room.put(&[self.down, self.pressed, self.released]);
        room.put(&[bits_of(&self.last), bits_of(&self.fell), bits_of(&self.rose)]);
        room.put(&self.flash);
        room.put(&self.sets);
    }
}

/// Pins 0 to 4 from the bits of a byte, "bit number = pin number". Nothing can set a bit of pins 5 to 7: it is out of range.
fn pins_of(byte: u8) -> Option<[u8; 5]> {
    (byte < 1 << 5).then(|| std::array::from_fn(|pin| byte >> pin & 1))
}

fn bits_of(pins: &[u8; 5]) -> u8 {
    (0..5).map(|pin| pins[pin] << pin).sum()
}

/// Bytes still to be decoded.
struct Bytes<'a>(&'a [u8]);

impl Bytes<'_> {
    fn take<const N: usize>(&mut self) -> [u8; N] {
        let (front, rest) = self.0.split_first_chunk().expect("the size was checked");
        self.0 = rest;
        *front
    }

    fn byte(&mut self) -> u8 {
        self.take::<1>()[0]
    }
}

/// Room still to be filled.
struct Room<'a>(&'a mut [u8]);

impl Room<'_> {
    fn put(&mut self, bytes: &[u8]) {
        let (front, rest) = std::mem::take(&mut self.0).split_at_mut(bytes.len());
        front.copy_from_slice(bytes);
        self.0 = rest;
    }
}

// ---------------------------------------------------------------------------------------------------------------------------
// What a call says
// ---------------------------------------------------------------------------------------------------------------------------

pub const WAITING: u8 = 1;
pub const STRAY: u8 = 2;
pub const DONE: u8 = 3;
pub const REFUSED: u8 = 4;
pub const BAD_STATE: u8 = 10;
pub const BAD_PIECE: u8 = 11;
pub const BAD_PICTURE: u8 = 12;
pub const BAD_FONT: u8 = 13;
pub const BAD_LIST: u8 = 14;
pub const BAD_REPLY: u8 = 15;
pub const BAD_REGISTER: u8 = 16;
pub const BAD_NUMBER: u8 = 17;
pub const KEY_AS_TOLD: u8 = 18;
pub const BAD_GLYPH: u8 = 27;

/// "An answer without a command, reason or place gives 0 for it", and so for every count.
#[derive(Default)]
struct Answer {
    number: u8,
    command: u8,
    reason: u8,
    place: u8,
    taken: usize,
    dropped: usize,
    checked: usize,
    reply: usize,
    cells: usize,
}

impl Answer {
    fn only(number: u8) -> Answer {
        Answer { number, ..Answer::default() }
    }

    fn say(&self, said: &mut [u8; SAID]) -> u8 {
        said[..4].copy_from_slice(&[self.number, self.command, self.reason, self.place]);
        said[4..6].copy_from_slice(&(self.taken as u16).to_le_bytes());
        said[6..8].copy_from_slice(&(self.dropped as u16).to_le_bytes());
        said[8..12].copy_from_slice(&(self.checked as u32).to_le_bytes());
        said[12..].copy_from_slice(&[self.reply as u8, self.cells as u8, 0, 0]);
        self.number
    }
}

// ---------------------------------------------------------------------------------------------------------------------------
// Why a packet is refused
// ---------------------------------------------------------------------------------------------------------------------------

/// The three bytes of command 5.
const REBOOT: [u8; 3] = [8, 18, 99];

/// Reason and place; the first reason that applies.
pub fn refusal(command: u8, data: &[u8]) -> Option<(u8, u8)> {
    let lengths = match command {
        0 => 0..=22,
        1 | 3 | 4 | 6 | 24 => 0..=0,
        2 => 16..=16,
        5 => 3..=3,
        9 => 9..=9,
        10 | 12 | 13 | 14 | 35 => 1..=1,
        11 | 23 => 2..=2,
        31 => 3..=22,
        34 => 2..=3,
        _ => return Some((1, 0)),
    };
    if !lengths.contains(&data.len()) {
        return Some((2, 1));
    }
    if let Some(index) = (0..data.len()).find(|&index| !data_in_range(command, data, index)) {
        return Some((3, 2 + index as u8));
    }
    if command == 31 && usize::from(data[0]) + data[2..].len() > 20 {
        return Some((4, 24 - data[0]));
    }
    if command == 5 && data != REBOOT {
        return Some((5, 2));
    }
    None
}

/// The column "data allowed" of the table of commands. Command 5 has no reason 3.
fn data_in_range(command: u8, data: &[u8], index: usize) -> bool {
    let byte = data[index];
    match (command, index) {
        (9, 0) => byte <= 7,
        (9, _) => byte <= GLYPH_ROW_MOST,
        (10, _) => address(byte).is_some(),
        (11 | 31, 0) => byte <= COLUMN_MOST,
        (11 | 31, 1) => byte <= ROW_MOST,
        (12, _) => byte <= STYLE_MOST,
        (13, _) => byte <= CONTRAST_MOST,
        (14, _) => byte <= BACKLIGHT_MOST,
        (23, _) => byte <= MASK_MOST,
        (34 | 35, 0) => byte <= 12,
        (34, 1) => byte <= LEVEL_MOST,
        // Only pins 0 to 4 have a config: "for pins 5 to 12 a third byte is out of range".
        (34, _) => data[0] <= 4 && config_in_range(byte),
        _ => true,
    }
}

/// Where an address of command 10 points.
enum Address {
    /// Counted over all rows of all glyphs.
    GlyphRow(usize),
    Cell(usize),
}

/// "64-120, or 128+32r+c, r 0-3, c 0-12".
fn address(byte: u8) -> Option<Address> {
    match byte {
        64..=120 => Some(Address::GlyphRow(usize::from(byte - 64))),
        128.. => {
            let (r, c) = ((byte - 128) / 32, (byte - 128) % 32);
            (c <= 12).then_some(Address::Cell(20 * usize::from(r) + usize::from(c)))
        }
        _ => None,
    }
}

/// A record of the register: command, reason, place, count.
const RECORD: usize = 7;

/// Files a refusal. Gives whether a record took it; if not, it is unfiled.
fn file(faults: &mut [u8], key: [u8; 3]) -> bool {
    let count_of = |record: &[u8]| u32::from_le_bytes([record[3], record[4], record[5], record[6]]);
    // "adds 1 to the first record in use with its key"
    if let Some(record) = faults.chunks_exact_mut(RECORD).find(|record| count_of(record) != 0 && record[..3] == key) {
        let Some(count) = count_of(record).checked_add(1) else {
            return false;
        };
        record[3..].copy_from_slice(&count.to_le_bytes());
        return true;
    }
    // "else takes the first free one, with a count of 1"
    if let Some(record) = faults.chunks_exact_mut(RECORD).find(|record| count_of(record) == 0) {
        record[..3].copy_from_slice(&key);
        record[3..].copy_from_slice(&1u32.to_le_bytes());
        return true;
    }
    false
}

// ---------------------------------------------------------------------------------------------------------------------------
// The commands
// ---------------------------------------------------------------------------------------------------------------------------

const VERSION: &[u8; 16] = b"CFA635:h1.1,s1.6";

impl Panel {
    /// Does a command that is not refused, and gives its reply.
    fn carry_out(&mut self, command: u8, data: &[u8]) -> Packet {
        let reply = |data: &[u8]| Packet::new(NORMAL + command, data);
        let live = &mut self.live;
        match command {
            0 => return reply(data),
            1 => return reply(VERSION),
            2 => self.flash.copy_from_slice(data),
            3 => return reply(&self.flash),
            4 => self.boot = live.clone(),
            5 => {
                self.live = self.boot.clone();
                self.sets = search(&self.live.text);
                self.pressed = 0;
                self.released = 0;
                self.fell = [0; 5];
                self.rose = [0; 5];
            }
            6 => {
                live.text = [32; 80];
                // No space draws a glyph.
                self.sets = [0; CELLS];
                live.column = 0;
                live.row = 0;
            }
            9 => live.glyphs[usize::from(data[0])].copy_from_slice(&data[1..]),
            10 => {
                let mut answer = [data[0]; 9];
                match address(data[0]).expect("the range was checked") {
                    // Eight rows in a run may pass into the next glyph.
                    Address::GlyphRow(row) => answer[1..].copy_from_slice(&live.glyphs.as_flattened()[row..row + 8]),
                    Address::Cell(cell) => answer[1..].copy_from_slice(&live.text[cell..cell + 8]),
                }
                return reply(&answer);
            }
            11 => (live.column, live.row) = (data[0], data[1]),
            12 => live.style = data[0],
            13 => live.contrast = data[0],
            14 => live.backlight = data[0],
            23 => (live.press_mask, live.release_mask) = (data[0], data[1]),
            24 => {
                let answer = [self.down, self.pressed, self.released];
                self.pressed = 0;
                self.released = 0;
                return reply(&answer);
            }
            31 => {
                let cell = 20 * usize::from(data[1]) + usize::from(data[0]);
                let text = &data[2..];
                live.text[cell..cell + text.len()].copy_from_slice(text);
                self.sets = search(&live.text);
            }
            34 => {
                let pin = usize::from(data[0]);
                live.levels[pin] = data[1];
                // "With two bytes config stays."
                if let Some(&config) = data.get(2) {
                    live.configs[pin] = config;
                }
            }
            35 => {
                let pin = usize::from(data[0]);
                let level = live.levels[pin];
                if pin > 4 {
                    return reply(&[data[0], 0, level, 0]);
                }
                let edges = self.last[pin] | self.fell[pin] << 1 | self.rose[pin] << 2;
                self.fell[pin] = 0;
                self.rose[pin] = 0;
                return reply(&[data[0], edges, level, live.configs[pin]]);
            }
            _ => unreachable!("unknown commands are refused"),
        }
        reply(&[])
    }
}

// ---------------------------------------------------------------------------------------------------------------------------
// The picture
// ---------------------------------------------------------------------------------------------------------------------------

pub const CELLS: usize = 80;

/// Document 02, order 2: "code c from 0 to 15 draws glyph c mod 8."
fn glyph_of(code: u8) -> Option<usize> {
    (code <= 15).then_some(usize::from(code % 8))
}

/// Document 02, order 4: "the set of cells that draw each of the eight glyphs", a byte for each cell: 1 + the number of the
/// glyph whose set the cell is in, 0 where it is in none.
type Sets = [u8; CELLS];

/// "each set equals what a search of the text finds".
fn search(text: &[u8; CELLS]) -> Sets {
    text.map(|code| match glyph_of(code) {
        Some(glyph) => 1 + glyph as u8,
        None => 0,
    })
}

/// A code's glyph, or else: "any other code c draws font bytes 8c to 8c + 7, low six bits."
pub fn draw(settings: &Settings, cell: usize, font: &[u8]) -> [u8; 8] {
    let code = settings.text[cell];
    match glyph_of(code) {
        Some(glyph) => settings.glyphs[glyph],
        None => std::array::from_fn(|line| font[8 * usize::from(code) + line] & 63),
    }
}

/// Whether a cell's drawing may differ: another code, or the same one of a glyph with other rows.
fn may_differ(before: &Settings, after: &Settings, cell: usize) -> bool {
    let code = before.text[cell];
    code != after.text[cell] || glyph_of(code).is_some_and(|glyph| before.glyphs[glyph] != after.glyphs[glyph])
}

/// Lists the cells whose drawings before and after differ, rising, and writes all eight bytes of each. The lent picture is
/// never read. Gives how many were listed.
fn repaint(before: &Settings, after: &Settings, font: &[u8], picture: &mut [u8], list: &mut [u8]) -> usize {
    if before.text == after.text && before.glyphs == after.glyphs {
        return 0;
    }
    let mut listed = 0;
    for cell in 0..CELLS {
        if may_differ(before, after, cell) {
            let drawing = draw(after, cell, font);
            if drawing != draw(before, cell, font) {
                picture[8 * cell..8 * cell + 8].copy_from_slice(&drawing);
                list[listed] = cell as u8;
                listed += 1;
            }
        }
    }
    listed
}

// ---------------------------------------------------------------------------------------------------------------------------
// The five calls
// ---------------------------------------------------------------------------------------------------------------------------

/// The panel at power-on. "a refused power-on still returns the power-on state"; a state that is not 470 bytes has no room for
/// it, and is answered with 10.
pub fn power_on(state: &mut [u8], picture: &mut [u8], font: &[u8], said: &mut [u8; SAID]) -> u8 {
    if state.len() != STATE {
        return Answer::only(BAD_STATE).say(said);
    }
    let panel = Panel::at_power_on();
    panel.encode(state);
    if picture.len() != PICTURE {
        return Answer::only(BAD_PICTURE).say(said);
    }
    if font.len() != FONT {
        return Answer::only(BAD_FONT).say(said);
    }
    for (cell, bytes) in picture.chunks_exact_mut(8).enumerate() {
        bytes.copy_from_slice(&draw(&panel.live, cell, font));
    }
    Answer::only(DONE).say(said)
}

/// A piece of the line.
#[allow(clippy::too_many_arguments)]
pub fn line(
    state: &mut [u8],
    piece: &[u8],
    picture: &mut [u8],
    font: &[u8],
    list: &mut [u8],
    reply: &mut [u8],
    faults: &mut [u8],
    said: &mut [u8; SAID],
) -> u8 {
    line_with(repaint, state, piece, picture, font, list, reply, faults, said)
}

/// Takes the settings before and after, font, picture and list; gives how many cells it listed.
pub type Repaint = fn(&Settings, &Settings, &[u8], &mut [u8], &mut [u8]) -> usize;

/// The same with another repaint, for the benchmark.
#[allow(clippy::too_many_arguments)]
pub fn line_with(
    repaint: Repaint,
    state: &mut [u8],
    piece: &[u8],
    picture: &mut [u8],
    font: &[u8],
    list: &mut [u8],
    reply: &mut [u8],
    faults: &mut [u8],
    said: &mut [u8; SAID],
) -> u8 {
    // "The lowest number that applies is given."
    let Some(mut panel) = Panel::decode(state) else {
        return Answer::only(BAD_STATE).say(said);
    };
    if piece.len() > PIECE_MOST {
        return Answer::only(BAD_PIECE).say(said);
    }
    if picture.len() != PICTURE {
        return Answer::only(BAD_PICTURE).say(said);
    }
    if font.len() != FONT {
        return Answer::only(BAD_FONT).say(said);
    }
    if list.len() != LIST {
        return Answer::only(BAD_LIST).say(said);
    }
    if reply.len() != REPLY {
        return Answer::only(BAD_REPLY).say(said);
    }
    if faults.len() != REGISTER {
        return Answer::only(BAD_REGISTER).say(said);
    }

    let before = panel.live.clone();
    let found = scan(&mut panel.hold, piece);
    let mut answer = Answer { taken: found.taken, dropped: found.dropped, checked: found.checked, ..Answer::only(WAITING) };
    if let Some(packet) = found.packet {
        answer.command = packet.kind & LOW_SIX;
        if packet.kind & !LOW_SIX != COMMAND {
            answer.number = STRAY;
        } else if let Some((reason, place)) = refusal(answer.command, packet.data()) {
            answer.number = REFUSED;
            (answer.reason, answer.place) = (reason, place);
            answer.reply = Packet::new(ERROR + answer.command, &[]).write(reply);
            if !file(faults, [answer.command, reason, place]) {
                // "the panel's own unfiled number, which stops there too"
                panel.unfiled = panel.unfiled.saturating_add(1);
            }
        } else {
            answer.number = DONE;
            answer.reply = panel.carry_out(answer.command, packet.data()).write(reply);
        }
    }
    answer.cells = repaint(&before, &panel.live, font, picture, list);
    panel.encode(state);
    answer.say(said)
}

/// Key number = bit number: up, enter, cancel, left, right, down.
const KEYS: u8 = 6;

/// "up 1, down 2, left 3, right 4, enter 5, cancel 6 for a press", by key number.
const PRESS_REPORT: [u8; KEYS as usize] = [1, 5, 6, 3, 4, 2];

/// A key goes down or up.
pub fn key(state: &mut [u8], key: u32, down: bool, reply: &mut [u8], said: &mut [u8; SAID]) -> u8 {
    let Some(mut panel) = Panel::decode(state) else {
        return Answer::only(BAD_STATE).say(said);
    };
    if reply.len() != REPLY {
        return Answer::only(BAD_REPLY).say(said);
    }
    if key >= u32::from(KEYS) {
        return Answer::only(BAD_NUMBER).say(said);
    }
    let bit = 1 << key;
    if (panel.down & bit != 0) == down {
        return Answer::only(KEY_AS_TOLD).say(said);
    }

    let press = PRESS_REPORT[key as usize];
    let (mask, report) = if down {
        panel.down |= bit;
        panel.pressed |= bit;
        (panel.live.press_mask, press)
    } else {
        panel.down &= !bit;
        panel.released |= bit;
        (panel.live.release_mask, press + 6)
    };
    let mut answer = Answer::only(DONE);
    if mask & bit != 0 {
        answer.reply = Packet::new(REPORT, &[report]).write(reply);
    }
    panel.encode(state);
    answer.say(said)
}

/// The level at a pin, 0 to 4. "A pin event with the level unchanged marks no edge."
pub fn pin(state: &mut [u8], pin: u32, high: bool, said: &mut [u8; SAID]) -> u8 {
    let Some(mut panel) = Panel::decode(state) else {
        return Answer::only(BAD_STATE).say(said);
    };
    if pin >= 5 {
        return Answer::only(BAD_NUMBER).say(said);
    }

    let pin = pin as usize;
    let level = u8::from(high);
    if level > panel.last[pin] {
        panel.rose[pin] = 1;
    }
    if level < panel.last[pin] {
        panel.fell[pin] = 1;
    }
    panel.last[pin] = level;
    panel.encode(state);
    Answer::only(DONE).say(said)
}

/// Document 02, order 4: "which cells a symbol is on", as a rising list. "10 ..., 27 glyph above 7, then 14 for a list buffer of
/// wrong size": in this order, and not the lowest first.
pub fn symbol_cells(state: &[u8], glyph: u32, list: &mut [u8], said: &mut [u8; SAID]) -> u8 {
    let Some(panel) = Panel::decode(state) else {
        return Answer::only(BAD_STATE).say(said);
    };
    if glyph > 7 {
        return Answer::only(BAD_GLYPH).say(said);
    }
    if list.len() != LIST {
        return Answer::only(BAD_LIST).say(said);
    }

    let mut answer = Answer::only(DONE);
    for (cell, &set) in panel.sets.iter().enumerate() {
        if u32::from(set) == 1 + glyph {
            list[answer.cells] = cell as u8;
            answer.cells += 1;
        }
    }
    answer.say(said)
}
