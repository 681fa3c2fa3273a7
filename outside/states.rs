//! States in their ranges and out of them, registers and fonts.

use crate::reading::{FONT, REGISTER, STATE};
use crate::traffic::{code, traffic, Rng, COMMANDS};

/// Where the parts stand in the state, and how long settings are.
pub const HELD: usize = 1;
pub const UNFILED: usize = 26;
pub const LIVE: usize = 30;
pub const BOOT: usize = 199;
pub const KEYS: usize = 368;
pub const PINS: usize = 371;
pub const FLASH: usize = 374;
pub const SETS: usize = 390;
pub const SETTINGS: usize = 169;

/// Where text and glyphs stand in settings, and where the glyphs end.
pub const TEXT: usize = 0;
pub const GLYPHS: usize = 80;
pub const GLYPHS_END: usize = 144;

pub fn field_of_state(offset: usize) -> &'static str {
    match offset {
        0 => "(held count)",
        HELD..UNFILED => "(held bytes)",
        UNFILED..LIVE => "(unfiled)",
        LIVE..BOOT => "(live settings)",
        BOOT..KEYS => "(boot state)",
        KEYS..PINS => "(keys)",
        PINS..FLASH => "(pins)",
        FLASH..SETS => "(flash)",
        SETS..STATE => "(sets)",
        _ => "(behind)",
    }
}

/// Every command, reason and place that a refusal can have.
pub fn possible_keys() -> Vec<[u8; 3]> {
    let mut keys: Vec<[u8; 3]> = (0..64).filter(|code| !COMMANDS.contains(code)).map(|code| [code, 1, 0]).collect();
    keys.extend(COMMANDS[1..].iter().map(|&code| [code, 2, 1]));
    for (code, places) in [(9, 9), (10, 1), (11, 2), (12, 1), (13, 1), (14, 1), (23, 2), (31, 2), (34, 3), (35, 1)] {
        keys.extend((0..places).map(|index| [code, 3, 2 + index]));
    }
    keys.extend((1..20).map(|column| [31, 4, 24 - column]));
    keys.push([5, 5, 2]);
    keys
}

/// The highest value in range of a settings byte; 254 for the contrast. Text is free.
fn settings_most(offset: usize) -> Option<u8> {
    match offset {
        80..=143 => Some(63),
        144 => Some(19),
        145 => Some(3),
        146 => Some(4),
        147 => Some(254),
        148 => Some(100),
        149 | 150 => Some(63),
        151..=163 => Some(100),
        164..=168 => Some(15),
        _ => None,
    }
}

/// The same for a byte of the state; held bytes, text, flash and unfiled are free, and the sets follow the live text.
fn state_most(offset: usize) -> Option<u8> {
    match offset {
        0 => Some(25),
        LIVE..BOOT => settings_most(offset - LIVE),
        BOOT..KEYS => settings_most(offset - BOOT),
        KEYS..PINS => Some(63),
        PINS..FLASH => Some(31),
        _ => None,
    }
}

fn is_config(offset: usize) -> bool {
    (LIVE + 164..LIVE + SETTINGS).contains(&offset) || (BOOT + 164..BOOT + SETTINGS).contains(&offset)
}

/// What is kept of a cell with this code: 1 + the number of the glyph that it draws, 0 if it draws none.
pub fn mark(code: u8) -> u8 {
    match code {
        0..=7 => code + 1,
        8..=15 => code - 7,
        _ => 0,
    }
}

/// What a search of the live text finds, as the state keeps it.
pub fn search(state: &[u8]) -> Vec<u8> {
    state[LIVE..LIVE + GLYPHS].iter().map(|&code| mark(code)).collect()
}

/// Makes the sets those of the live text.
pub fn set_right(state: &mut [u8]) {
    let right = search(state);
    state[SETS..].copy_from_slice(&right);
}

/// How sets can differ from those of the live text; the last way is any other.
pub const WRONG_SETS: [&str; 9] = [
    "one bit, so that it means nothing",
    "one cell in no set",
    "one cell in another set",
    "one cell too many",
    "shifted",
    "of the boot text",
    "none",
    "glyph for 1 + glyph",
    "any",
];

/// Which of these ways it is, if the sets differ at all.
pub fn way_of_wrong_sets(state: &[u8]) -> Option<usize> {
    let (right, sets) = (search(state), &state[SETS..]);
    let wrong: Vec<usize> = (0..80).filter(|&cell| sets[cell] != right[cell]).collect();
    let &cell = wrong.first()?;
    let rotated = |by: usize| right[by..] == sets[..80 - by] && right[..by] == sets[80 - by..];
    let boot_text = &state[BOOT..BOOT + GLYPHS];
    Some(match (wrong.len(), sets[cell], right[cell]) {
        (1, 0, _) => 1,
        (1, 1..=8, 1..) => 2,
        (1, 1..=8, 0) => 3,
        (1, is, was) if (is ^ was).is_power_of_two() => 0,
        _ if rotated(1) || rotated(79) => 4,
        _ if boot_text.iter().zip(sets).all(|(&code, &is)| is == mark(code)) => 5,
        _ if sets.iter().all(|&is| is == 0) => 6,
        _ if right.iter().zip(sets).all(|(&was, &is)| is == was.saturating_sub(1)) => 7,
        _ => 8,
    })
}

/// Makes the sets differ from those of the live text.
pub fn spoil_sets(rng: &mut Rng, state: &mut [u8]) {
    set_right(state);
    let right = state[SETS..].to_vec();
    let cell = if rng.one_in(4) { rng.pick(&[0, 79]) } else { rng.below(80) };
    let sets = &mut state[SETS..];
    match rng.below(12) {
        0 => sets[cell] ^= 1 << rng.below(8),
        1 => sets[cell] = rng.up_to(8),
        2 => sets.rotate_left(1),
        3 => sets.rotate_right(1),
        4 | 5 => {
            for at in 0..80 {
                state[SETS + at] = mark(state[BOOT + at]);
            }
        }
        6 => sets.fill(0),
        7 => sets.iter_mut().for_each(|mark| *mark = mark.saturating_sub(1)),
        // Another text, its sets not followed.
        8 => state[LIVE + cell] = code(rng),
        9 => state[LIVE..LIVE + GLYPHS].fill(32),
        // Only the codes from 0 to 7, or those up to 23 too.
        10 => {
            let most = rng.pick(&[7, 23]);
            for at in 0..80 {
                let shown = state[LIVE + at];
                state[SETS + at] = if shown <= most { shown % 8 + 1 } else { 0 };
            }
        }
        _ => rng.fill(sets),
    }
    // Some of these are right by chance, as where the text has no glyph.
    if search(state) == state[SETS..] {
        state[SETS..].copy_from_slice(&right);
        state[SETS + cell] ^= 1 << rng.below(8);
    }
}

pub fn random_state(rng: &mut Rng) -> Vec<u8> {
    let mut state = rng.bytes(STATE);
    for (offset, byte) in state.iter_mut().enumerate() {
        if let Some(most) = state_most(offset) {
            *byte = rng.up_to(most);
            if is_config(offset) && *byte & 7 == 6 {
                *byte += 1;
            }
        }
    }
    for start in [LIVE, BOOT] {
        match rng.below(4) {
            0 => {}
            1 => state[start..start + GLYPHS].fill(code(rng)),
            _ => state[start..start + GLYPHS].iter_mut().for_each(|byte| *byte = code(rng)),
        }
        if rng.one_in(3) {
            // Glyphs that draw alike.
            let glyph: Vec<u8> = (0..8).map(|_| rng.up_to(63)).collect();
            for g in 0..8 {
                if rng.flag() {
                    state[start + GLYPHS + 8 * g..start + GLYPHS + 8 * g + 8].copy_from_slice(&glyph);
                }
            }
        }
    }
    match rng.below(4) {
        0 => state.copy_within(LIVE..BOOT, BOOT),
        1 => {
            // A boot state that draws the same by other codes: glyph g stands at g + 1.
            state.copy_within(LIVE..BOOT, BOOT);
            state[BOOT + GLYPHS..BOOT + GLYPHS_END].rotate_right(8);
            state[BOOT..BOOT + GLYPHS].iter_mut().filter(|code| **code < 16).for_each(|code| *code = (*code + 1) % 16);
        }
        _ => {}
    }
    let count = if rng.one_in(3) { 0 } else { rng.up_to(25) };
    state[0] = count;
    match rng.below(3) {
        0 => {}
        1 => state[HELD..UNFILED].copy_from_slice(&traffic(rng, 25)[..25]),
        _ => state[HELD..UNFILED].fill(rng.pick(&[0x16, 0x15, 0, 1])),
    }
    if rng.one_in(3) {
        state[HELD + usize::from(count)..UNFILED].fill(0);
    }
    let unfiled = if rng.one_in(3) { 0 } else { rng.count() };
    state[UNFILED..LIVE].copy_from_slice(&unfiled.to_le_bytes());
    set_right(&mut state);
    state
}

/// Pushes one value out of its range, or the sets away from the text.
pub fn spoil(rng: &mut Rng, state: &mut [u8]) {
    if rng.one_in(3) {
        return spoil_sets(rng, state);
    }
    let offset = loop {
        // The settings have most of the bytes; the others get their turn too.
        let offset = match rng.below(4) {
            0 => 0,
            1 => rng.between(KEYS, FLASH - 1),
            2 => rng.pick(&[LIVE, BOOT]) + rng.between(144, SETTINGS - 1),
            _ => rng.below(STATE),
        };
        if state_most(offset).is_some() {
            break offset;
        }
    };
    let most = state_most(offset).unwrap();
    state[offset] = if is_config(offset) && rng.flag() { rng.pick(&[6, 14]) } else { rng.above(most) };
}

pub fn random_register(rng: &mut Rng) -> Vec<u8> {
    let keys = possible_keys();
    let mut register = vec![0; REGISTER];
    // How many in 64 are free.
    let free = rng.pick(&[0, 0, 0, 1, 2, 16, 60, 64]);
    if free == 64 && rng.flag() {
        return register;
    }
    let few = rng.one_in(4);
    for record in register.chunks_mut(7) {
        let key = match rng.below(8) {
            0 => [rng.byte(), rng.byte(), rng.byte()],
            _ if few => keys[rng.below(3)],
            _ => rng.pick(&keys),
        };
        record[..3].copy_from_slice(&key);
        let count = if rng.below(64) < free { 0 } else { rng.count() };
        record[3..].copy_from_slice(&count.to_le_bytes());
    }
    register
}

/// "a font whose rows for code c all equal c mod 64".
pub fn program_font() -> Vec<u8> {
    (0..FONT).map(|at| (at / 8) as u8 & 63).collect()
}

pub fn random_font(rng: &mut Rng) -> Vec<u8> {
    let mut font = program_font();
    match rng.below(6) {
        0 | 1 => {}
        2 | 3 => rng.fill(&mut font),
        4 => {
            // Few drawings, with top bits that draw nothing.
            let rows = rng.bytes(4);
            for code in font.chunks_mut(8) {
                let row = rng.pick(&rows) & 63;
                code.iter_mut().for_each(|line| *line = row | rng.byte() & 192);
            }
        }
        _ => {
            // Codes that differ in one line at most.
            let row = rng.byte();
            font.fill(row);
            for code in font.chunks_mut(8) {
                code[rng.below(8)] = row ^ 1 << rng.below(8);
            }
        }
    }
    font
}
