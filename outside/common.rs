//! What the tests that compare have in common: buffers between guards, the names of a header, worked cases.

use crate::states::field_of_state;
use crate::traffic::Rng;
use std::collections::{BTreeMap, BTreeSet};
use std::process::exit;

// ---------------------------------------------------------------------------------------------------------------------------
// What is lent to a call
// ---------------------------------------------------------------------------------------------------------------------------

pub const GUARD: usize = 16;
const GUARD_BYTE: u8 = 0xA5;

/// A lent buffer between two guards, which must stay as they are.
#[derive(Clone, PartialEq)]
pub struct Buffer(Vec<u8>);

impl Buffer {
    pub fn new(bytes: &[u8]) -> Buffer {
        let mut all = Vec::with_capacity(bytes.len() + 2 * GUARD);
        all.extend_from_slice(&[GUARD_BYTE; GUARD]);
        all.extend_from_slice(bytes);
        all.extend_from_slice(&[GUARD_BYTE; GUARD]);
        Buffer(all)
    }

    pub fn size(&self) -> usize {
        self.0.len() - 2 * GUARD
    }

    pub fn bytes(&self) -> &[u8] {
        &self.0[GUARD..self.0.len() - GUARD]
    }

    pub fn bytes_mut(&mut self) -> &mut [u8] {
        let end = self.0.len() - GUARD;
        &mut self.0[GUARD..end]
    }

    /// "a pointer whose length is 0 is not followed": then one that leads nowhere.
    pub fn pointer(&mut self, nowhere: *mut u8) -> *mut u8 {
        if self.size() == 0 {
            nowhere
        } else {
            self.bytes_mut().as_mut_ptr()
        }
    }
}

/// Another size than the right one.
pub fn wrong_size(rng: &mut Rng, right: usize) -> usize {
    match rng.below(10) {
        0 | 1 => right - 1,
        2 | 3 => right + 1,
        4 => 0,
        5 => 2 * right,
        6 => right + 256,
        7 if rng.one_in(8) => right + 65_536,
        _ => rng.pick(&[1, right / 2, right - 2, right + 2]),
    }
}

pub fn hex(bytes: &[u8]) -> String {
    let mut text: String = bytes.iter().take(64).map(|byte| format!("{byte:02X} ")).collect();
    if bytes.len() > 64 {
        text += "...";
    }
    text
}

pub fn print_difference(name: &str, ours: &Buffer, theirs: &Buffer) {
    let different: Vec<usize> = (0..ours.0.len()).filter(|&at| ours.0[at] != theirs.0[at]).collect();
    let at = different[0];
    let field = if name == "state" && at >= GUARD { field_of_state(at - GUARD) } else { "" };
    println!(
        "  {name}, offset {} {field}: library {}, reading {} ({} bytes differ)",
        at as isize - GUARD as isize,
        theirs.0[at],
        ours.0[at],
        different.len()
    );
}

// ---------------------------------------------------------------------------------------------------------------------------
// Cases and names
// ---------------------------------------------------------------------------------------------------------------------------

pub fn expect<T: PartialEq + std::fmt::Debug>(case: &str, got: T, want: T) {
    if got != want {
        println!("\nCASE {case}: both gave {got:?}, the paper says {want:?}");
        exit(1);
    }
}

/// The numbers of a header by their names without the prefix, and which of them were asked for.
pub struct Header {
    prefix: &'static str,
    pub numbers: BTreeMap<&'static str, usize>,
    pub asked: BTreeSet<&'static str>,
}

impl Header {
    pub fn read(text: &'static str, prefix: &'static str) -> Header {
        let lines = text.split(['\n', '{', '}', ',']);
        let numbers = lines.filter_map(|line| {
            let (name, number) = line.trim().split_once(" = ")?;
            Some((name.strip_prefix(prefix)?, number.parse().ok()?))
        });
        Header { prefix, numbers: numbers.collect(), asked: BTreeSet::new() }
    }

    pub fn number(&mut self, name: &'static str) -> usize {
        self.asked.insert(name);
        *self.numbers.get(name).unwrap_or_else(|| panic!("the header has no {}{name}", self.prefix))
    }
}
