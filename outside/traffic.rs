//! What a host may send: random numbers, packets that are allowed and packets that are not, damage, noise.

use crate::reading::checksum;

// ---------------------------------------------------------------------------------------------------------------------------
// Random numbers
// ---------------------------------------------------------------------------------------------------------------------------

/// Splitmix64.
pub struct Rng(pub u64);

impl Rng {
    /// Each sequence has its own run of numbers, so that it can be repeated alone.
    pub fn for_sequence(seed: u64, sequence: u64) -> Rng {
        let mut rng = Rng(seed ^ sequence.wrapping_mul(0xD1B5_4A32_D192_ED03));
        rng.next();
        rng
    }

    pub fn next(&mut self) -> u64 {
        self.0 = self.0.wrapping_add(0x9E37_79B9_7F4A_7C15);
        let mut z = self.0;
        z = (z ^ (z >> 30)).wrapping_mul(0xBF58_476D_1CE4_E5B9);
        z = (z ^ (z >> 27)).wrapping_mul(0x94D0_49BB_1331_11EB);
        z ^ (z >> 31)
    }

    /// 0 to n - 1.
    pub fn below(&mut self, n: usize) -> usize {
        (((self.next() >> 32) * n as u64) >> 32) as usize
    }

    /// low to high, both too.
    pub fn between(&mut self, low: usize, high: usize) -> usize {
        low + self.below(high - low + 1)
    }

    pub fn one_in(&mut self, n: usize) -> bool {
        self.below(n) == 0
    }

    pub fn flag(&mut self) -> bool {
        self.one_in(2)
    }

    pub fn byte(&mut self) -> u8 {
        self.next() as u8
    }

    pub fn fill(&mut self, bytes: &mut [u8]) {
        for chunk in bytes.chunks_mut(8) {
            let word = self.next().to_le_bytes();
            chunk.copy_from_slice(&word[..chunk.len()]);
        }
    }

    pub fn bytes(&mut self, n: usize) -> Vec<u8> {
        let mut bytes = vec![0; n];
        self.fill(&mut bytes);
        bytes
    }

    pub fn pick<T: Copy>(&mut self, from: &[T]) -> T {
        from[self.below(from.len())]
    }

    /// 0 to most, its ends more often.
    pub fn up_to(&mut self, most: u8) -> u8 {
        match self.below(6) {
            0 => 0,
            1 => most,
            2 => most.saturating_sub(1),
            _ => self.below(usize::from(most) + 1) as u8,
        }
    }

    /// most + 1 to 255, its ends more often.
    pub fn above(&mut self, most: u8) -> u8 {
        match self.below(4) {
            0 | 1 => most + 1,
            2 => 255,
            _ => self.between(usize::from(most) + 1, 255) as u8,
        }
    }

    /// The number of a key or a pin, 0 to most.
    pub fn number(&mut self, most: u8) -> u32 {
        u32::from(self.up_to(most))
    }

    /// One that is none: just above most, or one whose low byte, or low two, are 0 to most.
    pub fn no_number(&mut self, most: u8) -> u32 {
        match self.below(4) {
            0 => u32::from(self.above(most)),
            1 => 256 * self.between(1, 255) as u32 + self.number(most),
            2 => 65_536 * self.between(1, 65_535) as u32 + self.number(most),
            _ => self.pick(&[256, 65_536, 0x0100_0000, 0x8000_0000, u32::MAX]),
        }
    }

    /// A 32-bit count, with those where a byte carries and those at the end.
    pub fn count(&mut self) -> u32 {
        match self.below(8) {
            0 | 1 => u32::MAX,
            2 => u32::MAX - 1,
            3 => self.pick(&[255, 256, 65_535, 65_536, 0x00FF_FFFF, 0x0100_0000, 0x7FFF_FFFF, 0x8000_0000]),
            4 => self.next() as u32,
            _ => 1 + self.below(5) as u32,
        }
    }
}

// ---------------------------------------------------------------------------------------------------------------------------
// Bytes of the line
// ---------------------------------------------------------------------------------------------------------------------------

pub const COMMANDS: [u8; 18] = [0, 1, 2, 3, 4, 5, 6, 9, 10, 11, 12, 13, 14, 23, 24, 31, 34, 35];

pub fn packet(kind: u8, data: &[u8]) -> Vec<u8> {
    let mut bytes = vec![kind, data.len() as u8];
    bytes.extend_from_slice(data);
    let sum = checksum(&bytes);
    bytes.extend_from_slice(&sum.to_le_bytes());
    bytes
}

/// A code to write: special glyphs often, by both of their codes, and 32 and 96, which draw alike in the program's font.
pub fn code(rng: &mut Rng) -> u8 {
    match rng.below(10) {
        0..=3 => rng.below(16) as u8,
        4 | 5 => rng.pick(&[32, 96, 160, 224]),
        6 => rng.pick(&[7, 8, 15, 16, 17, 255, 63, 64, 72]),
        _ => rng.byte(),
    }
}

/// Data that the command allows, at the ends of the ranges more often.
pub fn honest_data(rng: &mut Rng, command: u8) -> Vec<u8> {
    match command {
        0 => {
            let n = rng.up_to(22);
            rng.bytes(usize::from(n))
        }
        2 => rng.bytes(16),
        5 => vec![8, 18, 99],
        9 => {
            let mut data = vec![rng.up_to(7)];
            let kind = rng.below(4);
            let same = rng.up_to(63);
            for line in 0..8 {
                data.push(match kind {
                    0 => same,
                    1 => 63 * u8::from(line >= same % 9),
                    _ => rng.up_to(63),
                });
            }
            data
        }
        10 => match rng.flag() {
            true => vec![64 + rng.up_to(56)],
            false => vec![128 + 32 * rng.up_to(3) + rng.up_to(12)],
        },
        11 => vec![rng.up_to(19), rng.up_to(3)],
        12 => vec![rng.up_to(4)],
        13 => vec![rng.up_to(254)],
        14 => vec![rng.up_to(100)],
        23 => vec![rng.up_to(63), rng.up_to(63)],
        31 => {
            let column = rng.up_to(19);
            let mut data = vec![column, rng.up_to(3)];
            let n = 1 + rng.up_to(19 - column);
            let one = code(rng);
            let all_one = rng.one_in(4);
            data.extend((0..n).map(|_| if all_one { one } else { code(rng) }));
            data
        }
        34 => {
            let mut data = vec![rng.up_to(12), rng.up_to(100)];
            if data[0] <= 4 && rng.flag() {
                data.push(rng.pick(&[0, 1, 2, 3, 4, 5, 7, 8, 9, 10, 11, 12, 13, 15]));
            }
            data
        }
        35 => vec![rng.up_to(12)],
        _ => Vec::new(),
    }
}

/// Data of an allowed length that the command does not allow, if there is any.
pub fn wrong_data(rng: &mut Rng, command: u8) -> Vec<u8> {
    let mut data = honest_data(rng, command);
    let times = if rng.one_in(4) { 3 } else { 1 };
    for _ in 0..times {
        match command {
            5 => match rng.below(4) {
                0 => data = vec![12, 28, 97],
                1 => data = vec![3, 11, 95],
                _ => {
                    let index = rng.below(3);
                    data[index] ^= 1 + rng.below(255) as u8;
                }
            },
            9 => {
                let index = rng.below(9);
                data[index] = if index == 0 { rng.above(7) } else { rng.above(63) };
            }
            10 => {
                data[0] = match rng.below(4) {
                    0 => rng.up_to(63),
                    1 => rng.between(121, 127) as u8,
                    2 => 128 + 32 * rng.up_to(3) + 13,
                    _ => 128 + 32 * rng.up_to(3) + 13 + rng.up_to(18),
                }
            }
            11 | 31 => match rng.below(if command == 31 { 4 } else { 2 }) {
                0 => data[0] = rng.above(19),
                1 => data[1] = rng.above(3),
                _ => {
                    data[0] = rng.between(1, 19) as u8;
                    let room = 20 - usize::from(data[0]);
                    let n = if rng.flag() { room + 1 } else { rng.between(room + 1, 20) };
                    data.resize(2 + n, code(rng));
                }
            },
            12 => data[0] = rng.above(4),
            13 => data[0] = 255,
            14 => data[0] = rng.above(100),
            23 => {
                let index = rng.below(2);
                data[index] = rng.above(63);
            }
            34 => match rng.below(5) {
                0 => data[0] = rng.above(12),
                1 => data[1] = rng.above(100),
                2 => {
                    data.resize(3, 0);
                    data[0] = rng.between(5, 12) as u8;
                    data[2] = rng.up_to(15);
                }
                _ => {
                    data.resize(3, 0);
                    data[0] = rng.up_to(4);
                    data[2] = if rng.flag() { rng.pick(&[6, 14]) } else { rng.above(15) };
                }
            },
            35 => data[0] = rng.above(12),
            _ => {}
        }
    }
    data
}

pub fn any_packet(rng: &mut Rng) -> Vec<u8> {
    // Those that change the picture and the boot state come more often.
    let command = match rng.below(8) {
        0 => rng.pick(&[4, 5, 6]),
        1 => 9,
        2 | 3 => 31,
        _ => rng.pick(&COMMANDS),
    };
    match rng.below(16) {
        0..=8 => packet(command, &honest_data(rng, command)),
        9..=11 => packet(command, &wrong_data(rng, command)),
        12 => {
            let n = rng.up_to(22);
            packet(command, &rng.bytes(usize::from(n)))
        }
        13 => {
            let n = if rng.flag() { 0 } else { rng.up_to(22) };
            packet(rng.below(64) as u8, &rng.bytes(usize::from(n)))
        }
        14 => packet(command | rng.pick(&[64, 128, 192]), &honest_data(rng, command)),
        _ => {
            let n = rng.up_to(22);
            packet(rng.byte(), &rng.bytes(usize::from(n)))
        }
    }
}

pub fn damage(rng: &mut Rng, bytes: &mut Vec<u8>) {
    let at = rng.below(bytes.len());
    let last = bytes.len() - 1;
    match rng.below(7) {
        0 => bytes[at] ^= 1 << rng.below(8),
        1 => bytes[at] = rng.byte(),
        2 => {
            bytes.remove(at);
        }
        3 => bytes.insert(at, rng.byte()),
        4 => bytes.truncate(at),
        5 => bytes.swap(last - 1, last),
        _ => {
            bytes[last - 1] ^= 255;
            bytes[last] ^= 255;
        }
    }
}

/// A stretch of the line: packets, damage, noise, runs.
pub fn stretch(rng: &mut Rng) -> Vec<u8> {
    match rng.below(24) {
        0..=13 => any_packet(rng),
        14 | 15 => {
            let mut bytes = any_packet(rng);
            damage(rng, &mut bytes);
            bytes
        }
        16 | 17 => {
            let n = rng.between(1, 40);
            rng.bytes(n)
        }
        18 | 19 => {
            let n = rng.between(1, 40);
            (0..n).map(|_| rng.up_to(24)).collect()
        }
        20 => vec![rng.pick(&[0x16, 0x16, 0x17, 0x15, 0, 1, 2, 255]); rng.between(1, 60)],
        21 => vec![rng.byte(); rng.between(1, 60)],
        _ => {
            // Packets inside a candidate that is none.
            let mut bytes = vec![rng.byte(), rng.up_to(22)];
            bytes.extend(any_packet(rng));
            bytes.extend(any_packet(rng));
            bytes
        }
    }
}

pub fn traffic(rng: &mut Rng, at_least: usize) -> Vec<u8> {
    let mut bytes = Vec::new();
    while bytes.len() < at_least {
        bytes.extend(stretch(rng));
    }
    bytes
}
