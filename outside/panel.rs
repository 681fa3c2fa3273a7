//! The library's panel, with all that is lent to it.

use crate::common::expect;
use crate::library;
use crate::reading::{self, DONE, LIST, PICTURE, REGISTER, SAID, STATE};
use crate::states::program_font;

/// Its own calls are compared in the test of the panel.
pub struct Panel {
    at_power_on: Vec<u8>,
    pub state: Vec<u8>,
    picture: Vec<u8>,
    font: Vec<u8>,
    list: Vec<u8>,
    reply: Vec<u8>,
    register: Vec<u8>,
    said: [u8; SAID],
    pub calls: u64,
}

impl Panel {
    pub fn new() -> Panel {
        let mut panel = Panel {
            at_power_on: Vec::new(),
            state: vec![0; STATE],
            picture: vec![0; PICTURE],
            font: program_font(),
            list: vec![0; LIST],
            reply: vec![0; reading::REPLY],
            register: vec![0; REGISTER],
            said: [0; SAID],
            calls: 1,
        };
        let (state, picture, font) = (&mut panel.state, &mut panel.picture, &panel.font);
        // Safety: every pointer points to as many bytes as its length says, and no two buffers overlap.
        let number = unsafe {
            library::naupelys_power_on(
                state.as_mut_ptr(),
                state.len(),
                picture.as_mut_ptr(),
                picture.len(),
                font.as_ptr(),
                font.len(),
                panel.said.as_mut_ptr(),
            )
        };
        expect("power-on", number, DONE);
        panel.at_power_on.clone_from(&panel.state);
        panel
    }

    /// All as at power-on, with an empty register.
    pub fn power_on(&mut self) {
        self.state.copy_from_slice(&self.at_power_on);
        self.register.fill(0);
        self.said.fill(0);
    }

    /// Another state in its ranges, with nothing held.
    pub fn in_state(&mut self, state: &[u8]) {
        self.state.copy_from_slice(state);
        self.state[0] = 0;
    }

    pub fn line(&mut self, piece: &[u8]) {
        self.calls += 1;
        // Safety: as above.
        unsafe {
            library::naupelys_line(
                self.state.as_mut_ptr(),
                self.state.len(),
                piece.as_ptr(),
                piece.len(),
                self.picture.as_mut_ptr(),
                self.picture.len(),
                self.font.as_ptr(),
                self.font.len(),
                self.list.as_mut_ptr(),
                self.list.len(),
                self.reply.as_mut_ptr(),
                self.reply.len(),
                self.register.as_mut_ptr(),
                self.register.len(),
                self.said.as_mut_ptr(),
            );
        }
    }

    pub fn key(&mut self, key: u8, down: bool) {
        self.calls += 1;
        let (state, reply) = (&mut self.state, &mut self.reply);
        // Safety: as above.
        unsafe {
            library::naupelys_key(
                state.as_mut_ptr(),
                state.len(),
                u32::from(key),
                down,
                reply.as_mut_ptr(),
                reply.len(),
                self.said.as_mut_ptr(),
            );
        }
    }

    pub fn pin(&mut self, pin: u8, high: bool) {
        self.calls += 1;
        // Safety: as above.
        unsafe {
            library::naupelys_pin(self.state.as_mut_ptr(), self.state.len(), u32::from(pin), high, self.said.as_mut_ptr());
        }
    }

    /// Number, command, reason and place of the last call.
    pub fn answer(&self) -> [u8; 4] {
        [self.said[0], self.said[1], self.said[2], self.said[3]]
    }

    /// Bytes taken, dropped and checked in the last call, and how many are held now.
    pub fn counts(&self) -> [usize; 4] {
        let two = |at: usize| usize::from(self.said[at]) + 256 * usize::from(self.said[at + 1]);
        [two(4), two(6), two(8) + 65_536 * two(10), usize::from(self.state[0])]
    }

    pub fn reply(&self) -> &[u8] {
        &self.reply[..usize::from(self.said[12])]
    }
}
