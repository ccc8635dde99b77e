//! A board that is made twice: by the static library, and in plain Rust.

use crate::board::Board;
use crate::parts::{Crossing, Eeprom, Flash};

pub type PlainBoard = Board<Crossing<Flash>, Eeprom, Eeprom>;

/// A board with blank memories and a crossed flash: the base and the length of the flash, its sectors and the words
/// of each, and the lengths of the EEPROMs.
#[repr(C)]
#[derive(Clone, Copy, Debug)]
pub struct Plan {
    pub base: u32,
    pub part_id: u16,
    pub flash: usize,
    pub sectors: usize,
    pub words: usize,
    pub boot: usize,
    pub eeprom: usize,
}

impl Plan {
    /// The board in plain Rust.
    pub fn plain(&self) -> PlainBoard {
        let flash = Flash::new(vec![0xFF; self.flash], self.sectors, self.words);
        Board::new(
            self.base,
            self.part_id,
            Crossing::new(flash),
            Eeprom::new(vec![0xFF; self.boot]),
            Eeprom::new(vec![0xFF; self.eeprom]),
        )
    }
}
