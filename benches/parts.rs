//! Memory parts in plain Rust: a flash, an EEPROM and a lane crossing, and the seal of any part that can be read.

// No program uses all of it.
#![allow(dead_code)]

use crate::crc::crc_byte;
use std::ops::Range;

/// What a byte is after its unit was cleared.
const BLANK: u8 = 0xFF;

/// The most bytes of a part.
const MAX_LENGTH: usize = 1 << 20;

/// Why a part refuses a call.
#[derive(Clone, Copy, PartialEq, Eq, Debug)]
pub enum Refusal {
    Outside,
    NotTaken,
    NoSuchUnit,
}

pub trait Part {
    const BYTES_PER_ADDRESS: usize;

    fn len(&self) -> usize;

    fn read(&self, offset: usize) -> Result<u8, Refusal>;
}

/// A part that can be written: it is questioned whether it takes a byte, and cleared by units.
pub trait WritablePart: Part {
    fn units(&self) -> usize;

    fn question(&self, offset: usize, value: u8) -> Result<bool, Refusal>;

    fn put(&mut self, offset: usize, value: u8) -> Result<(), Refusal>;

    fn clear(&mut self, unit: usize) -> Result<(), Refusal>;
}

pub struct Flash {
    bytes: Vec<u8>,
    sectors: usize,
}

impl Flash {
    /// A flash of sectors over a buffer, of one sector of no bytes where they do not fit.
    pub fn new(mut bytes: Vec<u8>, sectors: usize, words: usize) -> Flash {
        let (sectors, len) = match sectors.checked_mul(words * 2) {
            Some(len) if (1..=32).contains(&sectors) && len <= bytes.len().min(MAX_LENGTH) => {
                (sectors, len)
            }
            _ => (1, 0),
        };
        bytes.truncate(len);
        Flash { bytes, sectors }
    }

    /// The offsets of a sector; the first has the highest.
    fn sector(&self, unit: usize) -> Range<usize> {
        let size = self.bytes.len() / self.sectors;
        let start = (self.sectors - 1 - unit) * size;
        start..start + size
    }

    /// A byte can only be made one that has no bit more.
    fn takes(old: u8, value: u8) -> bool {
        value & old == value
    }
}

impl Part for Flash {
    const BYTES_PER_ADDRESS: usize = 2;

    fn len(&self) -> usize {
        self.bytes.len()
    }

    fn read(&self, offset: usize) -> Result<u8, Refusal> {
        self.bytes.get(offset).copied().ok_or(Refusal::Outside)
    }
}

impl WritablePart for Flash {
    fn units(&self) -> usize {
        self.sectors
    }

    fn question(&self, offset: usize, value: u8) -> Result<bool, Refusal> {
        Ok(Flash::takes(self.read(offset)?, value))
    }

    fn put(&mut self, offset: usize, value: u8) -> Result<(), Refusal> {
        let byte = self.bytes.get_mut(offset).ok_or(Refusal::Outside)?;
        if !Flash::takes(*byte, value) {
            return Err(Refusal::NotTaken);
        }
        *byte = value;
        Ok(())
    }

    fn clear(&mut self, unit: usize) -> Result<(), Refusal> {
        if unit >= self.sectors {
            return Err(Refusal::NoSuchUnit);
        }
        let sector = self.sector(unit);
        self.bytes[sector].fill(BLANK);
        Ok(())
    }
}

/// It takes every byte, and is one unit.
pub struct Eeprom {
    bytes: Vec<u8>,
}

impl Eeprom {
    pub fn new(mut bytes: Vec<u8>) -> Eeprom {
        bytes.truncate(MAX_LENGTH);
        Eeprom { bytes }
    }
}

impl Part for Eeprom {
    const BYTES_PER_ADDRESS: usize = 1;

    fn len(&self) -> usize {
        self.bytes.len()
    }

    fn read(&self, offset: usize) -> Result<u8, Refusal> {
        self.bytes.get(offset).copied().ok_or(Refusal::Outside)
    }
}

impl WritablePart for Eeprom {
    fn units(&self) -> usize {
        1
    }

    fn question(&self, offset: usize, _: u8) -> Result<bool, Refusal> {
        self.read(offset).map(|_| true)
    }

    fn put(&mut self, offset: usize, value: u8) -> Result<(), Refusal> {
        *self.bytes.get_mut(offset).ok_or(Refusal::Outside)? = value;
        Ok(())
    }

    fn clear(&mut self, unit: usize) -> Result<(), Refusal> {
        if unit >= 1 {
            return Err(Refusal::NoSuchUnit);
        }
        self.bytes.fill(BLANK);
        Ok(())
    }
}

/// A part over any part: the bytes at an even offset and at the next one are in each other's place.
pub struct Crossing<P> {
    below: P,
}

impl<P: Part> Crossing<P> {
    pub fn new(below: P) -> Crossing<P> {
        Crossing { below }
    }

    /// The offset below; a last one without another, and one outside, is itself.
    fn across(&self, offset: usize) -> usize {
        if offset % 2 == 0 && offset + 1 < self.below.len() {
            offset + 1
        } else if offset % 2 == 1 && offset < self.below.len() {
            offset - 1
        } else {
            offset
        }
    }
}

impl<P: Part> Part for Crossing<P> {
    const BYTES_PER_ADDRESS: usize = P::BYTES_PER_ADDRESS;

    fn len(&self) -> usize {
        self.below.len()
    }

    fn read(&self, offset: usize) -> Result<u8, Refusal> {
        self.below.read(self.across(offset))
    }
}

impl<P: WritablePart> WritablePart for Crossing<P> {
    fn units(&self) -> usize {
        self.below.units()
    }

    fn question(&self, offset: usize, value: u8) -> Result<bool, Refusal> {
        self.below.question(self.across(offset), value)
    }

    fn put(&mut self, offset: usize, value: u8) -> Result<(), Refusal> {
        self.below.put(self.across(offset), value)
    }

    fn clear(&mut self, unit: usize) -> Result<(), Refusal> {
        self.below.clear(unit)
    }
}

/// The CRC over every 128th address that lies whole in a part.
pub fn seal<P: Part>(part: &P) -> Result<u16, Refusal> {
    let addresses = part.len() / P::BYTES_PER_ADDRESS;
    let mut crc = 0xFFFF;
    for address in (0..addresses).step_by(128) {
        let start = address * P::BYTES_PER_ADDRESS;
        for offset in start..start + P::BYTES_PER_ADDRESS {
            crc = crc_byte(crc, part.read(offset)?);
        }
    }
    Ok(crc)
}
