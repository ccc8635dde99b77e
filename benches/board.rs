//! The board in plain Rust: the bootloader over three memory parts, all of its protocol but for the ticks.

// The bit rate is never read here, and no program uses all of it.
#![allow(dead_code)]

use crate::crc::eight_by_eight;
use crate::parts::{Part, WritablePart, seal};

/// The identifier of the frames that a host sends.
pub const FRAME_ID: u32 = 0x0B08_1880;

const CRC_START: u16 = 0xFFFF;

const MAX_RECORD: usize = 252;

/// Why a command is refused, by its code.
#[derive(Clone, Copy, PartialEq, Eq, Debug)]
enum Refusal {
    Unknown = 0x30,
    Syntax = 0x31,
    OutOfRange = 0x32,
    Denied = 0x33,
    Locked = 0x35,
    Unavailable = 0x36,
    Failed = 0x7F,
}

/// The five bytes of a reply behind its counter.
type Payload = [u8; 5];

#[derive(Clone, Copy, PartialEq, Eq, Debug)]
enum State {
    Waiting,
    Connected,
    Idle,
    Running,
}

#[derive(Clone, Copy, PartialEq, Eq, Debug)]
enum Space {
    Flash,
    Register,
    Boot,
    Data,
}

impl TryFrom<u8> for Space {
    type Error = Refusal;

    fn try_from(extension: u8) -> Result<Space, Refusal> {
        match extension {
            0 => Ok(Space::Flash),
            1 => Ok(Space::Register),
            2 => Ok(Space::Boot),
            3 => Ok(Space::Data),
            _ => Err(Refusal::OutOfRange),
        }
    }
}

/// The talk with a host: what is selected, the record that is gathered for it, the locks that are open, and the CRC
/// over all records.
struct Dialog {
    space: Space,
    address: u32,
    record: Vec<u8>,
    flash_open: bool,
    boot_open: bool,
    data_open: bool,
    image_crc: u16,
}

impl Dialog {
    fn new() -> Dialog {
        Dialog {
            space: Space::Flash,
            address: 0,
            record: Vec::with_capacity(MAX_RECORD),
            flash_open: false,
            boot_open: false,
            data_open: false,
            image_crc: CRC_START,
        }
    }

    /// As each Connect finds it.
    fn reset(&mut self) {
        let mut record = std::mem::take(&mut self.record);
        record.clear();
        *self = Dialog {
            record,
            ..Dialog::new()
        };
    }

    fn set_mta(&mut self, number: u8, extension: u8, address: u32) -> Result<Payload, Refusal> {
        if number != 0 {
            return Err(Refusal::OutOfRange);
        }
        self.space = Space::try_from(extension)?;
        self.address = address;
        self.record.clear();
        Ok([0; 5])
    }

    fn unlock(&mut self, size: u8, password: u16) -> Result<Payload, Refusal> {
        if size != 2 {
            return Err(Refusal::Syntax);
        }
        if self.space != Space::Register || self.address != 0 {
            return Err(Refusal::Denied);
        }
        match password {
            0x1234 => self.flash_open = true,
            0xABCD => self.boot_open = true,
            0x9876 => self.data_open = true,
            _ => return Err(Refusal::Locked),
        }
        Ok([1, 0, 0, 0, 2])
    }

    fn check_access(&self) -> Result<(), Refusal> {
        let open = match self.space {
            Space::Flash => self.flash_open,
            Space::Register => return Err(Refusal::Unavailable),
            Space::Boot => self.boot_open,
            Space::Data => self.data_open,
        };
        if open { Ok(()) } else { Err(Refusal::Locked) }
    }

    /// The offset of so many bytes from the selected address on, if they lie in the part.
    fn offset_in<P: Part>(&self, part: &P, base: u32, len: usize) -> Option<usize> {
        let offset = self.address.checked_sub(base)? as usize * P::BYTES_PER_ADDRESS;
        (offset + len <= part.len()).then_some(offset)
    }

    fn address_behind<P: Part>(&self, len: usize) -> u32 {
        self.address
            .wrapping_add((len / P::BYTES_PER_ADDRESS) as u32)
    }

    fn download<P: Part>(&mut self, part: &P, base: u32, more: &[u8]) -> Result<Payload, Refusal> {
        self.check_access()?;
        let len = self.record.len() + more.len();
        if len > MAX_RECORD || self.offset_in(part, base, len).is_none() {
            return Err(Refusal::OutOfRange);
        }
        self.record.extend_from_slice(more);
        let [a, b, c, d] = self.address_behind::<P>(len).to_be_bytes();
        Ok([self.space as u8, a, b, c, d])
    }

    /// Puts the record, if it has the CRC that is told and the part takes all of it.
    fn program<P: WritablePart>(
        &mut self,
        part: &mut P,
        base: u32,
        crc: u16,
    ) -> Result<Payload, Refusal> {
        self.check_access()?;
        if self.record.is_empty() {
            return Err(Refusal::Syntax);
        }
        if self.record.len() % P::BYTES_PER_ADDRESS != 0 {
            return Err(Refusal::OutOfRange);
        }
        if eight_by_eight(CRC_START, &self.record) != crc {
            return Err(Refusal::Failed);
        }
        let offset = self
            .offset_in(part, base, self.record.len())
            .ok_or(Refusal::Unavailable)?;
        put_whole(part, offset, &self.record)?;
        self.address = self.address_behind::<P>(self.record.len());
        self.image_crc = eight_by_eight(self.image_crc, &self.record);
        self.record.clear();
        Ok(space_and_crc(self.space, crc))
    }

    /// Clears the units of a mask, or every unit.
    fn clear<P: WritablePart>(
        &mut self,
        part: &mut P,
        mask: Option<u32>,
    ) -> Result<Payload, Refusal> {
        self.check_access()?;
        if mask.is_some_and(|mask| mask == 0 || u64::from(mask) >> part.units() != 0) {
            return Err(Refusal::OutOfRange);
        }
        for unit in 0..part.units() {
            if mask.is_none_or(|mask| mask >> unit & 1 == 1) {
                part.clear(unit).map_err(|_| Refusal::Unavailable)?;
            }
        }
        self.record.clear();
        self.image_crc = CRC_START;
        Ok([0; 5])
    }
}

fn space_and_crc(space: Space, crc: u16) -> Payload {
    let [high, low] = crc.to_be_bytes();
    [space as u8, high, low, 0, 0]
}

/// Puts bytes from an offset on, or none where one is not taken.
fn put_whole<P: WritablePart>(part: &mut P, start: usize, bytes: &[u8]) -> Result<(), Refusal> {
    for (i, byte) in bytes.iter().enumerate() {
        if part.question(start + i, *byte) != Ok(true) {
            return Err(Refusal::Unavailable);
        }
    }
    for (i, byte) in bytes.iter().enumerate() {
        part.put(start + i, *byte)
            .map_err(|_| Refusal::Unavailable)?;
    }
    Ok(())
}

/// The seal that is stored in the last two bytes of a part.
fn stored_seal<P: Part>(part: &P) -> Option<u16> {
    let start = part.len().checked_sub(2)?;
    let high = part.read(start).ok()?;
    let low = part.read(start + 1).ok()?;
    Some(u16::from_be_bytes([high, low]))
}

/// A frame that was answered, and its reply.
struct Exchange {
    frame: [u8; 8],
    reply: [u8; 8],
}

pub struct Board<F, B, E> {
    base: u32,
    part_id: u16,
    state: State,
    dialog: Dialog,
    /// The bit rate that a host asked for last, by its number.
    rate: u16,
    last: Option<Exchange>,
    flash: F,
    boot: B,
    eeprom: E,
}

impl<F: WritablePart, B: WritablePart, E: WritablePart> Board<F, B, E> {
    pub fn new(base: u32, part_id: u16, flash: F, boot: B, eeprom: E) -> Self {
        Board {
            base,
            part_id,
            state: State::Waiting,
            dialog: Dialog::new(),
            rate: 2,
            last: None,
            flash,
            boot,
            eeprom,
        }
    }

    pub fn flash(&self) -> &F {
        &self.flash
    }

    /// Takes a frame with its identifier; the reply, if there is one.
    pub fn frame(&mut self, id: u32, bytes: &[u8]) -> Option<[u8; 8]> {
        if id != FRAME_ID || self.state == State::Running {
            return None;
        }
        let frame: [u8; 8] = bytes.try_into().ok()?;
        if frame[0] == 0x21 {
            self.serve(&frame);
            return None;
        }
        if let Some(last) = &self.last
            && last.frame == frame
        {
            return Some(last.reply);
        }
        let (code, [a, b, c, d, e]) = match self.carry_out(&frame) {
            Ok(payload) => (0, payload),
            Err(refusal) => (refusal as u8, [0; 5]),
        };
        let reply = [0xFF, code, frame[1], a, b, c, d, e];
        self.last = Some(Exchange { frame, reply });
        Some(reply)
    }

    /// Action Service, of which only the bit rate is known.
    fn serve(&mut self, frame: &[u8; 8]) {
        let kind = u16::from_be_bytes([frame[2], frame[3]]);
        let rate = u16::from_be_bytes([frame[4], frame[5]]);
        if kind == 0x0081 && rate <= 5 {
            self.rate = rate;
        }
    }

    fn carry_out(&mut self, frame: &[u8; 8]) -> Result<Payload, Refusal> {
        let [code, _, a, b, c, d, e, f] = *frame;
        match code {
            0x01 => return Ok(self.connect()),
            0x02 | 0x03 | 0x07 | 0x0E | 0x10 | 0x13 | 0x23 => {}
            _ => return Err(Refusal::Unknown),
        }
        if self.state != State::Connected {
            return Err(Refusal::Denied);
        }
        let number = u32::from_be_bytes([a, b, c, d]);
        match code {
            0x02 => self.dialog.set_mta(a, b, u32::from_be_bytes([c, d, e, f])),
            0x03 if (1..=5).contains(&a) => self.download(&[b, c, d, e, f][..usize::from(a)]),
            0x03 => Err(Refusal::Syntax),
            0x07 => self.disconnect(a),
            0x0E if number == 0 => self.check_image(u16::from_be_bytes([e, f])),
            0x0E => self.program(u16::from_be_bytes([e, f])),
            0x10 => self.clear(number),
            0x13 => self.dialog.unlock(a, u16::from_be_bytes([b, c])),
            _ => self.download(&[a, b, c, d, e, f]),
        }
    }

    fn connect(&mut self) -> Payload {
        self.state = State::Connected;
        self.dialog.reset();
        let [high, low] = self.part_id.to_be_bytes();
        [1, 0, high, low, 0]
    }

    fn download(&mut self, bytes: &[u8]) -> Result<Payload, Refusal> {
        match self.dialog.space {
            Space::Flash => self.dialog.download(&self.flash, self.base, bytes),
            Space::Register => Err(Refusal::Unavailable),
            Space::Boot => self.dialog.download(&self.boot, 0, bytes),
            Space::Data => self.dialog.download(&self.eeprom, 0, bytes),
        }
    }

    fn program(&mut self, crc: u16) -> Result<Payload, Refusal> {
        match self.dialog.space {
            Space::Flash => self.dialog.program(&mut self.flash, self.base, crc),
            Space::Register => Err(Refusal::Unavailable),
            Space::Boot => self.dialog.program(&mut self.boot, 0, crc),
            Space::Data => self.dialog.program(&mut self.eeprom, 0, crc),
        }
    }

    fn clear(&mut self, mask: u32) -> Result<Payload, Refusal> {
        match self.dialog.space {
            Space::Flash => self.dialog.clear(&mut self.flash, Some(mask)),
            Space::Register => Err(Refusal::Unavailable),
            Space::Boot => self.dialog.clear(&mut self.boot, None),
            Space::Data => self.dialog.clear(&mut self.eeprom, None),
        }
    }

    /// Compares the CRC over the records, and stores the seal of an image of the flash.
    fn check_image(&mut self, crc: u16) -> Result<Payload, Refusal> {
        self.dialog.check_access()?;
        if !self.dialog.record.is_empty() {
            return Err(Refusal::Syntax);
        }
        if self.dialog.image_crc != crc {
            return Err(Refusal::Failed);
        }
        if self.dialog.space == Space::Flash {
            let start = self.boot.len().checked_sub(2).ok_or(Refusal::Unavailable)?;
            let sealed = seal(&self.flash).map_err(|_| Refusal::Unavailable)?;
            put_whole(&mut self.boot, start, &sealed.to_be_bytes())?;
        }
        Ok(space_and_crc(self.dialog.space, crc))
    }

    /// The application is started if the flash is sealed.
    fn disconnect(&mut self, kind: u8) -> Result<Payload, Refusal> {
        if kind != 1 {
            return Err(Refusal::OutOfRange);
        }
        let sealed = stored_seal(&self.boot).is_some_and(|stored| seal(&self.flash) == Ok(stored));
        self.state = if sealed { State::Running } else { State::Idle };
        Ok([0; 5])
    }
}
