//! A loader in plain Rust: the file check, the plan for a listed board, and the session in which the file is sent.

use crate::board::{Board, FRAME_ID};
use crate::crc::eight_by_eight;
use crate::parts::WritablePart;
use crate::plain::{self, Fault, Kind};
use std::ops::Range;

const CRC_START: u16 = 0xFFFF;

const TRIES: usize = 3;

/// Through what a frame is sent, and answered or not.
pub trait Link {
    fn exchange(&mut self, frame: &[u8; 8]) -> Option<[u8; 8]>;
}

/// A wire to a board, on which nothing is lost.
pub struct Wire<F, B, E> {
    pub board: Board<F, B, E>,
}

impl<F: WritablePart, B: WritablePart, E: WritablePart> Link for Wire<F, B, E> {
    fn exchange(&mut self, frame: &[u8; 8]) -> Option<[u8; 8]> {
        self.board.frame(FRAME_ID, frame)
    }
}

/// Where the data records of a checked text are taken from, each with its line, its address and its bytes.
trait Records {
    fn each<E>(&self, take: impl FnMut(usize, u32, &[u8]) -> Result<(), E>) -> Result<(), E>;
}

/// The text, which is read anew each time; nothing is kept.
struct Streamed<'a>(&'a [u8]);

impl Records for Streamed<'_> {
    fn each<E>(&self, mut take: impl FnMut(usize, u32, &[u8]) -> Result<(), E>) -> Result<(), E> {
        plain::visit(self.0, |line, address, bytes| match bytes {
            [] => Ok(()),
            _ => take(line, address, bytes),
        })
    }
}

/// Records that were kept on the heap as the text was checked.
#[derive(Default)]
struct Kept {
    records: Vec<(usize, u32, Range<usize>)>,
    bytes: Vec<u8>,
}

impl Kept {
    fn keep(&mut self, number: usize, line: &plain::Line<'_>) {
        if line.kind == Kind::Data && !line.data.is_empty() {
            let start = self.bytes.len();
            self.bytes.extend_from_slice(line.data);
            self.records
                .push((number, line.address, start..self.bytes.len()));
        }
    }
}

impl Records for Kept {
    fn each<E>(&self, mut take: impl FnMut(usize, u32, &[u8]) -> Result<(), E>) -> Result<(), E> {
        for (line, address, range) in &self.records {
            take(*line, *address, &self.bytes[range.clone()])?;
        }
        Ok(())
    }
}

#[derive(Clone, Copy)]
enum Target {
    Flash,
    Boot(u64),
    Data(u64),
}

/// Its extension, and the password that opens it.
fn space(target: Target) -> (u8, u16) {
    match target {
        Target::Flash => (0, 0x1234),
        Target::Boot(_) => (2, 0xABCD),
        Target::Data(_) => (3, 0x9876),
    }
}

/// Where the flash of a listed board begins, and its sectors.
#[derive(Clone, Copy)]
struct Row {
    base: u32,
    sectors: u32,
    words: u32,
}

fn row_of(part_id: u16) -> Option<Row> {
    let (base, sectors, words) = match part_id {
        0x2C => (0x3F_4000, 4, 0x1000),
        0x24 | 0x34 => (0x3F_0000, 4, 0x2000),
        0x3C => (0x3E_8000, 4, 0x4000),
        0xFE | 0x9C..=0x9F => (0x3D_8000, 8, 0x4000),
        0xED => (0x33_0000, 4, 0x4000),
        0xEE => (0x32_0000, 8, 0x4000),
        0xEF => (0x30_0000, 8, 0x8000),
        0x01 => (0x1000, 4, 0x10),
        _ => return None,
    };
    Some(Row {
        base,
        sectors,
        words,
    })
}

impl Row {
    fn len(&self) -> u64 {
        u64::from(self.sectors) * u64::from(self.words) * 2
    }

    /// The sector of an offset; sector 0 has the highest.
    fn sector(&self, offset: u64) -> u32 {
        self.sectors - 1 - (offset / (u64::from(self.words) * 2)) as u32
    }
}

/// The sectors that are cleared, and the CRC over all records.
struct Plan {
    mask: u32,
    image_crc: u16,
}

impl Plan {
    fn of(target: Target, row: Row, records: &impl Records) -> Result<Plan, Stop> {
        let mut plan = Plan {
            mask: 0,
            image_crc: CRC_START,
        };
        let (base, width, len) = match target {
            Target::Flash => (row.base, 2, row.len()),
            Target::Boot(size) | Target::Data(size) => (0, 1, size),
        };
        records.each(|line, address, bytes| {
            let start = address
                .checked_sub(base)
                .map(|offset| u64::from(offset) * width)
                .filter(|start| start + bytes.len() as u64 <= len)
                .ok_or(Stop::Outside { line })?;
            if let Target::Flash = target {
                for sector in row.sector(start + bytes.len() as u64 - 1)..=row.sector(start) {
                    plan.mask |= 1 << sector;
                }
            }
            plan.image_crc = eight_by_eight(plan.image_crc, bytes);
            Ok(())
        })?;
        Ok(plan)
    }
}

/// Why a run ended early.
enum Stop {
    Unlisted,
    Outside { line: usize },
    Refused { command: u8, code: u8 },
    Silent { command: u8 },
}

/// What came of a load.
enum Outcome {
    Loaded,
    File(Fault, usize),
    Stopped(Stop),
}

pub struct Report {
    outcome: Outcome,
    frames: u64,
    sectors: u32,
    acknowledged: bool,
}

impl Report {
    /// The outcome, its line, the command and the code of its reply, the frames, the sectors cleared, and whether Disconnect
    /// was acknowledged.
    pub fn numbers(&self) -> [u64; 7] {
        let (outcome, line, command, code) = match self.outcome {
            Outcome::Loaded => (0, 0, 0, 0),
            Outcome::File(fault, line) => (fault as u64, line, 0, 0),
            Outcome::Stopped(Stop::Outside { line }) => (10, line, 0, 0),
            Outcome::Stopped(Stop::Unlisted) => (11, 0, 0, 0),
            Outcome::Stopped(Stop::Refused { command, code }) => (12, 0, command, code),
            Outcome::Stopped(Stop::Silent { command }) => (13, 0, command, 0),
        };
        [
            outcome,
            line as u64,
            u64::from(command),
            u64::from(code),
            self.frames,
            u64::from(self.sectors),
            u64::from(self.acknowledged),
        ]
    }
}

/// A session through a link: the counter of its next frame, and how many were sent.
struct Session<'a, L> {
    link: &'a mut L,
    counter: u8,
    frames: u64,
}

impl<L: Link> Session<'_, L> {
    /// Sends a command until it is answered, up to three times; the reply, if it accepts the command.
    fn send(&mut self, command: u8, parameters: [u8; 6]) -> Result<[u8; 8], Stop> {
        let [a, b, c, d, e, f] = parameters;
        let frame = [command, self.counter, a, b, c, d, e, f];
        self.counter = self.counter.wrapping_add(1);
        for _ in 0..TRIES {
            self.frames += 1;
            if let Some(reply) = self.link.exchange(&frame) {
                return match reply[1] {
                    0 => Ok(reply),
                    code => Err(Stop::Refused { command, code }),
                };
            }
        }
        Err(Stop::Silent { command })
    }

    fn set_mta(&mut self, extension: u8, address: u32) -> Result<(), Stop> {
        let [a, b, c, d] = address.to_be_bytes();
        self.send(0x02, [0, extension, a, b, c, d])?;
        Ok(())
    }

    fn check(&mut self, size: u32, crc: u16) -> Result<(), Stop> {
        let [a, b, c, d] = size.to_be_bytes();
        let [high, low] = crc.to_be_bytes();
        self.send(0x0E, [a, b, c, d, high, low])?;
        Ok(())
    }

    /// Unlocks a target, selects its beginning, and clears sectors of it.
    fn prepare(&mut self, target: Target, mask: u32) -> Result<(), Stop> {
        let (extension, password) = space(target);
        self.set_mta(1, 0)?;
        let [high, low] = password.to_be_bytes();
        self.send(0x13, [2, high, low, 0, 0, 0])?;
        self.set_mta(extension, 0)?;
        let [a, b, c, d] = mask.to_be_bytes();
        self.send(0x10, [a, b, c, d, 0, 0])?;
        Ok(())
    }

    fn record(&mut self, extension: u8, address: u32, bytes: &[u8]) -> Result<(), Stop> {
        self.set_mta(extension, address)?;
        let (sixes, rest) = bytes.as_chunks::<6>();
        for six in sixes {
            self.send(0x23, *six)?;
        }
        if !rest.is_empty() {
            let mut parameters = [0; 6];
            parameters[0] = rest.len() as u8;
            parameters[1..=rest.len()].copy_from_slice(rest);
            self.send(0x03, parameters)?;
        }
        self.check(bytes.len() as u32, eight_by_eight(CRC_START, bytes))
    }

    /// What is sent between Connect and Disconnect; the sectors that were cleared are counted.
    fn deliver(
        &mut self,
        target: Target,
        identity: [u8; 8],
        records: &impl Records,
        sectors: &mut u32,
    ) -> Result<(), Stop> {
        let part_id = u16::from_be_bytes([identity[5], identity[6]]);
        let row = row_of(part_id).ok_or(Stop::Unlisted)?;
        let plan = Plan::of(target, row, records)?;
        self.prepare(target, plan.mask)?;
        *sectors = match target {
            Target::Flash => plan.mask.count_ones(),
            Target::Boot(_) | Target::Data(_) => 1,
        };
        let (extension, _) = space(target);
        records.each(|_, address, bytes| self.record(extension, address, bytes))?;
        self.check(0, plan.image_crc)
    }
}

/// Sends the records of a checked text.
fn send(link: &mut impl Link, target: Target, records: &impl Records) -> Report {
    let mut session = Session {
        link,
        counter: 0,
        frames: 0,
    };
    let mut sectors = 0;
    let mut acknowledged = false;
    let done = match session.send(0x01, [0; 6]) {
        Ok(identity) => {
            let done = session.deliver(target, identity, records, &mut sectors);
            if !matches!(done, Err(Stop::Silent { .. })) {
                acknowledged = session.send(0x07, [1, 0, 1, 0, 0, 0]).is_ok();
            }
            done
        }
        Err(stop) => Err(stop),
    };
    Report {
        outcome: match done {
            Ok(()) => Outcome::Loaded,
            Err(stop) => Outcome::Stopped(stop),
        },
        frames: session.frames,
        sectors,
        acknowledged,
    }
}

/// The target of a number; the check refuses the numbers of none.
fn target_of(number: u8, size: u64) -> Target {
    match number {
        0 => Target::Flash,
        2 => Target::Boot(size),
        _ => Target::Data(size),
    }
}

fn refused((fault, line): (Fault, usize)) -> Report {
    Report {
        outcome: Outcome::File(fault, line),
        frames: 0,
        sectors: 0,
        acknowledged: false,
    }
}

/// Loads a text through a link, and keeps nothing of it: it is read to be checked, to be planned, and to be sent.
pub fn load(link: &mut impl Link, text: &[u8], target: u8, size: u64) -> Report {
    match plain::check(text, target, size) {
        Ok(()) => send(link, target_of(target, size), &Streamed(text)),
        Err(fault) => refused(fault),
    }
}

/// The same, which reads the text once and keeps its records.
pub fn load_kept(link: &mut impl Link, text: &[u8], target: u8, size: u64) -> Report {
    let mut kept = Kept::default();
    match plain::check_with(text, target, size, |number, line| kept.keep(number, line)) {
        Ok(()) => send(link, target_of(target, size), &kept),
        Err(fault) => refused(fault),
    }
}
