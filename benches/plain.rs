//! A strict S-record checker in plain, safe Rust, written to be compared with the proved one.
//! It keeps the same rules and gives the same outcomes, and has no tricks.

// No program uses all of it.
#![allow(dead_code)]

/// Why a text is refused; the numbers are those of the proved checker.
#[derive(Clone, Copy, PartialEq, Eq, Debug)]
pub enum Fault {
    Target = 1,
    TextSize = 2,
    Shape = 3,
    Checksum = 4,
    Order = 5,
    Count = 6,
    NotRising = 7,
    NotWhole = 8,
    NoData = 9,
}

pub const MAX_TEXT: usize = 4_194_304;
pub const MAX_SIZE: u64 = 1_048_576;

/// Whether a text suits a target: 0 is flash with two bytes an address, 2 and 3 are EEPROMs of so
/// many bytes. A fault comes with its line, from 1, or with 0 where no line has it.
pub fn check(text: &[u8], target: u8, size: u64) -> Result<(), (Fault, usize)> {
    check_with(text, target, size, |_, _| {})
}

/// The same, which shows each line that it has checked, with its number from 1.
pub fn check_with(
    text: &[u8],
    target: u8,
    size: u64,
    mut take: impl FnMut(usize, &Line<'_>),
) -> Result<(), (Fault, usize)> {
    let width = match target {
        0 => 2,
        2 | 3 if (1..=MAX_SIZE).contains(&size) => 1,
        _ => return Err((Fault::Target, 0)),
    };
    if text.len() > MAX_TEXT {
        return Err((Fault::TextSize, 0));
    }
    let mut checker = Checker::new(width);
    for (before, line) in text.split_inclusive(|&c| c == b'\n').enumerate() {
        let mut buffer = [0; 256];
        read(without_end(line), &mut buffer)
            .and_then(|line| {
                checker.line(&line)?;
                take(before + 1, &line);
                Ok(())
            })
            .map_err(|fault| (fault, before + 1))?;
    }
    checker.finish().map_err(|fault| (fault, 0))
}

/// The data lines of a text, with their numbers from 1, up to a line at fault or one that is not taken.
pub fn visit<E>(
    text: &[u8],
    mut take: impl FnMut(usize, u32, &[u8]) -> Result<(), E>,
) -> Result<(), E> {
    for (before, line) in text.split_inclusive(|&c| c == b'\n').enumerate() {
        let mut buffer = [0; 256];
        let Ok(line) = read(without_end(line), &mut buffer) else {
            break;
        };
        if line.kind == Kind::Data {
            take(before + 1, line.address, line.data)?;
        }
    }
    Ok(())
}

/// A line without its LF or CR LF.
fn without_end(line: &[u8]) -> &[u8] {
    match line.strip_suffix(b"\n") {
        Some(line) => line.strip_suffix(b"\r").unwrap_or(line),
        None => line,
    }
}

#[derive(Clone, Copy, PartialEq, Eq)]
pub enum Kind {
    Header,
    Data,
    Count,
    End,
}

/// What one line says.
pub struct Line<'a> {
    pub kind: Kind,
    pub address: u32,
    pub data: &'a [u8],
}

/// Reads a line by itself.
fn read<'a>(line: &[u8], buffer: &'a mut [u8; 256]) -> Result<Line<'a>, Fault> {
    let [b'S', digit, pairs @ ..] = line else {
        return Err(Fault::Shape);
    };
    let (kind, address_len) = match digit {
        b'0' => (Kind::Header, 2),
        b'1' => (Kind::Data, 2),
        b'2' => (Kind::Data, 3),
        b'3' => (Kind::Data, 4),
        b'5' => (Kind::Count, 2),
        b'7' => (Kind::End, 4),
        b'8' => (Kind::End, 3),
        b'9' => (Kind::End, 2),
        _ => return Err(Fault::Shape),
    };
    let bytes = decode(pairs, buffer).ok_or(Fault::Shape)?;
    let [count, rest @ ..] = bytes else {
        return Err(Fault::Shape);
    };
    if usize::from(*count) != rest.len() || rest.len() < address_len + 1 {
        return Err(Fault::Shape);
    }
    let data = &rest[address_len..rest.len() - 1];
    if !data.is_empty() && matches!(kind, Kind::Count | Kind::End) {
        return Err(Fault::Shape);
    }
    if bytes.iter().fold(0u8, |sum, b| sum.wrapping_add(*b)) != 255 {
        return Err(Fault::Checksum);
    }
    let address = rest[..address_len]
        .iter()
        .fold(0, |address, b| address << 8 | u32::from(*b));
    Ok(Line {
        kind,
        address,
        data,
    })
}

/// The bytes that pairs of hex digits spell, put into the buffer.
fn decode<'a>(pairs: &[u8], buffer: &'a mut [u8; 256]) -> Option<&'a [u8]> {
    let len = pairs.len() / 2;
    if pairs.len() % 2 != 0 || len > buffer.len() {
        return None;
    }
    let bytes = &mut buffer[..len];
    for (byte, pair) in bytes.iter_mut().zip(pairs.chunks_exact(2)) {
        *byte = digit(pair[0])? << 4 | digit(pair[1])?;
    }
    Some(bytes)
}

/// The value of a hex digit of either case.
fn digit(c: u8) -> Option<u8> {
    match c {
        b'0'..=b'9' => Some(c - b'0'),
        b'A'..=b'F' => Some(c - b'A' + 10),
        b'a'..=b'f' => Some(c - b'a' + 10),
        _ => None,
    }
}

#[derive(Clone, Copy, PartialEq, Eq)]
enum Phase {
    Start,
    Body,
    Counted,
    Ended,
}

/// What has to be kept from line to line.
struct Checker {
    width: usize,
    phase: Phase,
    data_lines: u32,
    end: Option<u64>,
}

impl Checker {
    fn new(width: usize) -> Self {
        Checker {
            width,
            phase: Phase::Start,
            data_lines: 0,
            end: None,
        }
    }

    fn line(&mut self, line: &Line<'_>) -> Result<(), Fault> {
        self.phase = match (self.phase, line.kind) {
            (Phase::Start, Kind::Header) => Phase::Body,
            (Phase::Start | Phase::Body, Kind::Data) => {
                self.data(line)?;
                Phase::Body
            }
            (Phase::Start | Phase::Body, Kind::Count) if line.address == self.data_lines => {
                Phase::Counted
            }
            (Phase::Start | Phase::Body, Kind::Count) => return Err(Fault::Count),
            (Phase::Start | Phase::Body | Phase::Counted, Kind::End) => Phase::Ended,
            _ => return Err(Fault::Order),
        };
        Ok(())
    }

    fn data(&mut self, line: &Line<'_>) -> Result<(), Fault> {
        self.data_lines += 1;
        if line.data.is_empty() {
            return Ok(());
        }
        if line.data.len() % self.width != 0 {
            return Err(Fault::NotWhole);
        }
        let start = u64::from(line.address);
        if self.end.is_some_and(|end| start < end) {
            return Err(Fault::NotRising);
        }
        self.end = Some(start + (line.data.len() / self.width) as u64);
        Ok(())
    }

    fn finish(&self) -> Result<(), Fault> {
        if self.phase != Phase::Ended {
            return Err(Fault::Order);
        }
        if self.end.is_none() {
            return Err(Fault::NoData);
        }
        Ok(())
    }
}
