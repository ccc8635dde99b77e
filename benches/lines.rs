//! S-record texts to be compared: small valid ones, and changes that most often make them faulty.

// No program uses all of it.
#![allow(dead_code)]

use crate::random::Random;

/// A line to be written: its type, address and data.
#[derive(Clone)]
pub struct Line {
    pub digit: u8,
    pub address: u32,
    pub data: Vec<u8>,
}

impl Line {
    pub fn new(digit: u8, address: u32, data: &[u8]) -> Self {
        Line {
            digit,
            address,
            data: data.to_vec(),
        }
    }

    fn address_len(&self) -> usize {
        match self.digit {
            b'2' | b'8' => 3,
            b'3' | b'7' => 4,
            _ => 2,
        }
    }

    /// The line with its count and checksum, and without an end.
    pub fn text(&self, lower: bool) -> Vec<u8> {
        let address = self.address.to_be_bytes();
        let mut bytes = vec![(self.address_len() + self.data.len() + 1) as u8];
        bytes.extend_from_slice(&address[4 - self.address_len()..]);
        bytes.extend_from_slice(&self.data);
        let sum = bytes.iter().fold(0u8, |sum, b| sum.wrapping_add(*b));
        bytes.push(!sum);
        let digits = if lower {
            b"0123456789abcdef"
        } else {
            b"0123456789ABCDEF"
        };
        let mut text = vec![b'S', self.digit];
        for b in bytes {
            text.push(digits[usize::from(b >> 4)]);
            text.push(digits[usize::from(b & 15)]);
        }
        text
    }
}

/// The lines of a small valid file from about an address on, for a target with so many bytes an address.
pub fn small_lines(random: &mut Random, width: usize, first: u32) -> Vec<Line> {
    let mut lines = Vec::new();
    if !random.one_in(3) {
        let len = random.below(6);
        lines.push(Line::new(b'0', 0, &vec![b'k'; len]));
    }
    let mut address = first + random.below(40) as u32;
    let least = b'1' + u8::from(first >= 1 << 16) + u8::from(first >= 1 << 24);
    let mut count = 0;
    for _ in 0..random.below(6) {
        let most = if random.one_in(8) { 240 } else { 20 };
        let units = random.below(most / width);
        let data: Vec<u8> = (0..units * width).map(|_| random.byte()).collect();
        let digit = least.max(b'1' + random.below(3) as u8);
        lines.push(Line::new(digit, address, &data));
        count += 1;
        address += (units + random.below(2) * random.below(30)) as u32;
    }
    if random.one_in(2) {
        lines.push(Line::new(b'5', count, &[]));
    }
    lines.push(Line::new(b'7' + random.below(3) as u8, address, &[]));
    lines
}

/// Changes what lines say, or their order; each line stays right by itself, most often.
pub fn change_lines(random: &mut Random, lines: &mut Vec<Line>) {
    if lines.is_empty() {
        return;
    }
    let i = random.below(lines.len());
    let j = random.below(lines.len());
    match random.below(9) {
        0 => lines.swap(i, j),
        1 => {
            lines.remove(i);
        }
        2 => {
            let line = lines[i].clone();
            lines.insert(j, line);
        }
        3 => lines[i].digit = b"012356789A"[random.below(10)],
        4 => {
            lines[i].address = lines[i]
                .address
                .wrapping_add(random.below(9) as u32)
                .wrapping_sub(4)
        }
        5 => lines[i].address = random.next() as u32,
        6 => lines[i].data.push(0),
        7 => {
            lines[i].data.pop();
        }
        _ => lines[i].data.clear(),
    }
}

/// Puts lines together, with ends and digits of one kind or of both.
pub fn join(random: &mut Random, lines: &[Line]) -> Vec<u8> {
    let ends = random.below(3);
    let cases = random.below(3);
    let mut text = Vec::new();
    for line in lines {
        let lower = cases == 0 || cases == 1 && random.one_in(2);
        text.extend(line.text(lower));
        let crlf = ends == 0 || ends == 1 && random.one_in(2);
        text.extend_from_slice(if crlf { b"\r\n" } else { b"\n" });
    }
    if random.one_in(4) {
        text.pop();
    }
    text
}

/// Changes, inserts or removes a character.
pub fn change_text(random: &mut Random, text: &mut Vec<u8>) {
    let common = b"0123456789ABCDEFabcdefSSS\n\n\r\r @G`g/:\0";
    let c = if random.one_in(4) {
        random.byte()
    } else {
        common[random.below(common.len())]
    };
    let i = random.below(text.len() + 1);
    match random.below(4) {
        0 => text.insert(i, c),
        1 if i < text.len() => {
            text.remove(i);
        }
        2 if i < text.len() => text.truncate(i),
        _ if i < text.len() => text[i] = c,
        _ => {}
    }
}
