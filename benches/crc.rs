//! The CRC in plain Rust: its tables, made as the program is built, and what they are made with.

// No program uses all of it.
#![allow(dead_code)]

/// Eight bits of a value. (With an `if` in place of the mask the compiler sees a CRC, and makes a table.)
pub const fn eight_bits(value: u16) -> u16 {
    let mut crc = value;
    let mut bit = 0;
    while bit < 8 {
        crc = crc >> 1 ^ (0xA001 & (crc & 1).wrapping_neg());
        bit += 1;
    }
    crc
}

/// For each byte its CRC from 0, with no byte of zero after it, with one, and so on.
pub static TABLES: [[u16; 256]; 8] = {
    let mut tables = [[0; 256]; 8];
    let mut byte = 0;
    while byte < 256 {
        let mut crc = byte as u16;
        let mut after = 0;
        while after < 8 {
            crc = eight_bits(crc);
            tables[after][byte] = crc;
            after += 1;
        }
        byte += 1;
    }
    tables
};

/// The CRC with one byte more, by one look-up.
pub fn crc_byte(crc: u16, byte: u8) -> u16 {
    crc >> 8 ^ TABLES[0][usize::from(crc as u8 ^ byte)]
}

/// The CRC with more bytes, by one look-up each.
pub fn byte_by_byte(from: u16, bytes: &[u8]) -> u16 {
    bytes.iter().fold(from, |crc, byte| crc_byte(crc, *byte))
}

/// The CRC with more bytes, eight a step.
pub fn eight_by_eight(from: u16, bytes: &[u8]) -> u16 {
    let (steps, rest) = bytes.as_chunks::<8>();
    let crc = steps.iter().fold(from, |crc, step| {
        let [low, high] = (crc ^ u16::from_le_bytes([step[0], step[1]])).to_le_bytes();
        TABLES[7][usize::from(low)]
            ^ TABLES[6][usize::from(high)]
            ^ TABLES[5][usize::from(step[2])]
            ^ TABLES[4][usize::from(step[3])]
            ^ TABLES[3][usize::from(step[4])]
            ^ TABLES[2][usize::from(step[5])]
            ^ TABLES[1][usize::from(step[6])]
            ^ TABLES[0][usize::from(step[7])]
    });
    byte_by_byte(crc, rest)
}
