//! The proved CRC, through its static library, beside plain Rust ones.
//!
//!     memory compare             all on many inputs: an error where they differ
//!     memory rattle              the proved one over the large input, once
//!     memory eight|table|bits    a plain one over the same input, once
//!     memory size                the length of that input
//!     memory time                all over that input, in turn: the best times, in the order above

mod crc;
mod random;

use crc::{byte_by_byte, eight_bits, eight_by_eight};
use random::Random;
use std::hint::black_box;
use std::process::ExitCode;
use std::time::Duration;
use std::time::Instant;

unsafe extern "C" {
    fn kochalluq_crc(from: u16, bytes: *const u8, len: usize) -> u16;
}

/// The proved CRC. The name is the one by which callgrind finds it.
#[inline(never)]
#[unsafe(no_mangle)]
fn measured_rattle(from: u16, bytes: &[u8]) -> u16 {
    unsafe { kochalluq_crc(from, bytes.as_ptr(), bytes.len()) }
}

/// Plain Rust, bit by bit.
#[inline(never)]
#[unsafe(no_mangle)]
fn measured_bits(from: u16, bytes: &[u8]) -> u16 {
    bytes
        .iter()
        .fold(from, |crc, byte| eight_bits(crc ^ u16::from(*byte)))
}

/// Plain Rust, one look-up a byte.
#[inline(never)]
#[unsafe(no_mangle)]
fn measured_table(from: u16, bytes: &[u8]) -> u16 {
    byte_by_byte(from, bytes)
}

/// Plain Rust, eight bytes a step.
#[inline(never)]
#[unsafe(no_mangle)]
fn measured_eight(from: u16, bytes: &[u8]) -> u16 {
    eight_by_eight(from, bytes)
}

type Crc = fn(u16, &[u8]) -> u16;

/// Each way to take a CRC, by the name of its mode, the proved one first.
const WAYS: [(&str, Crc); 4] = [
    ("rattle", measured_rattle),
    ("eight", measured_eight),
    ("table", measured_table),
    ("bits", measured_bits),
];

/// The input that is measured: one megabyte.
fn large() -> Vec<u8> {
    Random(88_172_645_463_325_252).bytes(1 << 20)
}

/// All ways on one input: an error where one differs from the bit loop.
fn all(from: u16, bytes: &[u8]) -> Result<(), String> {
    let right = measured_bits(from, bytes);
    for (name, way) in WAYS {
        let crc = way(from, bytes);
        if crc != right {
            return Err(format!(
                "{name}: {crc:04X} from {from:04X}, where the bit loop has {right:04X}, over {} bytes: {:02X?}",
                bytes.len(),
                &bytes[..bytes.len().min(100)]
            ));
        }
    }
    Ok(())
}

fn compare() -> Result<(), String> {
    let mut random = Random(42);
    let mut inputs = 0;
    for len in 0..=100 {
        for _ in 0..500 {
            let bytes = random.bytes(len);
            all(random.next() as u16, &bytes)?;
            inputs += 1;
        }
    }
    for from in 0..=u16::MAX {
        all(from, &[from as u8, 0])?;
        inputs += 1;
    }
    let large = large();
    for skip in 0..16 {
        all(random.next() as u16, &large[skip..])?;
        inputs += 1;
    }
    println!("no difference on {inputs} inputs");
    Ok(())
}

fn once(way: Crc, bytes: &[u8]) -> Duration {
    let start = Instant::now();
    black_box(way(black_box(0xFFFF), black_box(bytes)));
    start.elapsed()
}

fn time(bytes: &[u8]) {
    let mut best = [Duration::MAX; WAYS.len()];
    for _ in 0..50 {
        for (best, (_, way)) in best.iter_mut().zip(WAYS) {
            *best = (*best).min(once(way, bytes));
        }
    }
    let times: Vec<String> = best.iter().map(|t| t.as_nanos().to_string()).collect();
    println!("{}", times.join(" "));
}

fn main() -> ExitCode {
    let mode = std::env::args().nth(1).unwrap_or_default();
    let way = WAYS.iter().find(|(name, _)| *name == mode);
    let done = match (mode.as_str(), way) {
        (_, Some((_, way))) => {
            once(*way, &large());
            Ok(())
        }
        ("compare", _) => compare(),
        ("size", _) => {
            println!("{}", large().len());
            Ok(())
        }
        ("time", _) => {
            time(&large());
            Ok(())
        }
        _ => Err("usage: memory compare|rattle|eight|table|bits|size|time".to_string()),
    };
    match done {
        Ok(()) => ExitCode::SUCCESS,
        Err(why) => {
            eprintln!("memory: {why}");
            ExitCode::FAILURE
        }
    }
}
