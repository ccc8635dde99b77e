//! The proved S-record checker, through its static library, beside a plain Rust one.
//!
//!     srecord compare    both on many small texts and some large ones: an error where they differ
//!     srecord rattle     the proved one on a valid text of nearly the largest size, once
//!     srecord rust       the plain one on the same text, once
//!     srecord size       the length of that text
//!     srecord time       both on that text, in turn: the best times

mod lines;
mod plain;
mod random;

use lines::{Line, change_lines, change_text, join, small_lines};
use random::Random;
use std::hint::black_box;
use std::process::ExitCode;
use std::time::Duration;
use std::time::Instant;

unsafe extern "C" {
    fn kochalluq_check(text: *const u8, len: usize, target: u8, size: u64) -> u8;
}

/// The outcome of the proved checker. The name is the one by which callgrind finds it.
#[inline(never)]
#[unsafe(no_mangle)]
fn measured_rattle(text: &[u8], target: u8, size: u64) -> u8 {
    unsafe { kochalluq_check(text.as_ptr(), text.len(), target, size) }
}

/// The outcome of the plain checker, likewise.
#[inline(never)]
#[unsafe(no_mangle)]
fn measured_rust(text: &[u8], target: u8, size: u64) -> u8 {
    match plain::check(text, target, size) {
        Ok(()) => 0,
        Err((fault, _)) => fault as u8,
    }
}

/// A valid text of just under the largest size for flash: a header, lines of 16 data bytes and an end.
fn large_text() -> Vec<u8> {
    let mut random = Random(88_172_645_463_325_252);
    let mut text = Line::new(b'0', 0, b"large").text(false);
    text.push(b'\n');
    let end = Line::new(b'7', 0, &[]).text(false);
    let mut address = 0;
    loop {
        let data: [u8; 16] = std::array::from_fn(|_| random.byte());
        let line = Line::new(b'3', address, &data).text(false);
        if text.len() + line.len() + 1 + end.len() + 1 >= plain::MAX_TEXT {
            break;
        }
        text.extend_from_slice(&line);
        text.push(b'\n');
        address += 8;
    }
    text.extend_from_slice(&end);
    text.push(b'\n');
    text
}

/// Both checkers on one text: the outcome, or an error where they differ.
fn both(text: &[u8], target: u8, size: u64) -> Result<u8, String> {
    let (ours, theirs) = (
        measured_rattle(text, target, size),
        measured_rust(text, target, size),
    );
    if ours == theirs {
        return Ok(ours);
    }
    let start = String::from_utf8_lossy(&text[..text.len().min(1000)]).into_owned();
    Err(format!(
        "target {target}, size {size}: the proved checker says {ours}, the plain one {theirs}, of {} bytes: {start:?}",
        text.len()
    ))
}

fn compare() -> Result<(), String> {
    let mut random = Random(42);
    let mut outcomes = [0usize; 10];
    let mut say = |text: &[u8], target: u8, size: u64| -> Result<u8, String> {
        let outcome = both(text, target, size)?;
        outcomes[usize::from(outcome)] += 1;
        Ok(outcome)
    };
    for _ in 0..200_000 {
        let target = [0, 0, 2, 3][random.below(4)];
        let size = if random.one_in(50) {
            random.next()
        } else {
            1 + random.next() % plain::MAX_SIZE
        };
        let width = if target == 0 { 2 } else { 1 };
        let mut lines = small_lines(&mut random, width, 0);
        for _ in 0..random.below(3) {
            change_lines(&mut random, &mut lines);
        }
        let mut text = join(&mut random, &lines);
        if random.one_in(3) {
            for _ in 0..1 + random.below(2) {
                change_text(&mut random, &mut text);
            }
        }
        say(&text, target, size)?;
    }
    for target in 0..=255 {
        for size in [0, 1, plain::MAX_SIZE, plain::MAX_SIZE + 1, u64::MAX] {
            say(b"S10401001FDB\nS9030000FC\n", target, size)?;
            say(b"", target, size)?;
        }
    }
    let large = large_text();
    say(&large, 0, 0)?;
    say(&large, 2, 1)?;
    for _ in 0..40 {
        let mut damaged = large.clone();
        change_text(&mut random, &mut damaged);
        say(&damaged, 0, 0)?;
    }
    for len in plain::MAX_TEXT - 2..plain::MAX_TEXT + 3 {
        let mut padded = large.clone();
        padded.resize(len, b'\n');
        say(&padded, 0, 0)?;
    }
    for (outcome, texts) in outcomes.iter().enumerate() {
        println!("outcome {outcome}: {texts} texts");
    }
    match outcomes.iter().position(|texts| *texts == 0) {
        Some(outcome) => Err(format!("no text had the outcome {outcome}")),
        None => {
            println!("no difference on {} texts", outcomes.iter().sum::<usize>());
            Ok(())
        }
    }
}

/// One check of the text, which has to be accepted.
fn once(check: fn(&[u8], u8, u64) -> u8, text: &[u8]) -> Result<Duration, String> {
    let start = Instant::now();
    let outcome = black_box(check(black_box(text), 0, 0));
    let time = start.elapsed();
    if outcome == 0 {
        Ok(time)
    } else {
        Err(format!("the text is refused: {outcome}"))
    }
}

fn time(text: &[u8]) -> Result<(), String> {
    let (mut ours, mut theirs) = (Duration::MAX, Duration::MAX);
    for _ in 0..50 {
        ours = ours.min(once(measured_rattle, text)?);
        theirs = theirs.min(once(measured_rust, text)?);
    }
    println!("{} {}", ours.as_nanos(), theirs.as_nanos());
    Ok(())
}

fn main() -> ExitCode {
    let mode = std::env::args().nth(1).unwrap_or_default();
    let done = match mode.as_str() {
        "compare" => compare(),
        "rattle" => once(measured_rattle, &large_text()).map(|_| ()),
        "rust" => once(measured_rust, &large_text()).map(|_| ()),
        "size" => {
            println!("{}", large_text().len());
            Ok(())
        }
        "time" => time(&large_text()),
        _ => Err("usage: srecord compare|rattle|rust|size|time".to_string()),
    };
    match done {
        Ok(()) => ExitCode::SUCCESS,
        Err(why) => {
            eprintln!("srecord: {why}");
            ExitCode::FAILURE
        }
    }
}
