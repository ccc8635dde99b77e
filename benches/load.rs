//! A load of an S-record file over a wire: the proved loader and board, through their static library, and both in plain Rust.
//!
//!     load compare                both on many files and boards: an error where a report or a flash differs
//!     load proved BYTES LINE      the proved loader and board on a file of so many data bytes, so many a line, once
//!     load made BYTES LINE        the same on a text that is refused: what making the board takes
//!     load plain BYTES LINE       the plain loader and board, once, with a board that was made before
//!     load kept BYTES LINE        the same with a loader that reads the text once and keeps its records
//!     load replayed BYTES LINE    the proved board alone, on the frames of that load
//!     load blank BYTES LINE       the same on no frames: what making the board takes
//!     load answered BYTES LINE    the plain board alone, on the frames of that load
//!     load frames BYTES LINE      the length of the text of that file, and how many frames its load has

mod board;
mod crc;
mod lines;
mod loader;
mod parts;
mod plain;
mod plan;
mod random;

use board::FRAME_ID;
use crc::eight_by_eight;
use lines::{Line, change_lines, change_text, join, small_lines};
use loader::{Link, Wire};
use parts::{Crossing, Eeprom, Flash, Part};
use plan::{PlainBoard, Plan};
use random::Random;
use std::hint::black_box;
use std::process::ExitCode;

type Frame = [u8; 8];

type PlainWire = Wire<Crossing<Flash>, Eeprom, Eeprom>;

unsafe extern "C" {
    fn kochalluq_load(
        plan: &Plan,
        text: *const u8,
        len: usize,
        target: u8,
        size: u64,
        numbers: &mut [u64; 7],
        flash: &mut u16,
    ) -> bool;

    fn kochalluq_replay(plan: &Plan, frames: *mut Frame, count: usize) -> bool;
}

/// What is told of a load: the seven numbers of the report, and the CRC over the flash after it.
type Told = ([u64; 7], u16);

impl Plan {
    fn new(part_id: u16, base: u32, sectors: usize, words: usize) -> Plan {
        Plan {
            base,
            part_id,
            flash: sectors * words * 2,
            sectors,
            words,
            boot: 64,
            eeprom: 64,
        }
    }

    fn full() -> Plan {
        Plan::new(0xEF, 0x30_0000, 8, 0x8000)
    }

    /// Listed ones most often; others have another part ID, another base, fewer sectors or no EEPROM.
    fn random(random: &mut Random) -> Plan {
        let mut plan = match random.below(8) {
            0 => Plan::new(0x2C, 0x3F_4000, 4, 0x1000),
            _ => Plan::new(0x01, 0x1000, 4, 16),
        };
        match random.below(12) {
            0 => plan.part_id = random.next() as u16,
            1 => plan.base += 16,
            2 => plan.sectors = 3,
            3 => plan.boot = random.below(3),
            4 => plan.eeprom = random.below(64),
            _ => {}
        }
        plan
    }
}

/// A plain board at the far end of a wire.
fn wire(plan: &Plan) -> PlainWire {
    Wire {
        board: plan.plain(),
    }
}

/// The CRC over the flash of a board.
fn flash_crc(board: &PlainBoard) -> u16 {
    let flash = board.flash();
    let bytes: Vec<u8> = (0..flash.len()).flat_map(|at| flash.read(at)).collect();
    eight_by_eight(0xFFFF, &bytes)
}

/// A link that keeps the frames that go through it.
struct Traced {
    wire: PlainWire,
    frames: Vec<Frame>,
}

impl Link for Traced {
    fn exchange(&mut self, frame: &Frame) -> Option<Frame> {
        self.frames.push(*frame);
        self.wire.exchange(frame)
    }
}

// The names are those by which callgrind finds what it is to count.

#[inline(never)]
#[unsafe(no_mangle)]
fn measured_proved(plan: &Plan, text: &[u8], target: u8, size: u64) -> Option<Told> {
    let (mut numbers, mut flash) = ([0; 7], 0);
    let (start, len) = (text.as_ptr(), text.len());
    unsafe { kochalluq_load(plan, start, len, target, size, &mut numbers, &mut flash) }
        .then_some((numbers, flash))
}

#[inline(never)]
#[unsafe(no_mangle)]
fn measured_made(plan: &Plan) -> Option<Told> {
    measured_proved(plan, b"", 0, 0)
}

#[inline(never)]
#[unsafe(no_mangle)]
fn measured_plain(wire: &mut PlainWire, text: &[u8], target: u8, size: u64) -> [u64; 7] {
    loader::load(wire, text, target, size).numbers()
}

#[inline(never)]
#[unsafe(no_mangle)]
fn measured_kept(wire: &mut PlainWire, text: &[u8], target: u8, size: u64) -> [u64; 7] {
    loader::load_kept(wire, text, target, size).numbers()
}

#[inline(never)]
#[unsafe(no_mangle)]
fn measured_replayed(plan: &Plan, frames: &mut [Frame]) -> bool {
    unsafe { kochalluq_replay(plan, frames.as_mut_ptr(), frames.len()) }
}

#[inline(never)]
#[unsafe(no_mangle)]
fn measured_blank(plan: &Plan) -> bool {
    measured_replayed(plan, &mut [])
}

#[inline(never)]
#[unsafe(no_mangle)]
fn measured_answered(board: &mut PlainBoard, frames: &mut [Frame]) {
    for place in frames {
        if let Some(reply) = board.frame(FRAME_ID, &*place) {
            *place = reply;
        }
    }
}

/// A file of so many bytes for the full board, from its base on, so many a line.
fn file(bytes: usize, line: usize) -> Vec<u8> {
    let data = Random(88_172_645_463_325_252).bytes(bytes);
    let mut address = Plan::full().base;
    let mut lines = vec![Line::new(b'0', 0, b"load")];
    for bytes in data.chunks(line) {
        lines.push(Line::new(b'3', address, bytes));
        address += bytes.len() as u32 / 2;
    }
    lines.push(Line::new(b'7', Plan::full().base, &[]));
    let mut text = Vec::new();
    for line in lines {
        text.extend(line.text(false));
        text.push(b'\n');
    }
    text
}

/// All three loads of one text: what is told, or an error where they differ.
fn all(plan: &Plan, text: &[u8], target: u8, size: u64) -> Result<Told, String> {
    let proved = measured_proved(plan, text, target, size).ok_or("no memory for a board")?;
    let (mut plain, mut kept) = (wire(plan), wire(plan));
    let plain = (
        measured_plain(&mut plain, text, target, size),
        flash_crc(&plain.board),
    );
    let kept = (
        measured_kept(&mut kept, text, target, size),
        flash_crc(&kept.board),
    );
    if proved == plain && proved == kept {
        return Ok(proved);
    }
    let start = String::from_utf8_lossy(&text[..text.len().min(1000)]).into_owned();
    Err(format!(
        "{proved:?} where plain Rust tells {plain:?} and {kept:?}, of {start:?} for {target}, {size} at {plan:?}"
    ))
}

/// A small file, most often for the board and a target of it.
fn small(random: &mut Random, plan: &Plan) -> (Vec<u8>, u8, u64) {
    let (target, width, first, size) = match random.below(5) {
        0 => (2, 1, 0, plan.boot as u64),
        1 => (3, 1, 0, plan.eeprom as u64),
        2 => (
            [0, 1, 2, 3, 4][random.below(5)],
            2,
            plan.base,
            random.next() % 70,
        ),
        _ => (0, 2, plan.base, 0),
    };
    let mut lines = small_lines(random, width, first);
    if random.one_in(4) {
        change_lines(random, &mut lines);
    }
    let mut text = join(random, &lines);
    if random.one_in(6) {
        change_text(random, &mut text);
    }
    (text, target, size)
}

fn compare() -> Result<(), String> {
    let mut random = Random(42);
    let mut outcomes = [0usize; 14];
    let mut say = |plan: &Plan, text: &[u8], target: u8, size: u64| -> Result<(), String> {
        let (numbers, _) = all(plan, text, target, size)?;
        outcomes[numbers[0] as usize] += 1;
        Ok(())
    };
    for _ in 0..100_000 {
        let plan = Plan::random(&mut random);
        let (text, target, size) = small(&mut random, &plan);
        say(&plan, &text, target, size)?;
    }
    for line in [32, 250] {
        let text = file(1 << 18, line);
        say(&Plan::full(), &text, 0, 0)?;
        for _ in 0..10 {
            let mut damaged = text.clone();
            change_text(&mut random, &mut damaged);
            say(&Plan::full(), &damaged, 0, 0)?;
        }
    }
    say(&Plan::full(), &vec![b'\n'; plain::MAX_TEXT + 1], 0, 0)?;
    for (outcome, loads) in outcomes.iter().enumerate() {
        println!("outcome {outcome}: {loads} loads");
    }
    // a blank board is never silent
    match outcomes[..13].iter().position(|loads| *loads == 0) {
        Some(outcome) => Err(format!("no load had the outcome {outcome}")),
        None => {
            println!("no difference on {} loads", outcomes.iter().sum::<usize>());
            Ok(())
        }
    }
}

/// The frames of a load.
fn frames_of(text: &[u8]) -> Vec<Frame> {
    let mut traced = Traced {
        wire: wire(&Plan::full()),
        frames: Vec::new(),
    };
    loader::load(&mut traced, text, 0, 0);
    traced.frames
}

/// One run on a file, by the name of its mode; the file has to be loaded.
fn measure(mode: &str, bytes: usize, line: usize) -> Result<(), String> {
    let plan = black_box(Plan::full());
    let text = black_box(file(bytes, line));
    let outcome = match mode {
        "proved" => measured_proved(&plan, &text, 0, 0).map(|(numbers, _)| numbers[0]),
        "made" => measured_made(&plan).map(|_| 0),
        "plain" => Some(measured_plain(&mut wire(&plan), &text, 0, 0)[0]),
        "kept" => Some(measured_kept(&mut wire(&plan), &text, 0, 0)[0]),
        "replayed" => measured_replayed(&plan, &mut frames_of(&text)).then_some(0),
        "blank" => measured_blank(&plan).then_some(0),
        "answered" => {
            measured_answered(&mut plan.plain(), &mut frames_of(&text));
            Some(0)
        }
        "frames" => {
            println!("{} {}", text.len(), frames_of(&text).len());
            Some(0)
        }
        _ => return Err(format!("no mode is named {mode:?}")),
    };
    match outcome {
        Some(0) => Ok(()),
        Some(outcome) => Err(format!("the file is not loaded: {outcome}")),
        None => Err("no memory".to_string()),
    }
}

fn main() -> ExitCode {
    let words: Vec<String> = std::env::args().skip(1).collect();
    let done = match words.as_slice() {
        [mode] if mode == "compare" => compare(),
        [mode, bytes, line] => match (bytes.parse(), line.parse()) {
            (Ok(bytes), Ok(line)) => measure(mode, bytes, line),
            _ => Err("BYTES and LINE are numbers".to_string()),
        },
        _ => Err("usage: load compare|MODE BYTES LINE".to_string()),
    };
    match done {
        Ok(()) => ExitCode::SUCCESS,
        Err(why) => {
            eprintln!("load: {why}");
            ExitCode::FAILURE
        }
    }
}
