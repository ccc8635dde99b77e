//! Frames that reach the proved board, through its static library, and a board in plain Rust.
//!
//!     replay compare    both on many sessions: an error where a reply differs
//!     replay proved     the proved one on the download of a full image, once
//!     replay made       the same without a frame: what making the board takes
//!     replay plain      the plain one on the same download, once, with a board that was made before
//!     replay size       the bytes of that image

mod board;
mod crc;
mod parts;
mod plan;
mod random;

use board::FRAME_ID;
use crc::eight_by_eight;
use plan::{PlainBoard, Plan};
use random::Random;
use std::collections::BTreeMap;
use std::hint::black_box;
use std::process::ExitCode;

type Frame = [u8; 8];

unsafe extern "C" {
    fn kochalluq_replay(plan: &Plan, frames: *mut Frame, count: usize) -> bool;
}

impl Plan {
    fn full() -> Plan {
        Plan {
            base: 0x30_0000,
            part_id: 0x00EF,
            flash: 8 * 0x8000 * 2,
            sectors: 8,
            words: 0x8000,
            boot: 32_768,
            eeprom: 65_536,
        }
    }

    /// Small ones, at the edges of what a board can be.
    fn random(random: &mut Random) -> Plan {
        let sectors = [1, 2, 4, 8, 32, 33, 0][random.below(7)];
        let words = [0, 1, 16, 17, 64, 200][random.below(6)];
        Plan {
            base: [0, 0x1000, 0x30_0000, 0x8000_0000, 0xFFFF_FF80][random.below(5)],
            part_id: random.next() as u16,
            flash: sectors * words * 2 + [0, 0, 0, 1, 2][random.below(5)],
            sectors,
            words,
            boot: [0, 1, 2, 3, 64, 300][random.below(6)],
            eeprom: [0, 1, 2, 64, 300][random.below(5)],
        }
    }
}

// The names are those by which callgrind finds what it is to count. Each reply takes the place of its frame; a frame
// that is not answered stays.

#[inline(never)]
#[unsafe(no_mangle)]
fn measured_proved(plan: &Plan, frames: &mut [Frame]) -> bool {
    unsafe { kochalluq_replay(plan, frames.as_mut_ptr(), frames.len()) }
}

#[inline(never)]
#[unsafe(no_mangle)]
fn measured_made(plan: &Plan) -> bool {
    unsafe { kochalluq_replay(plan, [].as_mut_ptr(), 0) }
}

#[inline(never)]
#[unsafe(no_mangle)]
fn measured_plain(board: &mut PlainBoard, frames: &mut [Frame]) {
    for place in frames {
        if let Some(reply) = board.frame(FRAME_ID, &*place) {
            *place = reply;
        }
    }
}

/// What a host sends: its frames, with a counter that rises, and the CRC over the records so far.
struct Host {
    frames: Vec<Frame>,
    image_crc: u16,
}

impl Host {
    fn new() -> Host {
        Host {
            frames: Vec::new(),
            image_crc: 0xFFFF,
        }
    }

    /// A command and its parameters, filled up with zeros.
    fn send(&mut self, code: u8, parameters: &[u8]) {
        let mut frame = [0; 8];
        frame[0] = code;
        frame[1] = self.frames.len() as u8;
        frame[2..2 + parameters.len()].copy_from_slice(parameters);
        self.frames.push(frame);
    }

    fn connect(&mut self) {
        self.image_crc = 0xFFFF;
        self.send(0x01, &[]);
    }

    fn set_mta(&mut self, extension: u8, address: u32) {
        let [a, b, c, d] = address.to_be_bytes();
        self.send(0x02, &[0, extension, a, b, c, d]);
    }

    fn unlock(&mut self, password: u16) {
        let [high, low] = password.to_be_bytes();
        self.set_mta(1, 0);
        self.send(0x13, &[2, high, low]);
    }

    fn clear(&mut self, mask: u32) {
        self.image_crc = 0xFFFF;
        self.send(0x10, &mask.to_be_bytes());
    }

    fn check(&mut self, size: u32, crc: u16) {
        let [a, b, c, d] = size.to_be_bytes();
        let [high, low] = crc.to_be_bytes();
        self.send(0x0E, &[a, b, c, d, high, low]);
    }

    fn record(&mut self, extension: u8, address: u32, bytes: &[u8]) {
        self.set_mta(extension, address);
        let (sixes, rest) = bytes.as_chunks::<6>();
        for six in sixes {
            self.send(0x23, six);
        }
        if !rest.is_empty() {
            self.send(0x03, &[&[rest.len() as u8], rest].concat());
        }
        self.check(bytes.len() as u32, eight_by_eight(0xFFFF, bytes));
        self.image_crc = eight_by_eight(self.image_crc, bytes);
    }

    fn disconnect(&mut self) {
        self.send(0x07, &[1]);
    }
}

/// The download of an image into a full board, in records of 252 bytes.
fn download(image: &[u8]) -> Vec<Frame> {
    let base = Plan::full().base;
    let mut host = Host::new();
    host.connect();
    host.unlock(0x1234);
    host.set_mta(0, base);
    host.clear(0xFF);
    for (number, bytes) in image.chunks(252).enumerate() {
        host.record(0, base + number as u32 * 126, bytes);
    }
    host.check(0, host.image_crc);
    host.disconnect();
    host.frames
}

/// A session of some rounds, right most often, for a space of such a board each.
fn session(random: &mut Random, plan: &Plan) -> Vec<Frame> {
    let mut host = Host::new();
    host.connect();
    for _ in 0..1 + random.below(4) {
        let (extension, password, base, len, width) = match random.below(4) {
            2 => (2, 0xABCD, 0, plan.boot, 1),
            3 => (3, 0x9876, 0, plan.eeprom, 1),
            _ => (0, 0x1234, plan.base, plan.flash, 2),
        };
        host.unlock(password);
        host.set_mta(extension, base);
        if !random.one_in(4) {
            host.clear(match random.below(4) {
                0 => random.next() as u32 & 0x1F,
                _ => ((1u64 << plan.sectors) - 1) as u32,
            });
        }
        for _ in 0..random.below(4) {
            let most = if random.one_in(8) { 258 } else { 24 };
            let bytes = random.below(most);
            let room = len.saturating_sub(bytes) / width;
            let address = base.wrapping_add(random.below(room + 2) as u32);
            let bytes = random.bytes(bytes / width * width);
            host.record(extension, address, &bytes);
        }
        host.check(0, host.image_crc);
        if random.one_in(3) {
            host.disconnect();
            host.connect();
        }
    }
    host.disconnect();
    host.frames
}

/// Repeats a frame, or changes one, leaves one out, or puts one in.
fn change(random: &mut Random, frames: &mut Vec<Frame>) {
    let i = random.below(frames.len());
    let j = random.below(frames.len());
    let mut frame = frames[i];
    match random.below(6) {
        0 => frames.insert(i, frame),
        1 => frames.swap(i, j),
        2 if frames.len() > 1 => {
            frames.remove(i);
        }
        3 => frames[i][random.below(8)] = random.next() as u8,
        4 => frames[i][random.below(8)] ^= 1 << random.below(8),
        _ => {
            let codes = [1, 2, 3, 7, 0x0E, 0x10, 0x13, 0x21, 0x23, 0x24];
            frame[0] = codes[random.below(codes.len())];
            frame[2] = random.below(8) as u8;
            frames.insert(i, frame);
        }
    }
}

/// Both boards on the same frames: the replies, or an error where they differ.
fn both(plan: &Plan, frames: &[Frame]) -> Result<Vec<Frame>, String> {
    let (mut proved, mut plain) = (frames.to_vec(), frames.to_vec());
    if !measured_proved(plan, &mut proved) {
        return Err("no memory for a board".to_string());
    }
    measured_plain(&mut plan.plain(), &mut plain);
    match (0..frames.len()).find(|i| proved[*i] != plain[*i]) {
        None => Ok(proved),
        Some(i) => Err(format!(
            "{:02X?} where plain Rust has {:02X?}, to frame {i} of {:02X?} at {plan:?}",
            proved[i],
            plain[i],
            &frames[..=i]
        )),
    }
}

/// The answers that a board can give: the codes of its replies, and none.
const ANSWERS: [Option<u8>; 9] = [
    None,
    Some(0x00),
    Some(0x30),
    Some(0x31),
    Some(0x32),
    Some(0x33),
    Some(0x35),
    Some(0x36),
    Some(0x7F),
];

fn compare(image: &[u8]) -> Result<(), String> {
    let mut random = Random(42);
    let mut answers = BTreeMap::new();
    let mut sessions = 0;
    let mut count = |plan: &Plan, frames: &[Frame]| -> Result<(), String> {
        for (reply, frame) in both(plan, frames)?.iter().zip(frames) {
            *answers
                .entry((reply != frame).then_some(reply[1]))
                .or_insert(0usize) += 1;
        }
        sessions += 1;
        Ok(())
    };
    for _ in 0..100_000 {
        let plan = Plan::random(&mut random);
        let mut frames = session(&mut random, &plan);
        for _ in 0..random.below(6) {
            change(&mut random, &mut frames);
        }
        count(&plan, &frames)?;
    }
    count(&Plan::full(), &download(image))?;
    for answer in ANSWERS {
        let frames = answers
            .get(&answer)
            .ok_or(format!("no frame had the answer {answer:02X?}"))?;
        match answer {
            Some(code) => println!("reply {code:02X}: {frames} frames"),
            None => println!("no reply: {frames} frames"),
        }
    }
    println!(
        "no difference on {sessions} sessions of {} frames",
        answers.values().sum::<usize>()
    );
    Ok(())
}

/// One replay of the download, by the name of its mode; each frame has to be accepted.
fn measure(mode: &str, image: &[u8]) -> Result<(), String> {
    let plan = Plan::full();
    let mut frames = download(image);
    match mode {
        "made" => {
            return measured_made(black_box(&plan))
                .then_some(())
                .ok_or("no memory".to_string());
        }
        "proved" => {
            measured_proved(black_box(&plan), black_box(&mut frames));
        }
        "plain" => measured_plain(&mut black_box(plan.plain()), black_box(&mut frames)),
        _ => return Err(format!("no mode is named {mode:?}")),
    }
    match frames.iter().position(|reply| reply[..2] != [0xFF, 0x00]) {
        None => Ok(()),
        Some(frame) => Err(format!(
            "frame {frame} is answered by {:02X?}",
            frames[frame]
        )),
    }
}

fn main() -> ExitCode {
    let mode = std::env::args().nth(1).unwrap_or_default();
    let image = Random(88_172_645_463_325_252).bytes(1 << 18);
    let done = match mode.as_str() {
        "compare" => compare(&image),
        "size" => {
            println!("{}", image.len());
            Ok(())
        }
        _ => measure(&mode, &image),
    };
    match done {
        Ok(()) => ExitCode::SUCCESS,
        Err(why) => {
            eprintln!("replay: {why}");
            ExitCode::FAILURE
        }
    }
}
