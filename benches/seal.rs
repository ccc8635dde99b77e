//! The proved seal of a flash, through its static library, beside a plain Rust one.
//!
//!     seal compare               both on many inputs: an error where they differ
//!     seal proved|crossed        the proved one over a full flash, or a crossed one, once
//!     seal copy|crossed_copy     the same without the seal: what making the flash takes
//!     seal plain|plain_crossed   the plain one over a flash that was made before, once
//!     seal size                  the bytes of the flash that is measured

mod crc;
mod parts;
mod random;

use parts::{Crossing, Flash, Part, seal};
use random::Random;
use std::hint::black_box;
use std::process::ExitCode;

unsafe extern "C" {
    fn kochalluq_seal(
        bytes: *const u8,
        len: usize,
        sectors: usize,
        words: usize,
        sealed: &mut u16,
    ) -> bool;
    fn kochalluq_crossed_seal(
        bytes: *const u8,
        len: usize,
        sectors: usize,
        words: usize,
        sealed: &mut u16,
    ) -> bool;
}

type ProvedSeal = unsafe extern "C" fn(*const u8, usize, usize, usize, &mut u16) -> bool;

/// A flash: its bytes, how many sectors it has, and how many words each.
struct Image<'a> {
    bytes: &'a [u8],
    sectors: usize,
    words: usize,
}

impl Image<'_> {
    /// A flash of no sectors is made from the same bytes, and has no byte to seal.
    fn without_sectors(bytes: &[u8]) -> Image<'_> {
        Image {
            bytes,
            sectors: 0,
            words: 0,
        }
    }

    /// The proved seal, none where there was no memory for the flash.
    fn sealed_by(&self, proved: ProvedSeal) -> Option<u16> {
        let mut sealed = 0;
        let (bytes, len) = (self.bytes.as_ptr(), self.bytes.len());
        unsafe { proved(bytes, len, self.sectors, self.words, &mut sealed) }.then_some(sealed)
    }

    fn flash(&self) -> Flash {
        Flash::new(self.bytes.to_vec(), self.sectors, self.words)
    }
}

// The names are those by which callgrind finds what it is to count.

#[inline(never)]
#[unsafe(no_mangle)]
fn measured_proved(image: &Image) -> Option<u16> {
    image.sealed_by(kochalluq_seal)
}

#[inline(never)]
#[unsafe(no_mangle)]
fn measured_crossed(image: &Image) -> Option<u16> {
    image.sealed_by(kochalluq_crossed_seal)
}

#[inline(never)]
#[unsafe(no_mangle)]
fn measured_copy(bytes: &[u8]) -> Option<u16> {
    Image::without_sectors(bytes).sealed_by(kochalluq_seal)
}

#[inline(never)]
#[unsafe(no_mangle)]
fn measured_crossed_copy(bytes: &[u8]) -> Option<u16> {
    Image::without_sectors(bytes).sealed_by(kochalluq_crossed_seal)
}

#[inline(never)]
#[unsafe(no_mangle)]
fn measured_plain(flash: &Flash) -> Option<u16> {
    seal(flash).ok()
}

#[inline(never)]
#[unsafe(no_mangle)]
fn measured_plain_crossed(flash: &Crossing<Flash>) -> Option<u16> {
    seal(flash).ok()
}

/// Both ways on one flash, crossed and not: an error where they differ.
fn both(image: &Image) -> Result<(), String> {
    let plain = (
        seal(&image.flash()).ok(),
        seal(&Crossing::new(image.flash())).ok(),
    );
    let proved = (
        image.sealed_by(kochalluq_seal),
        image.sealed_by(kochalluq_crossed_seal),
    );
    if plain == proved {
        return Ok(());
    }
    Err(format!(
        "{proved:04X?} where plain Rust has {plain:04X?}: {} sectors of {} words over {} bytes",
        image.sectors,
        image.words,
        image.bytes.len()
    ))
}

fn compare(full: &Image) -> Result<(), String> {
    let mut random = Random(42);
    let mut inputs = 0;
    let mut lengths = 0;
    for len in 0..=3000 {
        let bytes = random.bytes(len);
        for sectors in [0, 1, 2, 3, 31, 32, 33] {
            let most = len / 2 / sectors.max(1);
            for words in [most, most.saturating_sub(1), most + 1, most / 2] {
                let image = Image {
                    bytes: &bytes,
                    sectors,
                    words,
                };
                both(&image)?;
                lengths += image.flash().len();
                inputs += 1;
            }
        }
    }
    both(full)?;
    println!(
        "no difference on {} inputs ({} bytes on the average)",
        inputs + 1,
        lengths / inputs
    );
    Ok(())
}

/// One call, by the name of its mode.
fn measure(mode: &str, full: &Image) -> Result<(), String> {
    let sealed = match mode {
        "proved" => measured_proved(black_box(full)),
        "crossed" => measured_crossed(black_box(full)),
        "copy" => measured_copy(black_box(full.bytes)),
        "crossed_copy" => measured_crossed_copy(black_box(full.bytes)),
        "plain" => measured_plain(black_box(&full.flash())),
        "plain_crossed" => measured_plain_crossed(black_box(&Crossing::new(full.flash()))),
        _ => return Err(format!("no mode is named {mode:?}")),
    };
    black_box(sealed);
    Ok(())
}

fn main() -> ExitCode {
    let mode = std::env::args().nth(1).unwrap_or_default();
    let bytes = Random(88_172_645_463_325_252).bytes(1 << 19);
    let full = Image {
        bytes: &bytes,
        sectors: 8,
        words: 0x8000,
    };
    let done = match mode.as_str() {
        "compare" => compare(&full),
        "size" => {
            println!("{}", bytes.len());
            Ok(())
        }
        _ => measure(&mode, &full),
    };
    match done {
        Ok(()) => ExitCode::SUCCESS,
        Err(why) => {
            eprintln!("seal: {why}");
            ExitCode::FAILURE
        }
    }
}
