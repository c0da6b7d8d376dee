//! The listening copy of the frame of encode_frame.rs, channel by channel beside its coefficients.
//!
//! `scripts/run-examples` runs this program and compares what it prints with bindings/listen.stdout.

mod chord;

use ac3core::{Refusal, BLOCKS_PER_FRAME};

/// How many values there were, and the largest with its place.
#[derive(Default)]
struct Largest {
    count: usize,
    value: f64,
    block: usize,
    bin: usize,
}

impl Largest {
    fn add(&mut self, value: f64, block: usize, bin: usize) {
        let count = self.count + 1;
        *self = if value > self.value { Largest { count, value, block, bin } } else { Largest { count, ..*self } };
    }
}

fn main() -> Result<(), Refusal> {
    let sheet = chord::sheet()?;
    let coeffs = chord::coeffs(&sheet);
    let body = sheet.encode(&coeffs)?.body;

    // What a player has: the sheet and the body.
    let frame = sheet.read(&body)?.frame;
    let copy = sheet.reconstruct(&frame)?;

    for channel in 0..sheet.channels() {
        let (mut difference, mut silent) = (Largest::default(), Largest::default());
        for block in 0..BLOCKS_PER_FRAME {
            let coeffs = &coeffs[sheet.bins(block, channel)];
            for (bin, (&coeff, level)) in coeffs.iter().zip(copy.block(&sheet, block, channel)).enumerate() {
                match level {
                    Some(level) => difference.add((f64::from(coeff) - f64::from(level)).abs(), block, bin),
                    None => silent.add(f64::from(coeff).abs(), block, bin),
                }
            }
        }
        println!("channel {channel}: {} bins have a level, {} are silent", difference.count, silent.count);
        let Largest { value, block, bin, .. } = difference;
        // A level is at most 2^-exponent, its scale.
        let exponent = frame.exponents[sheet.part(block, channel)][bin];
        println!("  largest difference {value:.9}, in block {block}, bin {bin}, at a scale of 2^-{exponent}");
        if silent.count > 0 {
            let Largest { value, block, bin, .. } = silent;
            println!("  largest silent coefficient {value:.9}, in block {block}, bin {bin}");
        }
    }
    Ok(())
}
