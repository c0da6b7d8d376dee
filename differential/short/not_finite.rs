//! Frames with a coefficient that is not finite, by its bits: in every block and channel, at the first and the last bin below the end (3), and
//! at the first and the last from it on (ignored); then with such everywhere from each end on.
use crate::frames::{self, ROOM};
use crate::spectra::NOT_FINITE;
use crate::tally::Tally;
use rust_reference::gen::{self, Wish};
use rust_reference::model::{self as m, Sheet};
use rust_reference::rng::Rng;
use std::hint::black_box;

pub fn run(tally: &mut Tally) {
    let mut g = Rng::new(0x4e61);
    for (n, lfe) in [(1, 0), (2, 1), (5, 1)] {
        let s = gen::rand_sheet(&mut g, &Wish { n: Some(n), lfe: Some(lfe), max_end: 253 });
        let plain = gen::coeffs(&mut g, &s, "mixed", false);
        for bits in NOT_FINITE {
            single(tally, &s, &plain, bits);
        }
        everywhere(tally, &s, &plain);
    }
}

/// The places of a frame: block and channel.
fn parts(s: &Sheet) -> Vec<(usize, usize)> {
    (0..m::BLOCKS).flat_map(|block| (0..s.c()).map(move |channel| (block, channel))).collect()
}

/// Puts these bits into a coefficient, and sees that they stand there in memory: a copy might make a signalling NaN quiet.
fn put_bits(coeff: &mut f32, bits: u32) {
    *coeff = f32::from_bits(bits);
    assert_eq!(black_box(coeff).to_bits(), bits, "the bits have changed");
}

/// One coefficient of these bits.
fn single(tally: &mut Tally, s: &Sheet, plain: &[f32], bits: u32) {
    for (block, channel) in parts(s) {
        let end = s.end(channel);
        for (bin, name) in [(0, "below end"), (end - 1, "below end"), (end, "from end on"), (m::NC - 1, "from end on")] {
            let mut x = plain.to_vec();
            put_bits(&mut x[s.at(block, channel) + bin], bits);
            let label = format!("{bits:08x} in block {block}, channel {channel}, bin {bin} of {end}");
            compare(tally, &format!("short: encode_body, not finite {name}"), &label, s, &x, plain);
        }
    }
}

/// From each end on nothing but these.
fn everywhere(tally: &mut Tally, s: &Sheet, plain: &[f32]) {
    let mut x = plain.to_vec();
    for (block, channel) in parts(s) {
        let at = s.at(block, channel);
        for i in at + s.end(channel)..at + m::NC {
            put_bits(&mut x[i], NOT_FINITE[i % NOT_FINITE.len()]);
        }
    }
    compare(tally, "short: encode_body, not finite from end on", "all from each end on", s, &x, plain);
}

/// Beside the Rust's steps joined; what is taken is the frame with zeros from end on.
fn compare(tally: &mut Tally, step: &str, label: &str, s: &Sheet, x: &[f32], plain: &[f32]) {
    let sheet = s.to_bytes();
    let here = frames::encoded_here(&sheet, x, x.len(), ROOM);
    frames::note(tally, step, label, &sheet, &here, &frames::encoded_there(&sheet, x, x.len(), ROOM));
    if here.answer == 0 {
        frames::note(tally, step, label, &sheet, &here, &frames::encoded_here(&sheet, plain, x.len(), ROOM));
    }
}
