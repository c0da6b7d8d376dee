//! Spectra of a name: music, silence, clicks, full scale, denormals, and the oracle's kinds.
use rust_reference::gen::{self, KINDS};
use rust_reference::model::{self as m, Sheet};
use rust_reference::rng::Rng;

pub const NAMES: [&str; 5] = ["music", "silence", "clicks", "full scale", "denormals"];

/// Bits of what is not finite, of both signs: the infinities, quiet NaNs, signalling NaNs. They are handed over as they are.
#[rustfmt::skip]
pub const NOT_FINITE: [u32; 10] = [
    0x7f80_0000, 0xff80_0000, 0x7fc0_0000, 0xffc0_0000, 0x7fff_ffff, 0xffff_ffff, 0x7f80_0001, 0xff80_0001, 0x7fbf_ffff, 0xffbf_ffff,
];

fn signed(g: &mut Rng, x: f32) -> f32 {
    if g.chance(2) {
        -x
    } else {
        x
    }
}

/// A note with harmonics that fall off upwards and from block to block, over a quiet floor of noise.
fn music(g: &mut Rng, rows: &mut [Vec<f32>]) {
    let root = 2.0 + 18.0 * g.unit().abs();
    let (level, fall, floor) = (0.1 + 0.8 * g.unit().abs(), 0.5 + 0.5 * g.unit().abs(), 2f32.powi(-(g.range(9, 20) as i32)));
    for (block, row) in rows.iter_mut().enumerate() {
        for x in row.iter_mut() {
            *x = floor * g.unit();
        }
        let mut strength = level * fall.powi(block as i32);
        let mut place = root;
        while (place as usize) < row.len() {
            let bin = place as usize;
            row[bin] += signed(g, strength);
            if bin > 0 {
                row[bin - 1] += signed(g, 0.4 * strength); // what the window lets through beside it
            }
            strength *= 0.4 + 0.5 * g.unit().abs();
            place += root;
        }
    }
}

/// Silence but for one or two blocks, where a click makes all bins alike.
fn clicks(g: &mut Rng, rows: &mut [Vec<f32>]) {
    let (first, second) = (g.below(6) as usize, g.below(6) as usize);
    let level = 2f32.powi(-(g.range(0, 6) as i32));
    for (block, row) in rows.iter_mut().enumerate() {
        let heard = block == first || block == second;
        for x in row.iter_mut() {
            *x = if heard { signed(g, level) } else { 0.0 };
        }
    }
}

/// One value of a spectrum whose bins do not hang together.
fn single(g: &mut Rng, name: &str) -> f32 {
    let x = match name {
        "silence" => 0.0,
        "full scale" => g.pick(&[1.0, f32::from_bits(0x3f7f_ffff), f32::from_bits(0x3f7f_ffbf), f32::from_bits(0x3f80_0001)]),
        _ => f32::from_bits(g.below(1 << 23) as u32), // below 2^-126
    };
    signed(g, x)
}

/// The coefficients of a frame with a spectrum of this name; from each end on what is not finite and not looked at.
pub fn coefficients(g: &mut Rng, s: &Sheet, name: &str) -> Vec<f32> {
    if !NAMES.contains(&name) {
        return gen::coeffs(g, s, name, true);
    }
    let mut v: Vec<f32> = (0..s.buffer_len()).map(|i| f32::from_bits(NOT_FINITE[i % NOT_FINITE.len()])).collect();
    for channel in 0..s.c() {
        let mut rows = vec![vec![0f32; s.end(channel)]; m::BLOCKS];
        match name {
            "music" => music(g, &mut rows),
            "clicks" => clicks(g, &mut rows),
            _ => rows.iter_mut().flatten().for_each(|x| *x = single(g, name)),
        }
        for (block, row) in rows.iter().enumerate() {
            let at = s.at(block, channel);
            v[at..at + row.len()].copy_from_slice(row);
        }
    }
    v
}

/// Any of the named spectra or of the oracle's kinds.
pub fn any(g: &mut Rng, s: &Sheet) -> (&'static str, Vec<f32>) {
    let name = match g.below(3) {
        0 => "mixed",
        1 => g.pick(&NAMES),
        _ => g.pick(&KINDS),
    };
    (name, coefficients(g, s, name))
}
