//! The reconstruction of a bin: every bap with every code at every exponent, and what is refused, beside the oracle's model; and of a quantised
//! coefficient, beside the Rust's own `quantise_reconstruct`.
use crate::cases::{FILL, FILL_LEVEL};
use crate::entries;
use crate::short::mantissas::{edge_coefficients, round_each_step};
use crate::tally::{Line, Tally};
use rust_reference::gen::{self, KINDS};
use rust_reference::model as m;
use rust_reference::requests;
use rust_reference::rng::Rng;

/// The Rust's function, unchanged, which the oracle does not take, and the one that it calls (differential/prepare).
mod source {
    use rust_reference::reference::{MANT_LEVEL_11, MANT_LEVEL_15, MANT_LEVEL_3, MANT_LEVEL_5, MANT_LEVEL_7, QUANTIZATION_BITS};
    include!(concat!(env!("ORACLE"), "/generated_more.rs"));
}

/// How many codes past those of its bap are tried.
const PAST: u32 = 16;

/// Random coefficients for each case of a step.
const RANDOM: u64 = 2000;

pub fn run(tally: &mut Tally, count: u64, seed: u64) {
    every_code(tally);
    limits(tally);
    edges(tally);
    steps(tally);
    random(tally, RANDOM * count, seed);
    println!("reconstruct: done");
}

/// What the call of a bin leaves: answer, whether there is a level, and the level's bits.
type Bin = (u32, u8, u32);

fn reconstructed_here(exponent: u32, bap: u32, code: u32) -> Bin {
    let (mut has, mut level) = ([FILL], [FILL_LEVEL]);
    let answer = entries::reconstruct_mantissa(exponent, bap, code, &mut has, &mut level);
    (answer, has[0], level[0].to_bits())
}

fn reconstructed_there(exponent: u32, bap: u32, code: u32) -> Bin {
    let (mut has, mut level) = ([FILL], [FILL_LEVEL]);
    let answer = requests::reconstruct_mantissa(exponent, bap, code, &mut has, &mut level);
    (answer as u32, has[0], level[0].to_bits())
}

fn beside_the_model(line: &mut Line, exponent: u32, bap: u32, code: u32) {
    let (here, there) = (reconstructed_here(exponent, bap, code), reconstructed_there(exponent, bap, code));
    line.case(there.0, here == there, || format!("reconstruct_mantissa {exponent} {bap} {code}: {here:x?}, {there:x?}"));
}

/// Every bap with every code and the first ones past them, at every exponent.
fn every_code(tally: &mut Tally) {
    let line = tally.step("reconstruct: every bap, code and exponent");
    for (bap, exponent) in (0..=15).flat_map(|b| (0..=24).map(move |e| (b, e))) {
        (0..m::code_count(bap as u8) + PAST).for_each(|code| beside_the_model(line, exponent, bap, code));
    }
}

/// Exponents, baps and codes at and beyond their limits, among them such as fit once cut to fewer bits.
fn limits(tally: &mut Tally) {
    let line = tally.step("reconstruct: limits");
    for exponent in [0, 23, 24, 25, 26, 31, 32, 255, 256, 65_536, 1 << 31, u32::MAX] {
        for bap in (0..=17).chain([31, 32, 255, 256, 256 + 6, 65_536 + 1, 1 << 31, u32::MAX]) {
            let past = m::code_count(bap.min(15) as u8);
            for code in [0, 1, past - 1, past, 32_768, 65_535, 65_536, 65_537, 1 << 31, u32::MAX] {
                beside_the_model(line, exponent, bap, code);
            }
        }
    }
}

/// A finite coefficient quantised and reconstructed here, beside the Rust, bit for bit; a silent bin is the Rust's 0.
fn beside_the_rust(line: &mut Line, x: f32, exponent: u32, bap: u32) {
    let mut code = [7u16];
    let quantised = entries::quantise_mantissa(x, exponent, bap, &mut code);
    let here = (quantised, reconstructed_here(exponent, bap, code[0] as u32));
    let rust = source::quantise_reconstruct(x, exponent as i32, bap as u8);
    let there = (0, (0, (bap != 0) as u8, rust.to_bits()));
    line.case(0, here == there, || format!("{x:?} ({:08x}), exponent {exponent}, bap {bap}: {here:x?}, the Rust {there:x?}", x.to_bits()));
}

/// Every bap and exponent over zeros, denormals, powers of two and their neighbours, full scale and beyond.
fn edges(tally: &mut Tally) {
    let line = tally.step("reconstruct: the Rust, edge coefficients");
    let all = edge_coefficients();
    for (bap, exponent) in (0..=15).flat_map(|b| (0..=24).map(move |e| (b, e))) {
        all.iter().filter(|x| x.is_finite()).for_each(|&x| beside_the_rust(line, x, exponent, bap));
    }
}

/// Round every level of a bap and every place between two.
fn steps(tally: &mut Tally) {
    let line = tally.step("reconstruct: the Rust, round each step");
    for (bap, exponent) in (1..=15).flat_map(|b| [0, 1, 12, 24].map(|e| (b, e))) {
        round_each_step(bap, exponent).filter(|x| x.is_finite()).for_each(|x| beside_the_rust(line, x, exponent, bap));
    }
}

/// Any finite bits, any of the oracle's kinds, and, most often, what the exponent leaves within 1 or just beyond.
fn random(tally: &mut Tally, count: u64, seed: u64) {
    let line = tally.step("reconstruct: the Rust, random coefficients");
    let mut g = Rng::new(seed ^ 0x11_57e4);
    for _ in 0..count {
        let (bap, exponent) = (g.below(16) as u32, g.below(25) as u32);
        let x = match g.below(4) {
            0 => gen::finite_bits(&mut g),
            1 => {
                let (kind, bin, salt) = (g.pick(&KINDS), g.below(253) as usize, g.next());
                gen::coeff(&mut g, kind, bin, salt)
            }
            _ => 1.02 * g.unit() * 2f32.powi(-(exponent as i32)),
        };
        beside_the_rust(line, x, exponent, bap);
    }
}
