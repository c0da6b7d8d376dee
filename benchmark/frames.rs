//! Whole frames by channels and ends: the port's call beside the Rust's steps joined, with each stand-in writer and with none.
use crate::entries;
use crate::inputs::{frames, size_of, Input, MANY};
use crate::source::{bools, nothing, packed};
use crate::steps::{both, keep};
use crate::timing::times;
use crate::{head, line};
use rust_reference::model as m;
use rust_reference::requests;
use std::hint::black_box;

const ROOM: usize = 20_500;

/// What the port writes a frame to; made once and used again.
struct Left {
    exps: Vec<u8>,
    bap: Vec<u8>,
    codes: Vec<u16>,
    body: Vec<u8>,
    counts: [u32; 12],
    bits: [u32; 1],
}

impl Left {
    fn new(entries: usize) -> Left {
        let (exps, bap, codes) = (vec![0; entries], vec![0; entries], vec![0; entries]);
        Left { exps, bap, codes, body: vec![0; ROOM], counts: [0; 12], bits: [0] }
    }
    fn encode(&mut self, i: &Input) -> u32 {
        entries::encode_body(&i.bytes, &i.coeffs, &mut self.exps, &mut self.bap, &mut self.codes, &mut self.body, &mut self.counts)
    }
    fn write(&mut self, i: &Input, e: &Encoded) -> u32 {
        entries::write_body(&i.bytes, &e.exps, &e.codes, &mut self.body, &mut self.counts)
    }
    fn read(&mut self, i: &Input, e: &Encoded) -> u32 {
        entries::read_body(&i.bytes, &e.body, &mut self.exps, &mut self.bap, &mut self.codes, &mut self.counts, &mut self.bits)
    }
}

/// A frame as the port has encoded it.
struct Encoded {
    exps: Vec<u8>,
    codes: Vec<u16>,
    body: Vec<u8>,
}

fn encoded(all: &[Input]) -> Vec<Encoded> {
    let mut port = Left::new(all[0].coeffs.len());
    let mut one = |i: &Input| {
        port.encode(i);
        let bytes = port.counts.iter().sum::<u32>().div_ceil(8) as usize;
        Encoded { exps: port.exps.clone(), codes: port.codes.clone(), body: port.body[..bytes].to_vec() }
    };
    all.iter().map(&mut one).collect()
}

/// What the port writes the levels of a frame to.
struct Levels {
    has_level: Vec<u8>,
    levels: Vec<f32>,
}

impl Levels {
    fn new(entries: usize) -> Levels {
        Levels { has_level: vec![0; entries], levels: vec![0.0; entries] }
    }
    fn reconstruct(&mut self, i: &Input, e: &Encoded) -> u32 {
        entries::reconstruct_body(&i.bytes, &e.exps, &e.codes, &mut self.has_level, &mut self.levels)
    }
}

/// All sides write the same frame: what is timed is right.
fn check(all: &[Input]) {
    for i in all {
        let n = i.coeffs.len();
        let (mut port, mut one, mut two) = (Left::new(n), bools::Frame::new(n, ROOM), packed::Frame::new(n, ROOM));
        assert_eq!(port.encode(i), 0);
        let bits = (one.encode(&i.bytes, &i.coeffs), two.encode(&i.bytes, &i.coeffs));
        assert_eq!(bits.0, bits.1);
        assert!(port.counts == one.counts && port.counts == two.counts && port.body == one.body && port.body == two.body);
        assert!(port.exps == one.exps && port.bap == one.bap && port.codes == one.codes);
    }
}

/// One size of frame, against each form of the Rust's; its least times, and how many coefficients lie below the ends.
fn size(rounds: usize, channels: u8, end: u8) -> (Vec<f64>, usize) {
    let all = frames(channels, end);
    check(&all);
    let n = all[0].coeffs.len();
    let (mut left, mut lean, mut standin, mut none) =
        (Left::new(n), packed::Frame::new(n, ROOM), bools::Frame::new(n, ROOM), nothing::Frame::new(n, ROOM));
    let (mut exps, mut bap, mut codes, mut body) = (vec![0; n], vec![0; n], vec![0u32; n], vec![0; ROOM]);
    let at = |i: usize| (&all[i % MANY].bytes[..], &all[i % MANY].coeffs[..]);
    let taken = times(
        rounds,
        &mut [
            &mut |i| _ = black_box(left.encode(&all[i % MANY])),
            &mut |i| _ = black_box(standin.encode(at(i).0, at(i).1)),
            &mut |i| _ = black_box(lean.encode(at(i).0, at(i).1)),
            &mut |i| _ = black_box(none.encode(at(i).0, at(i).1)),
            &mut |i| _ = black_box(m::encode(at(i).0, at(i).1, &mut exps, &mut bap, &mut codes, &mut body)),
        ],
    );
    line("encode_body", &size_of(channels, end), &taken);
    let coefficients = (0..all[0].sheet.c()).map(|c| m::BLOCKS * all[0].sheet.end(c)).sum();
    (taken.iter().map(|t| t.iter().copied().fold(f64::INFINITY, f64::min)).collect(), coefficients)
}

/// How the time grows: nanoseconds a coefficient below the ends, by the least of the rounds, which other work on the machine disturbs least.
fn growth(sizes: &[(u8, u8, Vec<f64>, usize)]) {
    println!("\nGrowth, nanoseconds a coefficient, least of the rounds\n");
    println!("| channels | end | coefficients | port | Rust joined, stand-in writer | Rust joined, byte-packing writer |");
    println!("|---|---|---|---|---|---|");
    for (channels, end, times, coefficients) in sizes {
        let each = |t: f64| t / *coefficients as f64;
        println!("| {channels} | {end} | {coefficients} | {:.1} | {:.1} | {:.1} |", each(times[0]), each(times[1]), each(times[2]));
    }
}

/// The second entry and the reader, which the Rust has not.
fn others(rounds: usize, channels: u8, end: u8) {
    let all = frames(channels, end);
    let (made, mut port, size) = (encoded(&all), Left::new(all[0].coeffs.len()), size_of(channels, end));
    line("write_body", &size, &times(rounds, &mut [&mut |i| keep(port.write(&all[i % MANY], &made[i % MANY]))]));
    line("read_body", &size, &times(rounds, &mut [&mut |i| keep(port.read(&all[i % MANY], &made[i % MANY]))]));
}

/// The levels are the oracle's, bit for bit: what is timed is right.
fn check_levels(all: &[Input], made: &[Encoded]) {
    for (i, e) in all.iter().zip(made) {
        let (mut here, mut there) = (Levels::new(e.exps.len()), Levels::new(e.exps.len()));
        let codes: Vec<u32> = e.codes.iter().map(|&c| c as u32).collect();
        assert_eq!(here.reconstruct(i, e), 0);
        assert_eq!(requests::reconstruct_body(&i.bytes, &e.exps, &codes, &mut there.has_level, &mut there.levels), 0);
        assert!(here.has_level == there.has_level && here.levels.iter().zip(&there.levels).all(|(a, b)| a.to_bits() == b.to_bits()));
    }
}

/// The levels of a frame beside the reading of its body, which makes what they are made of: both allocate, and the levels are to take no longer.
fn levels(rounds: usize, channels: u8, end: u8) {
    let all = frames(channels, end);
    let (made, n) = (encoded(&all), all[0].coeffs.len());
    check_levels(&all, &made);
    let (mut levels, mut reader) = (Levels::new(n), Left::new(n));
    let reconstruct = |i: usize| keep(levels.reconstruct(&all[i % MANY], &made[i % MANY]));
    let read = |i: usize| keep(reader.read(&all[i % MANY], &made[i % MANY]));
    both(rounds, "reconstruct_body", &size_of(channels, end), reconstruct, read);
}

/// The sizes at which the calls that the Rust has not are timed: channels and end.
const OTHERS: [(u8, u8); 5] = [(1, 37), (1, 133), (1, 253), (2, 253), (6, 253)];

pub fn run(rounds: usize) {
    let forms = ["Rust joined, stand-in writer", "Rust joined, byte-packing writer", "Rust joined, nothing written", "the oracle's model"];
    head("Whole frames", &forms);
    let mut sizes = Vec::new();
    for (channels, end) in [1, 2, 6].into_iter().flat_map(|c| [37, 133, 253].map(|e| (c, e))) {
        let (times, coefficients) = size(rounds, channels, end);
        sizes.push((channels, end, times, coefficients));
    }
    growth(&sizes);
    head("Whole frames, calls that the Rust has not", &[]);
    OTHERS.iter().for_each(|&(channels, end)| others(rounds, channels, end));
    head("Whole frames, levels beside the port's own reader, in brackets their time by the reader's", &["read_body"]);
    OTHERS.iter().for_each(|&(channels, end)| levels(rounds, channels, end));
}
