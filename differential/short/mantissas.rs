//! The quantiser at every bap and exponent over the edges between codes; streams with every bap and code, alone and in groups; the reader
//! with every value of a field; the count with every number of grouped members.
use super::sequences;
use crate::cases::{FILL, FILL_CODE};
use crate::entries;
use crate::spectra::NOT_FINITE;
use crate::tally::Tally;
use rust_reference::gen;
use rust_reference::model as m;
use rust_reference::rng::Rng;

pub fn run(tally: &mut Tally) {
    quantiser(tally);
    every_code(tally);
    grouped_codes(tally);
    mixed_streams(tally);
    every_field(tally);
    lengths(tally);
    counts(tally);
}

/// Values that every bap is asked at every exponent: zeros, denormals, powers of two and their neighbours, full scale and beyond, and what
/// is not finite.
pub fn edge_coefficients() -> Vec<f32> {
    let mut bits = vec![0u32, 1, 0x007f_ffff, 0x0080_0000, 0x7f7f_ffff];
    for k in -30..=3 {
        let power = 2f32.powi(k).to_bits();
        bits.extend([power - 2, power - 1, power, power + 1, power + 0x40_0000]);
    }
    bits.iter().flat_map(|&b| [b, b | 1 << 31]).chain(NOT_FINITE).map(f32::from_bits).collect()
}

/// Every place where one code of a bap gives way to the next, and every value of a code, each with its neighbours; the one below 0 is a NaN.
pub fn round_each_step(bap: u32, exponent: u32) -> impl Iterator<Item = f32> {
    let levels = m::code_count(bap as u8) as i64;
    (-levels - 1..=levels + 1).flat_map(move |step| {
        let x = (step as f64 / levels as f64) as f32 * 2f32.powi(-(exponent as i32));
        [-1i32, 0, 1].map(|by| f32::from_bits(x.to_bits().wrapping_add(by as u32)))
    })
}

fn quantise_one(tally: &mut Tally, x: f32, exponent: u32, bap: u32) {
    let mut slot = [7u16];
    let here = (entries::quantise_mantissa(x, exponent, bap, &mut slot), slot[0] as u32);
    let there = m::step_quantise_mantissa(x, exponent, bap).map_or_else(|k| (k as u32, 0), |c| (0, c));
    tally
        .step("short: quantise_mantissa")
        .case(there.0, here == there, || format!("quantise_mantissa {x:?} {exponent} {bap}: {here:?}, {there:?}"));
}

/// Every bap 0..17 and exponent 0..26 over the edge values; then, at exponents 0, 1 and 24, every place where one code gives way to the
/// next, with its neighbours.
fn quantiser(tally: &mut Tally) {
    let edges = edge_coefficients();
    for bap in (0..=17).chain([255, 256, u32::MAX]) {
        for exponent in (0..=26).chain([255, u32::MAX]) {
            edges.iter().for_each(|&x| quantise_one(tally, x, exponent, bap));
        }
    }
    for bap in 1..=15u32 {
        for exponent in [0, 1, 24] {
            round_each_step(bap, exponent).for_each(|x| quantise_one(tally, x, exponent, bap));
        }
    }
}

/// Writes codes, and reads what was written back.
fn stream_one(tally: &mut Tally, step: &str, bap: &[u8], codes: &[u16], room: usize) {
    let (mut here, mut there, mut bits) = ([FILL; 16], [FILL; 16], [7u32]);
    let wide: Vec<u32> = codes.iter().map(|&c| c as u32).collect();
    let k = entries::write_mantissa_stream(&mut here[..room], bap, codes, &mut bits);
    let (want, count) = m::step_write_mantissas(bap, &wide, &mut there[..room]);
    let same = (k, bits[0]) == (want as u32, count) && here == there;
    tally
        .step(&format!("short: write_mantissa_stream, {step}"))
        .case(want as u32, same, || format!("{bap:?} {codes:?} room {room}: {k} {bits:?}, {want} {count}"));
    if want == 0 {
        read_one(tally, step, &there[..count.div_ceil(8) as usize], bap);
    }
}

fn read_one(tally: &mut Tally, step: &str, src: &[u8], bap: &[u8]) {
    let (mut here, mut there, mut bits) = ([FILL_CODE; 8], [gen::FILL32; 8], [7u32]);
    let n = bap.len();
    let k = entries::read_mantissa_stream(src, bap, &mut here[..n], &mut bits);
    let (want, count) = m::step_read_mantissas(src, bap, &mut there[..n]);
    let same = (k, bits[0]) == (want as u32, count) && here.iter().zip(&there).all(|(a, b)| *a == *b as u16);
    tally
        .step(&format!("short: read_mantissa_stream, {step}"))
        .case(want as u32, same, || format!("{src:02x?} {bap:?}: {k} {bits:?} {here:?}, {want} {count} {there:?}"));
}

/// Every bap with every 16-bit code, alone.
fn every_code(tally: &mut Tally) {
    for bap in 0..=17u8 {
        for code in 0..=u16::MAX {
            if bap > 5 || code < 300 || code % 257 == 0 {
                stream_one(tally, "one code", &[bap], &[code], 2);
            }
        }
    }
}

/// Groups of bap 1, 2 and 4 with every code at every place, whole and with members missing, and one more member after them.
fn grouped_codes(tally: &mut Tally) {
    for (bap, codes) in [(1u8, 3u16), (2, 5), (4, 11)] {
        let all: Vec<u16> = (0..=codes).collect(); // one of them out of range
        for members in 0..=4 {
            if all.len().pow(members as u32) <= 25_000 {
                sequences(&all, members, &mut |c| stream_one(tally, "groups", &vec![bap; c.len()], c, 3));
            }
        }
    }
}

/// All streams of up to three entries over bap 0..16 with the codes 0, the greatest and one past it, and each room around the need.
fn mixed_streams(tally: &mut Tally) {
    let baps: Vec<u8> = (0..=16).collect();
    for length in 0..=3 {
        sequences(&baps, length, &mut |bap| {
            let greatest = |b: u8| m::code_count(b.min(15)) - 1;
            sequences(&[0u32, 1, 2], length, &mut |kinds| {
                let codes: Option<Vec<u16>> =
                    bap.iter().zip(kinds).map(|(&b, &k)| u16::try_from(if k == 0 { 0 } else { greatest(b) + k - 1 }).ok()).collect();
                if let Some(codes) = codes {
                    stream_one(tally, "three entries", bap, &codes, 6);
                }
            });
            (0..=6).for_each(|room| stream_one(tally, "room", bap, &vec![0; length], room));
        });
    }
    for (a, b) in [(0, 1), (1, 0), (1536, 1537), (1537, 1537), (2000, 2000)] {
        let (bap, codes, mut out, mut bits) = (vec![0u8; a], vec![0u16; b], [FILL; 4], [7u32]);
        let k = entries::write_mantissa_stream(&mut out, &bap, &codes, &mut bits);
        let same = (k, bits[0], out) == (10, 0, [FILL; 4]);
        tally.step("short: write_mantissa_stream, room").case(10, same, || format!("{a} bap, {b} codes: {k}"));
    }
}

/// Every value of the first field for every bap, one to four entries, and each cut of the input; then all baps of up to three entries.
fn every_field(tally: &mut Tally) {
    for bap in 0..=15u8 {
        let width = match bap {
            1 => 5,
            2 | 4 => 7,
            b => m::WIDTH[b as usize],
        };
        for value in 0..1u32 << width {
            let bytes = (value << (32 - width.max(1)) | 0x5a).to_be_bytes();
            let entries = if width <= 7 { 1..=4 } else { 1..=2 };
            for n in entries {
                (0..=4).for_each(|cut| read_one(tally, "every field", &bytes[..cut], &vec![bap; n]));
            }
        }
    }
    let baps: Vec<u8> = (0..=16).collect();
    for src in [[0u8; 6], [0xff; 6], [0x55, 0xaa, 0x33, 0xcc, 0x0f, 0xf0]] {
        for length in 0..=3 {
            sequences(&baps, length, &mut |bap| (0..=6).for_each(|cut| read_one(tally, "three entries", &src[..cut], bap)));
        }
    }
}

/// Random streams of every length near 0, near a channel's 253 and 256 and near the greatest, with outputs and inputs around the need.
fn lengths(tally: &mut Tally) {
    let mut g = Rng::new(1536);
    for length in (0..=24).chain(250..=260).chain(1530..=1540) {
        let baps = g.pick(&[15, 5, 4, 2]);
        let bap: Vec<u8> = (0..length).map(|_| g.range(0, baps) as u8).collect();
        let wide: Vec<u32> = bap.iter().map(|&b| g.below(m::code_count(b) as u64) as u32).collect();
        let codes: Vec<u16> = wide.iter().map(|&c| c as u16).collect();
        let mut whole = vec![FILL; 3080];
        let need = m::step_write_mantissas(&bap, &wide, &mut whole).1.div_ceil(8) as usize;
        for room in need.saturating_sub(2)..=need + 1 {
            write_long(tally, &bap, &codes, room);
            read_long(tally, &bap, &whole[..room]);
        }
    }
}

fn write_long(tally: &mut Tally, bap: &[u8], codes: &[u16], room: usize) {
    let (mut here, mut there, mut bits) = (vec![FILL; room], vec![FILL; room], [7u32]);
    let wide: Vec<u32> = codes.iter().map(|&c| c as u32).collect();
    let k = entries::write_mantissa_stream(&mut here, bap, codes, &mut bits);
    let (want, count) = m::step_write_mantissas(bap, &wide, &mut there);
    let same = (k, bits[0]) == (want as u32, count) && here == there;
    let line = tally.step("short: write_mantissa_stream, lengths");
    line.case(want as u32, same, || format!("{bap:?} {codes:?} room {room}: {k}, {want}"));
}

fn read_long(tally: &mut Tally, bap: &[u8], src: &[u8]) {
    let (mut here, mut there, mut bits) = (vec![FILL_CODE; bap.len()], vec![gen::FILL32; bap.len()], [7u32]);
    let k = entries::read_mantissa_stream(src, bap, &mut here, &mut bits);
    let (want, count) = m::step_read_mantissas(src, bap, &mut there);
    let same = (k, bits[0]) == (want as u32, count) && here.iter().zip(&there).all(|(a, b)| *a == *b as u16);
    let line = tally.step("short: read_mantissa_stream, lengths");
    line.case(want as u32, same, || format!("{bap:?} {src:02x?}: {k}, {want}"));
}

/// One channel of 37 bins with up to four members of each grouped bap and up to two of every other.
fn counts(tally: &mut Tally) {
    let sheet = gen::example_sheet();
    let numbers: Vec<usize> = (0..=4).collect();
    sequences(&numbers, 3, &mut |n| {
        for other in 0..=16u8 {
            let mut row = vec![other; 2];
            row.extend([1u8, 2, 4].iter().zip(n).flat_map(|(&b, &k)| vec![b; k]));
            row.resize(256, 0);
            let bap = row.repeat(6);
            let mut here = [7u32; 6];
            let k = entries::mantissa_bits_total_ends(&sheet, &bap, &mut here);
            let (want, there) = m::count_frame(&sheet, &bap).map_or_else(|k| (k as u32, [0; 6]), |c| (0, c));
            tally
                .step("short: mantissa_bits_total_ends")
                .case(want, (k, here) == (want, there), || format!("{row:?}: {k} {here:?}, {want} {there:?}"));
        }
    });
}
