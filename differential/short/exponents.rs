//! Extraction at every exponent field; shaping of all short sequences; groups and strategies at every end; the exponent writer and reader
//! with every first value and every group.
use super::sequences;
use crate::cases::FILL;
use crate::entries;
use crate::frames::COMPARED_FRACTION;
use crate::tally::Tally;
use rust_reference::gen;
use rust_reference::model as m;
use rust_reference::reference as r;
use rust_reference::rng::Rng;

pub fn run(tally: &mut Tally) {
    extraction(tally);
    shaping(tally);
    short_last_spans(tally);
    groups(tally);
    strategies(tally);
    strategy_limits(tally);
    writer(tally);
    reader_groups(tally);
    reader_lengths(tally);
}

/// Fractions at the edges: round every power of two, and round the last one that is compared with the Rust's logarithm.
fn edge_fractions() -> Vec<u32> {
    let last = (1u32 << 23) - 1;
    let mut v: Vec<u32> = (0..23).flat_map(|k| [(1 << k) - 1, 1 << k, (1 << k) + 1]).collect();
    v.extend(last - 70..=last);
    v.extend([0x2a_aaaa, 0x55_5555, 0x35_04f3, 0x35_04f4]); // thirds and the root of two
    v.sort();
    v.dedup();
    v
}

/// Every exponent field with the edge fractions and both signs: beside document 01's rule everywhere, beside the Rust where it must agree.
fn extraction(tally: &mut Tally) {
    let fractions = edge_fractions();
    for field in 0..=255u32 {
        for &fraction in &fractions {
            for sign in [0, 1 << 31] {
                let x = f32::from_bits(sign | field << 23 | fraction);
                let mut slot = [7u8];
                let here = (entries::extract_exponent(x, &mut slot), slot[0]);
                let there = m::step_extract(x).map_or_else(|k| (k as u32, 0), |e| (0, e));
                tally
                    .step("short: extract_exponent, document 01's rule")
                    .case(there.0, here == there, || format!("extract_exponent {x:?}: {here:?}, {there:?}"));
                if x.is_finite() && fraction <= COMPARED_FRACTION {
                    let rust = r::r_extract_exponent(x);
                    tally
                        .step("short: extract_exponent, the Rust")
                        .case(0, here == (0, rust), || format!("extract_exponent {x:?}: {here:?}, {rust}"));
                }
            }
        }
    }
}

fn shape_one(tally: &mut Tally, e: &[u8]) {
    let (mut here, mut there) = (e.to_vec(), e.to_vec());
    let k = (entries::preprocess_d15(&mut here), m::step_preprocess(&mut there) as u32);
    tally.step("short: preprocess_d15").case(k.1, k.0 == k.1 && here == there, || format!("preprocess_d15 {e:?}: {here:?}, {there:?}"));
    for span in [1, 2, 4] {
        quantise_one(tally, e, span);
    }
}

fn quantise_one(tally: &mut Tally, e: &[u8], span: usize) {
    let (mut here, mut there) = (e.to_vec(), e.to_vec());
    let k = (entries::quantise_exponents_to_grpsize(&mut here, span), m::step_quantise(&mut there, span) as u32);
    tally
        .step("short: quantise_exponents_to_grpsize")
        .case(k.1, k.0 == k.1 && here == there, || format!("span {span} of {e:?}: {here:?}, {there:?}"));
    if k.1 == 0 && (e.len() <= span || (e.len() - 1) % span == 0) {
        let mut rust = e.to_vec();
        r::r_quantise_exponents(&mut rust, span);
        tally
            .step("short: quantise_exponents_to_grpsize, the Rust")
            .case(0, here == rust, || format!("span {span} of {e:?}: {here:?}, {rust:?}"));
    }
}

/// A span, exponents whose short last span is not the only one, what they become here, and in the Rust (docs/DIFFERENCES.md).
const SHORT_LAST: [(usize, &[u8], &[u8], &[u8]); 5] = [
    (2, &[1, 3, 3, 0], &[1, 2, 2, 0], &[1, 3, 3, 1]),
    (2, &[6, 6, 6, 4, 2, 2], &[6, 4, 4, 2, 2, 2], &[6, 6, 6, 4, 4, 2]),
    (4, &[1, 3, 3, 3, 3, 0], &[1, 2, 2, 2, 2, 0], &[1, 3, 3, 3, 3, 1]),
    (4, &[1, 3, 3, 3, 3, 0, 0], &[1, 2, 2, 2, 2, 0, 0], &[1, 3, 3, 3, 3, 1, 1]),
    (4, &[1, 3, 3, 3, 3, 0, 0, 0], &[1, 2, 2, 2, 2, 0, 0, 0], &[1, 3, 3, 3, 3, 1, 1, 1]),
];

/// Where equality with the Rust ends (document 02, W4).
fn short_last_spans(tally: &mut Tally) {
    for (span, e, want, rust_wants) in SHORT_LAST {
        let (mut here, mut rust) = (e.to_vec(), e.to_vec());
        let k = entries::quantise_exponents_to_grpsize(&mut here, span);
        r::r_quantise_exponents(&mut rust, span);
        tally
            .step("short: a short last span, here and in the Rust")
            .case(0, k == 0 && here == want && rust == rust_wants, || format!("span {span} of {e:?}: {here:?}, {rust:?}"));
    }
}

/// All sequences of 0 to 4 over 0..26, of 5 and 6 over fewer values; every byte at each of 3 places; every length up to 258.
fn shaping(tally: &mut Tally) {
    let all: Vec<u8> = (0..=26).collect();
    for length in 0..=4 {
        sequences(&all, length, &mut |e| shape_one(tally, e));
    }
    sequences(&[0u8, 1, 2, 3, 6, 15, 17, 24, 255], 5, &mut |e| shape_one(tally, e));
    sequences(&[0u8, 2, 4, 6, 15, 24], 6, &mut |e| shape_one(tally, e));
    for byte in 0..=255u8 {
        for place in 0..3 {
            let mut e = [12u8; 3];
            e[place] = byte;
            shape_one(tally, &e);
        }
    }
    let mut g = Rng::new(15);
    for length in 0..=258usize {
        for low in [0, 10, 24] {
            let e: Vec<u8> = (0..length).map(|_| g.range(low, 24) as u8).collect();
            shape_one(tally, &e);
            (0..=9).for_each(|span| quantise_one(tally, &e, span));
        }
    }
}

/// The number of groups at every end and span.
fn groups(tally: &mut Tally) {
    for end in (0..=260).chain([512, 65_536, usize::MAX]) {
        for span in (0..=9).chain([usize::MAX]) {
            let mut slot = [7u32];
            let here = (entries::ngrps_for_strategy(end, span, &mut slot), slot[0]);
            let legal = end <= 256 && [1, 2, 4].contains(&span);
            let there = if legal { (0, r::r_ngrps(end, span) as u32) } else { (2, 0) };
            tally
                .step("short: ngrps_for_strategy")
                .case(there.0, here == there, || format!("ngrps_for_strategy {end} {span}: {here:?}, {there:?}"));
        }
    }
}

fn pick_one(tally: &mut Tally, e: &[u8], end: usize) {
    let mut slot = [7u8];
    let here = (entries::pick_strategy_for_block(e, end, &mut slot), slot[0]);
    let there = m::step_pick(e, end).map_or_else(|k| (k as u32, 0), |s| (0, s));
    tally
        .step("short: pick_strategy_for_block")
        .case(there.0, here == there, || format!("pick_strategy_for_block {e:?} {end}: {here:?}, {there:?}"));
}

/// Every end with slices around it, and all short blocks.
fn strategies(tally: &mut Tally) {
    let mut g = Rng::new(45);
    for end in 0..=258usize {
        for length in [end.saturating_sub(1), end, end + 1, 255, 256, 257] {
            for top in [0, 1, 2, 24, 255] {
                let e: Vec<u8> = (0..length).map(|_| g.range(0, top) as u8).collect();
                pick_one(tally, &e, end);
            }
        }
    }
    for length in 0..=6 {
        sequences(&[0u8, 1, 2, 3, 255], length, &mut |e| pick_one(tally, e, length));
    }
}

/// Every end with every cost up to past both limits: single steps in as many spans of four, or of two, as it takes.
fn strategy_limits(tally: &mut Tally) {
    for end in 2..=256usize {
        for spans in [4, 2] {
            let mut e = vec![0u8; end];
            pick_one(tally, &e, end);
            for i in (1..end).filter(|i| (i - 1) % spans != 0) {
                e[i] = 1 + (i % 2) as u8;
                pick_one(tally, &e, end);
            }
        }
    }
}

fn write_one(tally: &mut Tally, e: &[u8], end: usize, span: usize, room: usize) {
    let (mut here, mut there, mut bits) = (vec![FILL; room], vec![FILL; room], [7u32]);
    let k = entries::write_exponents_grouped(&mut here, e, end, span, &mut bits);
    let (want, count) = m::step_write_exponents(e, end, span, &mut there);
    let same = (k, bits[0]) == (want as u32, count) && here == there;
    tally
        .step("short: write_exponents_grouped")
        .case(want as u32, same, || format!("write_exponents_grouped {e:?} end {end} span {span} room {room}: {k}, {want}"));
}

/// Every end and span with slices and outputs around what is needed; all first steps at end 7.
fn writer(tally: &mut Tally) {
    let mut g = Rng::new(25);
    for end in 0..=258usize {
        for span in 0..=5usize {
            let shape = if [1, 2, 4].contains(&span) { span } else { 1 };
            let e = gen::shaped_exps(&mut g, end.max(1), shape);
            let need = (4 + 7 * groups_of(end, shape)).div_ceil(8);
            for room in [0, need.saturating_sub(1), need, need + 1] {
                write_one(tally, &e, end, span, room);
            }
            for length in [end.saturating_sub(1), end + 1, 256, 257] {
                let mut longer = e.clone();
                longer.resize(length, 200);
                write_one(tally, &longer, end, span, 90);
            }
        }
    }
    for span in [1, 2, 4] {
        sequences(&[0u8, 1, 2, 4, 15, 16, 24], 3, &mut |first| {
            let mut e = [first[2]; 7];
            e[..3].copy_from_slice(first);
            write_one(tally, &e, 7, span, 3);
        });
    }
}

fn groups_of(end: usize, span: usize) -> usize {
    end.saturating_sub(1).div_ceil(span).div_ceil(3)
}

fn read_one(tally: &mut Tally, step: &str, src: &[u8], end: usize, span: usize, length: usize) {
    let (mut here, mut there, mut bits) = ([FILL; 258], [FILL; 258], [7u32]);
    let k = entries::read_exponents_grouped(src, &mut here[..length], end, span, &mut bits);
    let (want, count) = m::step_read_exponents(src, end, span, &mut there[..length]);
    let same = (k, bits[0]) == (want as u32, count) && here == there;
    tally
        .step(step)
        .case(want as u32, same, || format!("read_exponents_grouped {src:02x?} end {end} span {span}: {k} {bits:?}, {want} {count}"));
}

/// Fields of 4, 7, 7, .. bits, the rest of the last byte ones.
fn packed(first: u8, groups: &[u8]) -> Vec<u8> {
    let mut bits: Vec<bool> = (0..4).rev().map(|k| first >> k & 1 == 1).collect();
    groups.iter().for_each(|g| bits.extend((0..7).rev().map(|k| g >> k & 1 == 1)));
    bits.resize(bits.len().div_ceil(8) * 8, true);
    bits.chunks(8).map(|b| b.iter().fold(0, |v, &x| v << 1 | x as u8)).collect()
}

/// Every first value with every value of a group: both groups of end 7, one group at each place of end 37 and of end 253.
fn reader_groups(tally: &mut Tally) {
    for first in 0..16u8 {
        for a in 0..128u8 {
            for b in 0..128u8 {
                read_one(tally, "short: read_exponents_grouped, two groups", &packed(first, &[a, b]), 7, 1, 7);
            }
            for (end, span) in [(7, 2), (7, 4), (37, 1), (37, 2), (37, 4), (253, 1), (253, 2), (253, 4)] {
                let groups = groups_of(end, span);
                for place in [0, 1, 2, groups / 2, groups - 1].into_iter().filter(|&p| p < groups) {
                    let mut g = vec![62u8; groups]; // three zero differences
                    g[place] = a;
                    read_one(tally, "short: read_exponents_grouped, one group", &packed(first, &g), end, span, end);
                }
            }
        }
    }
}

/// Every end and span with every length of input, and with exponent slices around the end.
fn reader_lengths(tally: &mut Tally) {
    for end in 0..=256usize {
        for span in 0..=5usize {
            let src = packed(9, &vec![62u8; groups_of(end, span.max(1)) + 1]);
            let every = end <= 37 || end % 36 == 1;
            let need = (4 + 7 * groups_of(end, span.max(1))).div_ceil(8);
            let cuts: Vec<usize> = if every { (0..=src.len()).collect() } else { vec![0, need - 1, need] };
            for cut in cuts {
                read_one(tally, "short: read_exponents_grouped, lengths", &src[..cut], end, span, end);
            }
            for length in [end.saturating_sub(1), end + 1, 256, 257] {
                read_one(tally, "short: read_exponents_grouped, lengths", &src, end, span, length);
            }
        }
    }
}
