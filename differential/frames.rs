//! Whole frames: from coefficients, from exponents and codes, read back, and damaged copies of the body read; the levels of all these; with their
//! records in any order; and the long run over random ones.
use crate::cases::{bits_of, FILL, FILL_CODE, FILL_LEVEL};
use crate::entries;
use crate::spectra::{self, NOT_FINITE};
use crate::tally::Tally;
use rust_reference::gen::{self, Wish};
use rust_reference::model as m;
use rust_reference::reference as r;
use rust_reference::requests;
use rust_reference::rng::Rng;
use std::time::Instant;

/// More than the longest body: six blocks of five channels of 253 bins and the LFE, 16 bits each, with their exponents.
pub const ROOM: usize = 20_500;

/// The greatest fraction field at which the Rust's extraction must be the exponent field's (document 01).
pub const COMPARED_FRACTION: u32 = (1 << 23) - 65;

/// What a frame call leaves: answer, twelve counts, exponents, bap, codes, and body or bits read; or levels, by their bits.
#[derive(PartialEq, Debug)]
pub struct Left {
    pub answer: u32,
    pub counts: Vec<u32>,
    pub exps: Vec<u8>,
    pub bap: Vec<u8>,
    pub codes: Vec<u16>,
    pub body: Vec<u8>,
    pub bits: u32,
    pub has_level: Vec<u8>,
    pub levels: Vec<u32>,
}

impl Left {
    fn before(entries: usize, room: usize) -> Left {
        let (exps, bap, codes) = (vec![FILL; entries], vec![FILL; entries], vec![FILL_CODE; entries]);
        let (has_level, levels) = (vec![], vec![]);
        Left { answer: 0, counts: vec![7; 12], exps, bap, codes, body: vec![FILL; room], bits: 0, has_level, levels }
    }

    /// What a reconstruction leaves.
    fn of_levels(answer: u32, has_level: Vec<u8>, levels: &[f32]) -> Left {
        Left { answer, has_level, levels: bits_of(levels), ..Left::before(0, 0) }
    }
}

fn wide(codes: &[u16]) -> Vec<u32> {
    codes.iter().map(|&c| c as u32).collect()
}

fn low_halves(codes: &[u32]) -> Vec<u16> {
    codes.iter().map(|&c| c as u16).collect()
}

fn twelve(a: &m::Answer) -> Vec<u32> {
    [a.exp_bits, a.mant_bits].concat()
}

/// From coefficients, through the archive.
pub fn encoded_here(sheet: &[u8], coeffs: &[f32], entries: usize, room: usize) -> Left {
    let mut l = Left::before(entries, room);
    l.answer = entries::encode_body(sheet, coeffs, &mut l.exps, &mut l.bap, &mut l.codes, &mut l.body, &mut l.counts);
    l
}

/// From coefficients, by the Rust's steps joined.
pub fn encoded_there(sheet: &[u8], coeffs: &[f32], entries: usize, room: usize) -> Left {
    let mut l = Left::before(entries, room);
    let mut codes = vec![gen::FILL32; entries];
    let a = m::encode(sheet, coeffs, &mut l.exps, &mut l.bap, &mut codes, &mut l.body);
    Left { answer: a.number as u32, counts: twelve(&a), codes: low_halves(&codes), ..l }
}

fn written_here(sheet: &[u8], exps: &[u8], codes: &[u16], room: usize) -> Left {
    let mut l = Left::before(0, room);
    l.answer = entries::write_body(sheet, exps, codes, &mut l.body, &mut l.counts);
    l
}

fn written_there(sheet: &[u8], exps: &[u8], codes: &[u16], room: usize) -> Left {
    let mut l = Left::before(0, room);
    let a = m::write_frame(sheet, exps, &wide(codes), &mut l.body);
    Left { answer: a.number as u32, counts: twelve(&a), ..l }
}

fn read_here(sheet: &[u8], input: &[u8], entries: usize) -> Left {
    let mut l = Left::before(entries, 0);
    let mut bits = [7u32];
    l.answer = entries::read_body(sheet, input, &mut l.exps, &mut l.bap, &mut l.codes, &mut l.counts, &mut bits);
    Left { bits: bits[0], ..l }
}

/// The oracle's reader; the bap that it read with is the allocation of the exponents it gives.
fn read_there(sheet: &[u8], input: &[u8], entries: usize) -> Left {
    let mut l = Left::before(entries, 0);
    let mut codes = vec![gen::FILL32; entries];
    let (a, bits) = m::read_frame(sheet, input, &mut l.exps, &mut codes);
    match (a.number, m::check_sheet(sheet)) {
        (0, Ok(s)) => l.bap = m::baps_of(&s, &l.exps),
        (7..=9, _) => l.bap.fill(0),
        _ => {}
    }
    Left { answer: a.number as u32, counts: twelve(&a), codes: low_halves(&codes), bits, ..l }
}

/// The levels of exponents and codes, through the archive, into buffers of these two lengths.
pub fn reconstructed_here(sheet: &[u8], exps: &[u8], codes: &[u16], lengths: [usize; 2]) -> Left {
    let (mut has_level, mut levels) = (vec![FILL; lengths[0]], vec![FILL_LEVEL; lengths[1]]);
    let answer = entries::reconstruct_body(sheet, exps, codes, &mut has_level, &mut levels);
    Left::of_levels(answer, has_level, &levels)
}

/// The same, by the oracle's model.
pub fn reconstructed_there(sheet: &[u8], exps: &[u8], codes: &[u16], lengths: [usize; 2]) -> Left {
    let (mut has_level, mut levels) = (vec![FILL; lengths[0]], vec![FILL_LEVEL; lengths[1]]);
    let answer = requests::reconstruct_body(sheet, exps, &wide(codes), &mut has_level, &mut levels);
    Left::of_levels(answer as u32, has_level, &levels)
}

pub fn note(tally: &mut Tally, step: &str, label: &str, sheet: &[u8], here: &Left, there: &Left) {
    tally.step(step).case(there.answer, here == there, || {
        let part = if here.answer != there.answer {
            format!("answers {}, the oracle {}", here.answer, there.answer)
        } else {
            let parts = [
                ("counts", here.counts == there.counts),
                ("exponents", here.exps == there.exps),
                ("bap", here.bap == there.bap),
                ("codes", here.codes == there.codes),
                ("body", here.body == there.body),
                ("bits read", here.bits == there.bits),
                ("has_level", here.has_level == there.has_level),
                ("levels", here.levels == there.levels),
            ];
            parts.iter().filter(|p| !p.1).map(|p| p.0).collect::<Vec<_>>().join(", ")
        };
        format!("{step}, {label}: {part}\n  sheet {sheet:02x?}")
    });
}

/// The levels through the archive beside the oracle's; each is given exponents and codes of its own, most often the same.
fn note_levels(tally: &mut Tally, step: &str, label: &str, sheet: &[u8], here: (&[u8], &[u16]), there: (&[u8], &[u16])) {
    let here = reconstructed_here(sheet, here.0, here.1, [here.0.len(); 2]);
    note(tally, step, label, sheet, &here, &reconstructed_there(sheet, there.0, there.1, [there.0.len(); 2]));
}

/// The Rust's own extraction on every coefficient of a frame where document 01 demands equality; the joined steps take the exponent field.
fn note_extraction(tally: &mut Tally, s: &m::Sheet, coeffs: &[f32]) {
    let line = tally.step("frame: extraction by the Rust's logarithm");
    for (block, channel) in (0..m::BLOCKS).flat_map(|b| (0..s.c()).map(move |c| (b, c))) {
        let at = s.at(block, channel);
        for &x in &coeffs[at..at + s.end(channel)] {
            if x.to_bits() & 0x7f_ffff <= COMPARED_FRACTION {
                let (here, there) = (m::exponent_of(x), r::r_extract_exponent(x));
                line.case(0, here == there, || format!("{:08x}: {here}, the Rust {there}", x.to_bits()));
            }
        }
    }
}

/// A copy of a body with one to three bits turned, cut short, or with a byte put in or taken out.
pub fn damaged(g: &mut Rng, body: &[u8]) -> Vec<u8> {
    let mut w = body.to_vec();
    if w.is_empty() {
        return w;
    }
    let at = g.below(w.len() as u64) as usize;
    match g.below(5) {
        0 => w.truncate(at),
        1 => w.insert(at, g.next() as u8),
        2 => {
            w.remove(at);
        }
        _ => {
            for _ in 0..g.range(1, 3) {
                let bit = g.below(8 * w.len() as u64) as usize;
                w[bit / 8] ^= 0x80 >> (bit % 8);
            }
        }
    }
    w
}

/// A damaged body through the reader, and the levels of what could be read.
fn compare_damaged(tally: &mut Tally, label: &str, sheet: &[u8], body: &[u8], n: usize) {
    let (here, there) = (read_here(sheet, body, n), read_there(sheet, body, n));
    note(tally, "frame: read_body, damaged", label, sheet, &here, &there);
    if there.answer == 0 {
        let (here, there) = ((&here.exps[..], &here.codes[..]), (&there.exps[..], &there.codes[..]));
        note_levels(tally, "frame: reconstruct_body, damaged", label, sheet, here, there);
    }
}

/// One frame through all four calls, with `damages` damaged copies of its body.
pub fn compare(tally: &mut Tally, g: &mut Rng, label: &str, sheet: &[u8], coeffs: &[f32], damages: usize) {
    let n = coeffs.len();
    let there = encoded_there(sheet, coeffs, n, ROOM);
    note(tally, "frame: encode_body", label, sheet, &encoded_here(sheet, coeffs, n, ROOM), &there);
    let Ok(s) = m::check_sheet(sheet) else { return };
    if there.answer != 0 {
        return;
    }
    note_extraction(tally, &s, coeffs);
    let length = there.counts.iter().sum::<u32>().div_ceil(8) as usize;
    let body = &there.body[..length];
    let room = length - (length > 0 && g.chance(8)) as usize; // sometimes one byte too few
    note(
        tally,
        "frame: encode_body, room as needed",
        label,
        sheet,
        &encoded_here(sheet, coeffs, n, room),
        &encoded_there(sheet, coeffs, n, room),
    );
    let (exps, codes) = (&there.exps[..], &there.codes[..]);
    note(tally, "frame: write_body", label, sheet, &written_here(sheet, exps, codes, length), &written_there(sheet, exps, codes, length));
    note_levels(tally, "frame: reconstruct_body", label, sheet, (exps, codes), (exps, codes));
    let read = read_here(sheet, body, n);
    note(tally, "frame: read_body", label, sheet, &read, &read_there(sheet, body, n));
    note_levels(tally, "frame: reconstruct_body, read back", label, sheet, (&read.exps, &read.codes), (exps, codes));
    let cut = &body[..length.saturating_sub(1)];
    note(tally, "frame: read_body, last byte cut", label, sheet, &read_here(sheet, cut, n), &read_there(sheet, cut, n));
    for _ in 0..damages {
        compare_damaged(tally, label, sheet, &damaged(g, body), n);
    }
}

/// Puts what no call may look at from each end on.
fn fill_from_ends(s: &m::Sheet, exps: &mut [u8], codes: &mut [u16]) {
    for (block, channel) in (0..m::BLOCKS).flat_map(|b| (0..s.c()).map(move |c| (b, c))) {
        let rest = s.at(block, channel) + s.end(channel)..s.at(block, channel) + m::NC;
        exps[rest.clone()].fill(0xff);
        codes[rest].fill(0xffff);
    }
}

/// A frame made without coefficients: shaped exponents and any codes, with now and then one that is not legal.
fn compare_free(tally: &mut Tally, g: &mut Rng, label: &str, s: &m::Sheet) {
    let sheet = s.to_bytes();
    let (mut exps, wide) = gen::free_frame(g, s);
    let mut codes = low_halves(&wide);
    fill_from_ends(s, &mut exps, &mut codes);
    let at = g.below(exps.len() as u64) as usize;
    match g.below(6) {
        0 => exps[at] = g.range(0, 25) as u8,
        1 => codes[at] = g.next() as u16,
        _ => {}
    }
    let there = written_there(&sheet, &exps, &codes, ROOM);
    note(tally, "frame: write_body, free codes", label, &sheet, &written_here(&sheet, &exps, &codes, ROOM), &there);
    note_levels(tally, "frame: reconstruct_body, free codes", label, &sheet, (&exps, &codes), (&exps, &codes));
    if there.answer == 0 {
        let n = exps.len();
        note(tally, "frame: read_body, free codes", label, &sheet, &read_here(&sheet, &there.body, n), &read_there(&sheet, &there.body, n));
    }
}

/// Every call that takes a sheet, under one whose records may stand in any order. `ordered` is the frame of the same sheet with its records in
/// ascending order. The buffers have an entry less where they are to be short.
pub fn compare_order(tally: &mut Tally, part: &str, label: &str, s: &m::Sheet, ordered: &Left, coeffs: &[f32], short: bool) {
    let sheet = &s.to_bytes()[..];
    let entries = coeffs.len() - short as usize;
    let (here, there) = (entries::check_sheet(sheet), m::check_sheet(sheet).map_or_else(|k| k as u32, |_| 0));
    tally.step(&format!("{part}: check_sheet")).case(there, here == there, || format!("{label}: {here}, {there}\n  sheet {sheet:02x?}"));
    let (exps, bap, codes) = (&ordered.exps[..entries], &ordered.bap[..entries], &ordered.codes[..entries]);
    let body = &ordered.body[..ordered.counts.iter().sum::<u32>().div_ceil(8) as usize];
    let mut both = |call: &str, here: Left, there: Left| note(tally, &format!("{part}: {call}"), label, sheet, &here, &there);
    both("encode_body", encoded_here(sheet, coeffs, entries, ROOM), encoded_there(sheet, coeffs, entries, ROOM));
    both("write_body", written_here(sheet, exps, codes, ROOM), written_there(sheet, exps, codes, ROOM));
    both("read_body", read_here(sheet, body, entries), read_there(sheet, body, entries));
    let lengths = [entries; 2];
    both("reconstruct_body", reconstructed_here(sheet, exps, codes, lengths), reconstructed_there(sheet, exps, codes, lengths));
    compare_count(tally, part, label, sheet, bap);
    for channel in 0..=s.c() {
        let at = s.at(0, channel.min(s.c() - 1)); // those of the last one for a channel that the sheet has not
        let length = if short { 0 } else { m::NC };
        compare_allocation(tally, part, label, sheet, channel as u32, &ordered.exps[at..at + m::NC], length);
    }
}

fn compare_count(tally: &mut Tally, part: &str, label: &str, sheet: &[u8], bap: &[u8]) {
    let mut counts = [7u32; 6];
    let here = (entries::mantissa_bits_total_ends(sheet, bap, &mut counts), counts);
    let there = m::count_frame(sheet, bap).map_or_else(|k| (k as u32, [0; 6]), |v| (0, v));
    tally
        .step(&format!("{part}: mantissa_bits_total_ends"))
        .case(there.0, here == there, || format!("{label}: {here:?}, {there:?}\n  sheet {sheet:02x?}"));
}

fn compare_allocation(tally: &mut Tally, part: &str, label: &str, sheet: &[u8], channel: u32, exps: &[u8], length: usize) {
    let (mut here, mut there) = (vec![FILL; length], vec![FILL; length]);
    let k = entries::compute_bap(sheet, channel, exps, &mut here);
    let want = m::step_allocate_sheet(sheet, channel, exps, &mut there) as u32;
    tally.step(&format!("{part}: compute_bap")).case(want, k == want && here == there, || {
        format!("{label}, channel {channel}: {k}, {want}\n  {here:?}\n  {there:?}\n  sheet {sheet:02x?}")
    });
}

/// Frame number `i` of a seed, alike wherever a run begins: a random sheet, a spectrum, now and then a coefficient that is not finite, and now
/// and then the same with the records shuffled, which is 11 but where they come to stand in order.
pub fn random_frame(tally: &mut Tally, seed: u64, i: u64) {
    let mut g = Rng::new(seed.wrapping_mul(0x9e37_79b9_7f4a_7c15).wrapping_add(i.wrapping_mul(0xd134_2543_de82_ef95)));
    let s = gen::rand_sheet(&mut g, &Wish { n: None, lfe: None, max_end: 253 });
    let (name, mut x) = spectra::any(&mut g, &s);
    if g.chance(16) {
        let at = g.below(x.len() as u64) as usize;
        x[at] = f32::from_bits(g.pick(&NOT_FINITE));
    }
    let label = format!("frame {i} of seed {seed}, {name}");
    compare(tally, &mut g, &label, &s.to_bytes(), &x, 1);
    compare_free(tally, &mut g, &label, &s);
    if g.chance(4) {
        let ordered = encoded_there(&s.to_bytes(), &x, x.len(), ROOM);
        let mut shuffled = s;
        gen::shuffle(&mut g, &mut shuffled.records);
        let short = g.chance(4);
        compare_order(tally, "frame, shuffled", &label, &shuffled, &ordered, &x, short);
    }
}

/// The long run: `count` random frames from number `first` on, with a line of progress each hundredth part or minute.
pub fn soak(tally: &mut Tally, count: u64, seed: u64, first: u64) {
    let start = Instant::now();
    let (mut said, mut parts) = (Instant::now(), 0);
    for done in 1..=count {
        random_frame(tally, seed, first + done - 1);
        let part = 100 * done / count;
        if part > parts || said.elapsed().as_secs() >= 60 {
            println!(
                "{done} of {count} frames, {} cases, {} differences, {} s",
                tally.cases(),
                tally.differences(),
                start.elapsed().as_secs()
            );
            (said, parts) = (Instant::now(), part);
        }
    }
    println!("{count} frames from number {first} of seed {seed} in {:.1} s", start.elapsed().as_secs_f64());
}
