//! The sheet check with every value of every byte, every cut and every length field; the allocation with every end, rate, offset and flat
//! spectrum; selections at every end.
use crate::cases::{sheet_for, FILL};
use crate::entries;
use crate::tally::Tally;
use rust_reference::gen::{self, Wish};
use rust_reference::model as m;
use rust_reference::reference::{self as r, AllocInput};
use rust_reference::rng::Rng;

pub fn run(tally: &mut Tally) {
    sheets(tally);
    allocations(tally);
    allocation_lengths(tally);
    selections(tally);
}

fn check_one(tally: &mut Tally, sheet: &[u8]) {
    let (here, there) = (entries::check_sheet(sheet), m::check_sheet(sheet).map_or_else(|k| k as u32, |_| 0));
    tally.step("short: check_sheet").case(there, here == there, || format!("check_sheet {sheet:02x?}: {here}, {there}"));
}

/// The same bytes with the length field that fits them.
fn with_length(mut sheet: Vec<u8>) -> Vec<u8> {
    if sheet.len() >= 2 {
        let n = sheet.len() - 2;
        sheet[0] = (n >> 8) as u8;
        sheet[1] = n as u8;
    }
    sheet
}

/// Sheets of each size: the example, and one of each channel layout with no, some and all segments; each good, and with its records out of order.
fn sheets_of_each_size() -> Vec<Vec<u8>> {
    let mut g = Rng::new(3);
    let mut v = vec![gen::example_sheet()];
    for (n, lfe, segments) in [(1, 1, 0), (2, 0, 2), (3, 1, 1), (5, 0, 0), (5, 1, 8)] {
        let mut s = gen::rand_sheet(&mut g, &Wish { n: Some(n), lfe: Some(lfe), max_end: 253 });
        for q in s.records.iter_mut() {
            q.segs = if q.channel == n { vec![] } else { vec![[31, 15, 7]; segments] };
        }
        v.push(s.to_bytes());
        while s.records.is_sorted_by_key(|q| q.channel) {
            gen::shuffle(&mut g, &mut s.records);
        }
        v.push(s.to_bytes());
    }
    v
}

/// Each byte with each of its 256 values, each cut with and without its length mended, each byte doubled or taken out, every length field.
fn sheets(tally: &mut Tally) {
    for sheet in sheets_of_each_size() {
        for at in 0..sheet.len() {
            for value in 0..=255u8 {
                let mut w = sheet.clone();
                w[at] = value;
                check_one(tally, &w);
            }
            let (mut less, mut more) = (sheet.clone(), sheet.clone());
            less.remove(at);
            more.insert(at, sheet[at]);
            for w in [sheet[..at].to_vec(), less, more] {
                check_one(tally, &w);
                check_one(tally, &with_length(w));
            }
        }
        for length in 0..=u16::MAX {
            let mut w = sheet.clone();
            w[..2].copy_from_slice(&length.to_be_bytes());
            check_one(tally, &w);
        }
    }
    check_one(tally, &with_length(vec![1; 65_537]));
    check_one(tally, &vec![1; 70_000]);
}

fn allocate_one(tally: &mut Tally, p: &AllocInput, segs: &[[u8; 3]], exps: &[u8], end: usize, length: usize) {
    let params = [p.fscod, p.sdcycod, p.fdcycod, p.sgaincod, p.dbpbcod, p.floorcod, p.csnroffst, p.fsnroffst, p.fgaincod];
    let Some((sheet, channel)) = sheet_for(&params, &segs.concat(), end) else { return };
    let (mut here, mut there) = (vec![FILL; length], vec![FILL; length]);
    let k = entries::compute_bap(&sheet, channel, exps, &mut here);
    let want = m::step_allocate(p, segs, exps, end, &mut there) as u32;
    tally.step("short: compute_bap").case(want, k == want && here == there, || {
        format!("compute_bap {p:?} {segs:?} {exps:?} end {end}: {k}, {want}\n  {here:?}\n  {there:?}")
    });
}

/// Ends that a sheet may hold.
fn ends() -> Vec<usize> {
    [7].into_iter().chain(gen::full_ends().into_iter().map(usize::from)).collect()
}

/// Every end, rate and flat spectrum with steps of the offset; every value of every other code; one segment of every kind.
fn allocations(tally: &mut Tally) {
    let plain = AllocInput { csnroffst: 15, ..Default::default() };
    for end in ends() {
        for fscod in 0..3 {
            for value in 0..=24u8 {
                for csnroffst in (0..64).step_by(if end % 9 == 1 { 1 } else { 5 }) {
                    let mut exps = vec![value; end];
                    r::r_preprocess_d15(&mut exps);
                    allocate_one(tally, &AllocInput { fscod, csnroffst, ..plain }, &[], &exps, end, end);
                }
            }
        }
    }
    let mut g = Rng::new(7);
    for code in 0..=255u8 {
        for field in 0..9 {
            let mut p = [0, 0, 0, 0, 0, 0, 15, 0, 0];
            p[field] = code;
            let input = AllocInput {
                fscod: p[0],
                sdcycod: p[1],
                fdcycod: p[2],
                sgaincod: p[3],
                dbpbcod: p[4],
                floorcod: p[5],
                csnroffst: p[6],
                fsnroffst: p[7],
                fgaincod: p[8],
            };
            for end in [7, 37, 133, 253] {
                allocate_one(tally, &input, &[], &gen::shaped_exps(&mut g, end, 1), end, end);
            }
        }
    }
    for (offst, len) in (0..=32u8).flat_map(|o| (0..=16u8).map(move |l| (o, l))) {
        for ba in 0..=8 {
            let exps = gen::shaped_exps(&mut g, 253, 2);
            allocate_one(tally, &plain, &[[offst, len, ba], [31 - offst.min(31), 15, 7 - ba.min(7)]], &exps, 253, 253);
        }
    }
}

/// Every end a byte can say, slices around it, and an exponent of 25 at every bin.
fn allocation_lengths(tally: &mut Tally) {
    let p = AllocInput { csnroffst: 20, ..Default::default() };
    for end in 0..=255usize {
        for (a, b) in [
            (end, end),
            (end + 1, end),
            (end, end + 1),
            (256, 256),
            (257, 256),
            (256, 257),
            (end.saturating_sub(1), end),
            (end, end.saturating_sub(1)),
        ] {
            allocate_one(tally, &p, &[], &vec![9; a], end, b);
        }
    }
    for end in [7, 37, 253] {
        for bin in 0..256 {
            let mut exps = vec![9; 256];
            exps[bin] = 25;
            allocate_one(tally, &p, &[], &exps, end, 256);
        }
    }
}

/// Zero to seven channels, every end for one of them, and buffers around the right length.
fn selections(tally: &mut Tally) {
    let mut g = Rng::new(33);
    for channels in 0..=7usize {
        for end in (0..=257).chain([512, 65_535]) {
            let mut ends: Vec<usize> = (0..channels).map(|_| g.range(0, 256) as usize).collect();
            if channels > 0 {
                ends[g.below(channels as u64) as usize] = end;
            }
            let right = 6 * channels * 256;
            for length in if end % 64 == 0 { vec![right, right + 1, right.saturating_sub(1), 0] } else { vec![right] } {
                let top = g.pick(&[1, 2, 24, 255]);
                let buffer: Vec<u8> = (0..length).map(|_| g.range(0, top) as u8).collect();
                select_one(tally, &ends, &buffer);
            }
        }
    }
}

fn select_one(tally: &mut Tally, ends: &[usize], buffer: &[u8]) {
    let narrow: Vec<u16> = ends.iter().map(|&e| e as u16).collect();
    let mut here = vec![7u8; 6 * ends.len()];
    let k = entries::select_exp_strategies_per_end(buffer, &narrow, &mut here);
    let (want, there) = m::step_select(ends, buffer).map_or_else(|k| (k as u32, vec![0; 6 * ends.len()]), |v| (0, v.concat()));
    tally
        .step("short: select_exp_strategies_per_end")
        .case(want, k == want && here == there, || format!("select {ends:?}, {} exponents: {k} {here:?}, {want} {there:?}", buffer.len()));
}
