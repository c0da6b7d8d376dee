//! The small result slices of the entries: one of another length than the one named is 10, after 1, 2 and 11, and every buffer stays. The Rust
//! has no such slices: what is expected is written here, from the list of entries in bindings/c/ac3core.h.
use crate::cases::{FILL, FILL_LEVEL};
use crate::entries;
use crate::tally::Tally;
use rust_reference::gen::{self, Wish};
use rust_reference::rng::Rng;

/// Lengths that are none of those named.
const WRONG: [usize; 3] = [0, 2, 13];

pub fn run(tally: &mut Tally) {
    for n in WRONG {
        single_results(tally, n);
        bit_counts(tally, n);
        levels(tally, n);
        frames(tally, n);
    }
}

fn expect(tally: &mut Tally, entry: &str, want: u32, answer: u32, left: bool) {
    tally
        .step("short: result slices of another length")
        .case(want, answer == want && left, || format!("{entry}: answer {answer}, expected {want}; buffers left: {left}"));
}

/// Extraction, groups, choice of a strategy, selection, quantiser.
fn single_results(tally: &mut Tally, n: usize) {
    let (mut bytes, mut counts, mut codes) = (vec![FILL; n], vec![7u32; n], vec![7u16; n]);
    for x in [0.5, f32::INFINITY, f32::from_bits(0x7f80_0001)] {
        let k = entries::extract_exponent(x, &mut bytes);
        expect(tally, "extract_exponent", 10, k, bytes == vec![FILL; n]);
        let k = entries::quantise_mantissa(x, 25, 16, &mut codes);
        expect(tally, "quantise_mantissa", 10, k, codes == vec![7; n]);
    }
    for (end, span, want) in [(37, 1, 10), (257, 1, 2), (37, 3, 2)] {
        let k = entries::ngrps_for_strategy(end, span, &mut counts);
        expect(tally, "ngrps_for_strategy", want, k, counts == vec![7; n]);
    }
    for (width, want) in [(9, 10), (17, 2)] {
        let k = entries::write_u32(&mut bytes, 1, width, &mut counts);
        expect(tally, "write_u32", want, k, bytes == vec![FILL; n] && counts == vec![7; n]);
    }
    for (end, want) in [(7, 10), (8, 10), (257, 2)] {
        let k = entries::pick_strategy_for_block(&[9; 7], end, &mut bytes);
        expect(tally, "pick_strategy_for_block", want, k, bytes == vec![FILL; n]);
    }
    for (ends, want) in [(&[37u16][..], 10), (&[257], 2), (&[37; 7], 2)] {
        let k = entries::select_exp_strategies_per_end(&[0; 1536], ends, &mut bytes);
        expect(tally, "select_exp_strategies_per_end", want, k, bytes == vec![FILL; n]);
    }
}

/// The four steps that write or read bits.
fn bit_counts(tally: &mut Tally, n: usize) {
    let (mut bits, mut out, mut codes) = (vec![7u32; n], [FILL; 80], [7u16; 4]);
    for (end, want) in [(7, 10), (8, 2)] {
        let k = entries::write_exponents_grouped(&mut out, &[9; 7], end, 1, &mut bits);
        expect(tally, "write_exponents_grouped", want, k, bits == vec![7; n] && out == [FILL; 80]);
        let k = entries::read_exponents_grouped(&[0; 9], &mut out[..7], end, 1, &mut bits);
        expect(tally, "read_exponents_grouped", want, k, bits == vec![7; n] && out == [FILL; 80]);
    }
    let k = entries::write_mantissa_stream(&mut out, &[3; 4], &codes, &mut bits);
    expect(tally, "write_mantissa_stream", 10, k, bits == vec![7; n] && out == [FILL; 80]);
    let k = entries::read_mantissa_stream(&[0; 9], &[3; 4], &mut codes, &mut bits);
    expect(tally, "read_mantissa_stream", 10, k, bits == vec![7; n] && codes == [7; 4]);
}

/// The reconstruction of a bin, which is refused for either slice before its values are looked at; the other one, of the right length, holds 0.
fn levels(tally: &mut Tally, n: usize) {
    for (exponent, bap, code) in [(3, 6, 31), (3, 0, 0), (25, 6, 31), (3, 16, 31), (3, 6, 32)] {
        let (mut has, mut level) = ([FILL], [FILL_LEVEL]);
        let (mut other_has, mut other_level) = (vec![FILL; n], vec![FILL_LEVEL; n]);
        let k = entries::reconstruct_mantissa(exponent, bap, code, &mut has, &mut other_level);
        expect(tally, "reconstruct_mantissa, level", 10, k, has == [0] && other_level == vec![FILL_LEVEL; n]);
        let k = entries::reconstruct_mantissa(exponent, bap, code, &mut other_has, &mut level);
        expect(tally, "reconstruct_mantissa, has_level", 10, k, other_has == vec![FILL; n] && level[0].to_bits() == 0);
        let k = entries::reconstruct_mantissa(exponent, bap, code, &mut other_has, &mut other_level);
        expect(tally, "reconstruct_mantissa, both", 10, k, other_has == vec![FILL; n] && other_level == vec![FILL_LEVEL; n]);
    }
}

/// The calls under a sheet: a good one, one cut short, one with a value out of range, one with its records out of order.
fn frames(tally: &mut Tally, n: usize) {
    let good = gen::example_sheet();
    let (cut, mut out_of_range) = (good[..22].to_vec(), good.clone());
    out_of_range[3] = 3;
    let mut turned = gen::rand_sheet(&mut Rng::new(5), &Wish { n: Some(1), lfe: Some(1), max_end: 37 });
    turned.records.reverse();
    for (sheet, want) in [(good, 10), (cut, 1), (out_of_range, 2), (turned.to_bytes(), 11)] {
        let (mut exps, mut bap, mut codes, mut body) = ([FILL; 1536], [FILL; 1536], [7u16; 1536], [FILL; 40]);
        let (mut counts, mut bits, mut right, mut one) = (vec![7u32; n], vec![7u32; n], [7u32; 12], [7u32]);
        let mut answers = vec![
            ("mantissa_bits_total_ends", entries::mantissa_bits_total_ends(&sheet, &bap, &mut counts)),
            ("encode_body", entries::encode_body(&sheet, &[0.5; 1536], &mut exps, &mut bap, &mut codes, &mut body, &mut counts)),
            ("write_body", entries::write_body(&sheet, &[9; 1536], &[0; 1536], &mut body, &mut counts)),
            ("read_body, counts", entries::read_body(&sheet, &[0; 90], &mut exps, &mut bap, &mut codes, &mut counts, &mut one)),
        ];
        answers.push(("read_body, bits", entries::read_body(&sheet, &[0; 90], &mut exps, &mut bap, &mut codes, &mut right, &mut bits)));
        let left = exps == [FILL; 1536] && bap == [FILL; 1536] && codes == [7; 1536] && body == [FILL; 40];
        let slots = counts == vec![7; n] && bits == vec![7; n] && right == [0; 12] && one == [0];
        answers.into_iter().for_each(|(entry, k)| expect(tally, entry, want, k, left && slots));
    }
}
