//! The steps alone, on the edges of document 01, and exponents shared by spans (document 02, W4).
mod support;

use ac3core::{steps::*, Refusal, Strategy};
use support::Random;

#[test]
fn exponents_of_the_papers_edges() {
    assert_eq!(extract_exponent(2f32.powi(-25)), Ok(24));
    assert_eq!(extract_exponent(1.0), Ok(0));
    assert_eq!(extract_exponent(2f32.powi(-10) - 2f32.powi(-34)), Ok(10));
}

#[test]
fn shaping_of_the_papers_edges() {
    for (given, want) in
        [(&[24u8; 7][..], &[15u8, 17, 19, 21, 23, 24, 24][..]), (&[9, 0, 9], &[2, 0, 2]), (&[20], &[15]), (&[], &[])]
    {
        let mut exp = given.to_vec();
        assert_eq!(preprocess_d15(&mut exp), Ok(()));
        assert_eq!(exp, want);
    }
    for (given, want) in [(&[6u8, 6, 6, 4, 2][..], &[6u8, 4, 4, 2, 2][..]), (&[6, 6, 6, 4, 2, 2], &[6, 4, 4, 2, 2, 2])]
    {
        let mut exp = given.to_vec();
        assert_eq!(quantise_exponents_to_grpsize(&mut exp, 2), Ok(()));
        assert_eq!(exp, want);
    }
}

/// A short last span after a whole one, of each length: the smallest inputs where the Rust's answer is another.
#[test]
fn short_last_spans() {
    for short in 1..4 {
        let mut exp = [1u8, 3, 3, 3, 3, 0, 0, 0];
        assert_eq!(quantise_exponents_to_grpsize(&mut exp[..5 + short], 4), Ok(()));
        assert_eq!(exp, [1, 2, 2, 2, 2, 0, 0, 0]);
    }
    let mut exp = [1u8, 3, 3, 0];
    assert_eq!(quantise_exponents_to_grpsize(&mut exp, 2), Ok(()));
    assert_eq!(exp, [1, 2, 2, 0]);
}

/// Lowers exponents, bin by bin, until they are shaped for the span: what is left is the greatest.
fn lowered_until_shaped(given: &[u8], grpsize: usize) -> Vec<u8> {
    let span = |i: usize| if i == 0 { 0 } else { 1 + (i - 1) / grpsize };
    let mut exp = given.to_vec();
    loop {
        let before = exp.clone();
        for i in 0..exp.len() {
            let bin = exp[i].min(if i == 0 { 15 } else { 24 });
            let near = (0..exp.len()).filter(|&j| span(i).abs_diff(span(j)) < 2);
            let most = near.map(|j| exp[j].saturating_add(2 * span(i).abs_diff(span(j)) as u8)).min();
            exp[i] = bin.min(most.unwrap());
        }
        if exp == before {
            return exp;
        }
    }
}

/// Spans 2 and 4 at every length: the greatest that is shaped and not above the input, whatever the last span, with
/// `preprocess_d15` before and without. One bin alone stays.
#[test]
fn spans_give_the_greatest() {
    let mut random = Random(4);
    for length in (0..=40).chain(249..=256) {
        for (grpsize, most) in [(2, 3), (2, 24), (2, 255), (4, 3), (4, 24), (4, 255)] {
            let given: Vec<u8> = (0..length).map(|_| random.byte(most)).collect();
            let want = if length < 2 { given.clone() } else { lowered_until_shaped(&given, grpsize) };
            let mut exp = given.clone();
            assert_eq!(quantise_exponents_to_grpsize(&mut exp, grpsize), Ok(()));
            assert_eq!(exp, want, "span {grpsize} of {given:?}");
            if length >= 2 {
                exp = given.clone();
                assert_eq!(preprocess_d15(&mut exp), Ok(()));
                assert_eq!(quantise_exponents_to_grpsize(&mut exp, grpsize), Ok(()));
                assert_eq!(exp, want, "D15, then span {grpsize} of {given:?}");
            }
        }
    }
}

#[test]
fn groups_of_the_papers_edges() {
    for (end, groups) in [(253, [84, 42, 21]), (40, [13, 7, 4])] {
        assert_eq!([1, 2, 4].map(|grpsize| ngrps_for_strategy(end, grpsize).unwrap()), groups);
    }
}

#[test]
fn an_exponent_set_is_read_back() {
    let mut exp: [u8; 256] = std::array::from_fn(|i| (i * 37 % 256) as u8);
    assert_eq!(preprocess_d15(&mut exp[..253]), Ok(()));
    for grpsize in [1, 2, 4] {
        let mut set = exp;
        assert_eq!(quantise_exponents_to_grpsize(&mut set[..253], grpsize), Ok(()));
        let groups = ngrps_for_strategy(253, grpsize).unwrap();
        let mut out = [0xaau8; 80];
        assert_eq!(write_exponents_grouped(&mut out, &set, 253, grpsize), Ok(4 + 7 * groups));
        let bytes = (4 + 7 * groups as usize).div_ceil(8);
        assert!(out[bytes..].iter().all(|&byte| byte == 0xaa));
        let mut back = [9u8; 256];
        assert_eq!(read_exponents_grouped(&out, &mut back, 253, grpsize), Ok(4 + 7 * groups));
        assert_eq!(back[..253], set[..253]);
        assert_eq!(back[253..], [0, 0, 0]);
        assert_eq!(write_exponents_grouped(&mut out[..bytes - 1], &set, 253, grpsize), Err(Refusal::NoRoom));
        assert_eq!(read_exponents_grouped(&out[..bytes - 1], &mut back, 253, grpsize), Err(Refusal::PastInput));
        assert_eq!(back, [0; 256]);
    }
}

#[test]
fn mantissas_of_the_papers_edges() {
    assert_eq!(quantise_mantissa(-1.0, 0, 6), Ok(16));
    assert_eq!(quantise_mantissa(31.0 / 32.0, 0, 6), Ok(15));
    assert_eq!(quantise_mantissa(-1.0 / 32.0, 0, 6), Ok(31));
    let mut out = [0xffu8; 3];
    assert_eq!(write_mantissa_stream(&mut out, &[1, 6, 1, 1], &[2, 3, 0, 1]), Ok(10));
    assert_eq!(out, [0b1001_1000, 0b1100_0000, 0xff]);
    let mut codes = [0u16; 4];
    assert_eq!(read_mantissa_stream(&out, &[1, 6, 1, 1], &mut codes), Ok(10));
    assert_eq!(codes, [2, 3, 0, 1]);
    assert_eq!(write_mantissa_stream(&mut out, &[4], &[10]), Ok(7));
    assert_eq!(out[0], 0b1101_1100);
}

/// 252 bins, D45 cost 128: strategy 3; 129 is not. A span costs what its bins lie above its least.
#[test]
fn strategies_of_the_papers_edges() {
    use Strategy::{Reuse, D25, D45};
    for (cost, want) in [(128, D45), (129, D25)] {
        let mut exp = [0u8; 253];
        exp[1] = cost;
        assert_eq!(pick_strategy_for_block(&exp, 253), Ok(want));
    }
    let exps = [3u8; 6 * 2 * 256];
    assert_eq!(select_exp_strategies_per_end(&exps, &[253, 7]), Ok(vec![[D45, Reuse, Reuse, D45, Reuse, Reuse]; 2]));
}

/// Every width with edge values, in outputs of every length up to 3: the field at the front, what stood behind it after it.
#[test]
fn one_field() {
    for n in 0..=18u32 {
        for v in [0, 1, 0x5555_5555, 0x8000_0001, u32::MAX] {
            for size in 0..4 {
                let mut out = vec![0xa5u8; size];
                let bytes = n.div_ceil(8) as usize;
                let want = if n > 16 {
                    Err(Refusal::OutOfRange)
                } else if size < bytes {
                    Err(Refusal::NoRoom)
                } else {
                    Ok(n)
                };
                assert_eq!(write_u32(&mut out, v, n), want, "{n} bits of {v:#x} in {size} bytes");
                for (i, byte) in out.iter().enumerate() {
                    let field = (0..8).map(|k| 8 * i as u32 + k).map(|k| if k < n { v >> (n - 1 - k) & 1 } else { 0 });
                    let expected = if want.is_err() || i >= bytes {
                        0xa5
                    } else {
                        field.fold(0, |byte, bit| byte << 1 | bit as u8)
                    };
                    assert_eq!(*byte, expected, "byte {i} of {n} bits of {v:#x}");
                }
            }
        }
    }
}
