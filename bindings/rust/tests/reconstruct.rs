//! The listening copy (document 02, W3): every code of every bap, the refusals and their order, and whole frames bin by
//! bin. src/causes.rs has the order of a sheet's causes.
mod support;

use ac3core::{steps::*, ChannelRecord, Common, Frame, Reconstruction, Refusal, Sheet, SheetBuilder};
use ac3core::{Strategy::*, BLOCKS_PER_FRAME};
use support::{example, Random};
use Refusal::{BadCode, BadExponent, WrongLength};

/// The levels of bap 1..5.
const LEVELS: [u32; 5] = [3, 5, 7, 11, 15];
/// The widths of bap 6..15.
const WIDTHS: [u32; 10] = [5, 6, 7, 8, 9, 10, 11, 12, 14, 16];

/// How many codes a bap has; bap 0 has code 0 alone.
fn count(bap: u32) -> u32 {
    match bap {
        0 => 1,
        1..=5 => LEVELS[bap as usize - 1],
        _ => 1 << WIDTHS[bap as usize - 6],
    }
}

/// Every code of every bap that has levels.
fn every_code() -> impl Iterator<Item = (u32, u32)> {
    (1..16).flat_map(|bap| (0..count(bap)).map(move |code| (bap, code)))
}

/// A code's value without its exponent, as numerator and denominator: (2k - (L - 1)) / L, or the signed code over
/// 2^(width-1).
fn fraction(bap: u32, code: u32) -> (i64, u64) {
    let (code, count) = (i64::from(code), i64::from(count(bap)));
    if bap < 6 {
        (2 * code - (count - 1), count as u64)
    } else {
        (if code < count / 2 { code } else { code - count }, count as u64 / 2)
    }
}

/// The bits of the f32 nearest to n / d, times 2^-exponent, in whole numbers.
fn nearest(n: i64, d: u64, exponent: u32) -> u32 {
    if n == 0 {
        return 0;
    }
    let size = n.unsigned_abs();
    let places = (0..).find(|&places| (size << places) / d >= 1 << 23).unwrap();
    let (whole, rest) = ((size << places) / d, (size << places) % d);
    assert_ne!(2 * rest, d, "no tie: d is odd, or 24 bits hold the quotient");
    let significand = whole as u32 + u32::from(2 * rest > d);
    assert!((1 << 23..1 << 24).contains(&significand));
    u32::from(n < 0) << 31 | (127 + 23 - places - exponent) << 23 | (significand - (1 << 23))
}

#[test]
fn every_code_of_every_bap() {
    for exponent in [0, 1, 12, 23, 24] {
        assert_eq!(reconstruct_mantissa(exponent, 0, 0), Ok(None));
        for (bap, code) in every_code() {
            let (n, d) = fraction(bap, code);
            let level = reconstruct_mantissa(exponent, bap, code).unwrap().expect("a level");
            assert_eq!(level.to_bits(), nearest(n, d, exponent), "bap {bap}, code {code}, exponent {exponent}");
            assert!(level.abs() <= 2f32.powi(-(exponent as i32)), "bap {bap}, code {code}, exponent {exponent}");
        }
    }
}

#[test]
fn levels_are_quantised_to_their_codes() {
    for exponent in [0, 12, 24] {
        for (bap, code) in every_code() {
            let level = reconstruct_mantissa(exponent, bap, code).unwrap().expect("a level");
            let back = quantise_mantissa(level, exponent, bap).map(u32::from);
            assert_eq!(back, Ok(code), "bap {bap}, exponent {exponent}");
        }
    }
}

/// 4 before 5, each whatever comes after it; the last code of each bap and the first that it has not.
#[test]
fn refusals_of_a_bin() {
    let far = [1 << 16, 1 << 31, u32::MAX];
    let with_far = |near: &[u32]| [near, &far].concat();
    for bap in with_far(&[0, 1, 15, 16]) {
        for code in with_far(&[0, 1, 3]) {
            for exponent in with_far(&[25, 256]) {
                let answer = reconstruct_mantissa(exponent, bap, code);
                assert_eq!(answer, Err(BadExponent), "exponent {exponent}, bap {bap}, code {code}");
            }
            if bap > 15 {
                assert_eq!(reconstruct_mantissa(24, bap, code), Err(BadCode), "bap {bap}, code {code}");
            }
        }
    }
    for (exponent, bap) in (0..25).flat_map(|exponent| (0..16).map(move |bap| (exponent, bap))) {
        assert!(reconstruct_mantissa(exponent, bap, count(bap) - 1).is_ok(), "exponent {exponent}, bap {bap}");
        for code in with_far(&[count(bap), count(bap) + 1]) {
            assert_eq!(reconstruct_mantissa(exponent, bap, code), Err(BadCode), "bap {bap}, code {code}");
        }
    }
}

/// Every block of every channel.
fn blocks(sheet: &Sheet) -> impl Iterator<Item = (usize, usize)> {
    let channels = sheet.channels();
    (0..BLOCKS_PER_FRAME).flat_map(move |block| (0..channels).map(move |channel| (block, channel)))
}

/// Every bin's place in a buffer.
fn bins(sheet: &Sheet) -> impl Iterator<Item = usize> + '_ {
    blocks(sheet).flat_map(|(block, channel)| sheet.bins(block, channel))
}

/// What stands in both outputs before a call; the level is a NaN.
const MARK: u8 = 0x5a;
const MARKED_LEVEL: u32 = 0x7fc5_a5a5;

fn marked(has_level: usize, levels: usize) -> (Vec<u8>, Vec<f32>) {
    (vec![MARK; has_level], vec![f32::from_bits(MARKED_LEVEL); levels])
}

/// The copy's buffers, levels by their bits: +0 and -0 differ.
fn bits(has_level: &[u8], levels: &[f32]) -> (Vec<u8>, Vec<u32>) {
    (has_level.to_vec(), levels.iter().map(|level| level.to_bits()).collect())
}

/// The buffers of a frame's copy, made in marked ones.
fn copied(sheet: &Sheet, frame: &Frame) -> (Vec<u8>, Vec<u32>) {
    let (mut has_level, mut levels) = marked(sheet.entries(), sheet.entries());
    assert_eq!(sheet.reconstruct_body(&frame.exponents, &frame.codes, &mut has_level, &mut levels), Ok(()));
    bits(&has_level, &levels)
}

/// Each bin is that of its exponent, bap and code alone, silent where the bap is 0; from each end on all is 0.
fn agrees_with_the_bins(sheet: &Sheet, frame: &Frame, copy: &Reconstruction) {
    let of_bin =
        |i: usize| reconstruct_mantissa(frame.exponents[i].into(), frame.bap[i].into(), frame.codes[i].into()).unwrap();
    let mut want = Reconstruction::new(sheet);
    for (block, channel) in blocks(sheet) {
        let bins = sheet.bins(block, channel);
        for i in bins.clone() {
            assert_eq!(of_bin(i).is_none(), frame.bap[i] == 0);
            want.has_level[i] = u8::from(frame.bap[i] != 0);
            want.levels[i] = of_bin(i).unwrap_or(0.0);
        }
        assert_eq!(copy.block(sheet, block, channel).len(), bins.len());
        assert!(copy.block(sheet, block, channel).eq(bins.clone().map(of_bin)));
        assert!(copy.block(sheet, block, channel).rev().eq(bins.rev().map(of_bin)));
    }
    assert_eq!(bits(&copy.has_level, &copy.levels), bits(&want.has_level, &want.levels));
}

/// Frames at random: encoded, read back, and with any codes that their baps have.
#[test]
fn random_frames_are_listened_to() {
    let mut random = Random(7);
    let mut met = [false; 16];
    for _ in 0..100 {
        let sheet = random.sheet();
        let encoded = sheet.encode(&random.coeffs(&sheet)).unwrap();
        let copy = sheet.reconstruct(&encoded.frame).unwrap();
        agrees_with_the_bins(&sheet, &encoded.frame, &copy);
        let read = sheet.read(&encoded.body).unwrap().frame;
        assert_eq!(copied(&sheet, &read), bits(&copy.has_level, &copy.levels));

        let mut frame = read;
        for i in bins(&sheet) {
            met[usize::from(frame.bap[i])] = true;
            frame.codes[i] = random.below(count(frame.bap[i].into()).into()) as u16;
        }
        let copy = sheet.reconstruct(&frame).unwrap();
        agrees_with_the_bins(&sheet, &frame, &copy);

        // The bap, and what stands from each end on, make no difference.
        frame.bap.fill(0xff);
        for (block, channel) in blocks(&sheet) {
            let from_end_on = sheet.bins(block, channel).end..sheet.part(block, channel).end;
            frame.exponents[from_end_on.clone()].fill(0xff);
            frame.codes[from_end_on].fill(0xffff);
        }
        assert_eq!(copied(&sheet, &frame), bits(&copy.has_level, &copy.levels));
        assert_eq!(sheet.reconstruct(&frame), Ok(copy));
    }
    assert_eq!(met, [true; 16], "every bap is met");
}

/// Two channels and the LFE, with every strategy. Exponents of 8 are shaped for it and get bap 12.
fn three_channels() -> Sheet {
    let wide = ChannelRecord { strategies: [D25, D15, D45, D15, D15, D15], ..ChannelRecord::new(40) };
    SheetBuilder::new(Common { csnroffst: 40, ..Common::default() })
        .channel(ChannelRecord::new(37))
        .channel(wide)
        .lfe(ChannelRecord::new(7))
        .check()
        .unwrap()
}

/// From a bin of a block and channel of `three_channels` on, exponents that make a shaped frame of 8 a faulty one.
const BAD_EXPONENTS: [(usize, usize, usize, &[u8]); 7] = [
    (1, 1, 0, &[16, 14, 12, 10]),                                        // the first above 15
    (1, 1, 0, &[15, 17, 19, 21, 23, 25, 23, 21, 19, 17, 15, 13, 11, 9]), // one above 24
    (4, 1, 39, &[11]),                                                   // three above its neighbour
    (0, 1, 2, &[7]),                                                     // D25: bins 1 and 2 have one exponent
    (2, 1, 4, &[9]),                                                     // D45: bins 1 to 4 have one
    (3, 0, 36, &[7]),                                                    // reuse: not repeated
    (5, 2, 0, &[9]),                                                     // the same, of the LFE
];

/// `reconstruct_body` into marked outputs of these lengths is refused and leaves them.
fn refused(sheet: &Sheet, exps: &[u8], codes: &[u16], outputs: [usize; 2], refusal: Refusal) {
    let (mut has_level, mut levels) = marked(outputs[0], outputs[1]);
    assert_eq!(sheet.reconstruct_body(exps, codes, &mut has_level, &mut levels), Err(refusal));
    assert_eq!(bits(&has_level, &levels), (vec![MARK; outputs[0]], vec![MARKED_LEVEL; outputs[1]]));
}

/// Every fault of the exponents or none, with a code out of range in the first or the last bin or none, and with each
/// buffer empty, an entry short, an entry long, or none: 10 before 4 before 5.
#[test]
fn refusals_of_a_frame() {
    let sheet = three_channels();
    let n = sheet.entries();
    let shaped = Frame { exponents: vec![8; n], ..Frame::new(&sheet) };
    let bap = sheet.read(&sheet.write(&shaped).unwrap()).unwrap().frame.bap;
    let first_and_last = [sheet.bins(0, 0).start, sheet.bins(5, 2).end - 1];
    for bad_exponents in BAD_EXPONENTS.into_iter().map(Some).chain([None]) {
        for bad_code in first_and_last.into_iter().map(Some).chain([None]) {
            let Frame { mut exponents, mut codes, .. } = shaped.clone();
            if let Some((block, channel, bin, values)) = bad_exponents {
                exponents[sheet.part(block, channel)][bin..bin + values.len()].copy_from_slice(values);
            }
            if let Some(i) = bad_code {
                codes[i] = count(bap[i].into()) as u16;
            }
            match (bad_exponents, bad_code) {
                (Some(_), _) => refused(&sheet, &exponents, &codes, [n, n], BadExponent),
                (None, Some(_)) => refused(&sheet, &exponents, &codes, [n, n], BadCode),
                (None, None) => {
                    assert!(sheet.reconstruct_body(&exponents, &codes, &mut vec![0; n], &mut vec![0.0; n]).is_ok())
                }
            }
            for (buffer, wrong) in (0..4).flat_map(|buffer| [0, n - 1, n + 1].map(|wrong| (buffer, wrong))) {
                let length = |number| if number == buffer { wrong } else { n };
                let (mut exponents, mut codes) = (exponents.clone(), codes.clone());
                exponents.resize(length(0), 8);
                codes.resize(length(1), 0);
                refused(&sheet, &exponents, &codes, [length(2), length(3)], WrongLength);
            }
        }
    }
}

/// Each fault of the exponents is one: a little less of it is accepted.
#[test]
fn exponents_beside_the_faults() {
    let sheet = three_channels();
    for (block, channel, bin, values) in [
        (1, 1, 0, &[15, 14, 12, 10][..]),
        (1, 1, 0, &[15, 17, 19, 21, 23, 24, 23, 21, 19, 17, 15, 13, 11, 9]),
        (4, 1, 39, &[10]),
        (0, 1, 1, &[7, 7]),
        (2, 1, 1, &[9, 9, 9, 9]),
    ] {
        let mut frame = Frame { exponents: vec![8; sheet.entries()], ..Frame::new(&sheet) };
        frame.exponents[sheet.part(block, channel)][bin..bin + values.len()].copy_from_slice(values);
        assert!(sheet.reconstruct(&frame).is_ok(), "{values:?}");
    }
}

/// The last code that a bin of a frame has, and the first that it has not: of every bap but 15, which has all.
#[test]
fn codes_at_the_edges() {
    let mut random = Random(8);
    let mut met = [false; 15];
    for _ in 0..20 {
        let sheet = random.sheet();
        let frame = sheet.encode(&random.coeffs(&sheet)).unwrap().frame;
        for bap in 0..15 {
            let Some(i) = bins(&sheet).filter(|&i| frame.bap[i] == bap).last() else { continue };
            met[usize::from(bap)] = true;
            let mut edge = frame.clone();
            edge.codes[i] = count(bap.into()) as u16 - 1;
            agrees_with_the_bins(&sheet, &edge, &sheet.reconstruct(&edge).unwrap());
            edge.codes[i] += 1;
            refused(&sheet, &edge.exponents, &edge.codes, [sheet.entries(); 2], BadCode);
        }
    }
    assert_eq!(met, [true; 15], "every bap but 15 is met");
}

/// No exponent is above that of a coefficient which it serves, and what is below 1 comes back to within a third of
/// 2^-exponent, the most that a level of bap 1 is off: it was not held to -1..1.
fn comes_back_unclipped(sheet: &Sheet, coeffs: &[f32]) {
    let frame = sheet.encode(coeffs).unwrap().frame;
    let copy = sheet.reconstruct(&frame).unwrap();
    for (block, channel) in (0..BLOCKS_PER_FRAME).flat_map(|block| (0..sheet.channels()).map(move |c| (block, c))) {
        for (i, level) in sheet.bins(block, channel).zip(copy.block(sheet, block, channel)) {
            let (x, exponent) = (coeffs[i], frame.exponents[i]);
            assert!(exponent <= extract_exponent(x).unwrap(), "entry {i}: {x}, exponent {exponent}");
            let off = level.filter(|_| x.abs() < 1.0).map_or(0.0, |level| f64::from(level) - f64::from(x));
            assert!(off.abs() <= (1.0 / 3.0 + 1e-6) * 2f64.powi(-i32::from(exponent)), "entry {i}: {x}, {level:?}");
        }
    }
}

/// One loud bin at the top of a quiet spectrum, under D25 and D45 at every end, in a new block and in a reuse block
/// (document 02, W4: "A cymbal in the top bins was clipped"); and random frames.
#[test]
fn loud_top_bins_are_not_clipped() {
    let common = Common { csnroffst: 63, ..Common::default() };
    for end in (37..=253).step_by(3) {
        for strategy in [D25, D45] {
            let strategies = [strategy, Reuse, Reuse, strategy, strategy, Reuse];
            let record = ChannelRecord { strategies, fsnroffst: 15, ..ChannelRecord::new(end) };
            let sheet = SheetBuilder::new(common).channel(record).check().unwrap();
            for loud in [0, 1, 3] {
                let mut coeffs = vec![2f32.powi(-9); sheet.entries()];
                coeffs[sheet.bins(loud, 0).end - 1] = 0.9;
                comes_back_unclipped(&sheet, &coeffs);
            }
        }
    }
    let mut random = Random(9);
    for _ in 0..40 {
        let sheet = random.sheet();
        comes_back_unclipped(&sheet, &random.coeffs(&sheet));
    }
}

#[test]
#[should_panic(expected = "block 6 of a frame of 6")]
fn a_block_that_no_frame_has() {
    let _ = Reconstruction::new(&example()).block(&example(), 6, 0);
}
