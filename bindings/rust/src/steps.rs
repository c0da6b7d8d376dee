//! The steps of the encoder, each alone (document 01, "Exponents" and "Mantissas"), under the names of the Rust that
//! they were ported from; and the level of a bin, which document 02 adds (W3).
//!
//! A step takes ends 0..256, spans 1, 2 and 4, and slices of at most 256 entries (a stream of mantissas: two of one
//! length, at most 1,536). Exponent writer and reader take only ends that a sheet may hold: 7, and 37..253 with end - 1
//! a multiple of 3.

use crate::ffi;
use crate::refusal::{answer, Refusal};
use crate::sheet::{Strategy, BLOCKS_PER_FRAME};

/// The strategy that the archive gave, proved to be 0..3.
fn strategy(number: u8) -> Strategy {
    Strategy::from_number(number).unwrap_or_else(|| panic!("the archive gave strategy {number}"))
}

/// The exponent of a coefficient: 126 minus its biased exponent field, held to 0..24.
///
/// # Errors
///
/// [`Refusal::NotFinite`].
///
/// ```
/// use ac3core::{steps::extract_exponent, Refusal};
///
/// assert_eq!(extract_exponent(1.0), Ok(0));
/// assert_eq!(extract_exponent(-0.001), Ok(9));
/// assert_eq!(extract_exponent(0.0), Ok(24));
/// assert_eq!(extract_exponent(f32::NAN), Err(Refusal::NotFinite));
/// ```
pub fn extract_exponent(x: f32) -> Result<u8, Refusal> {
    let mut exponent = [0];
    answer(ffi::extract_exponent(x, &mut exponent))?;
    Ok(exponent[0])
}

/// Shapes any bytes for D15, in place: the greatest exponents not above them with the first at most 15, all at most 24
/// and neighbours within 2.
///
/// # Errors
///
/// [`Refusal::WrongLength`] for more than 256 entries, which are left as they were.
///
/// ```
/// let mut exp = [24; 7];
/// ac3core::steps::preprocess_d15(&mut exp)?;
/// assert_eq!(exp, [15, 17, 19, 21, 23, 24, 24]);
/// # Ok::<(), ac3core::Refusal>(())
/// ```
pub fn preprocess_d15(exp: &mut [u8]) -> Result<(), Refusal> {
    answer(ffi::preprocess_d15(exp))
}

/// Shapes any bytes for a span of `grpsize` bins, in place: for spans 2 and 4 the greatest exponents not above them with
/// the first at most 15, all at most 24, one value in each span from bin 1 on and neighbouring spans within 2. With span
/// 1, and of one entry, all stays.
///
/// # Errors
///
/// [`Refusal::OutOfRange`] for a span other than 1, 2, 4; [`Refusal::WrongLength`] for more than 256 entries. They are
/// left as they were.
///
/// ```
/// let mut exp = [6, 6, 6, 4, 2, 2];
/// ac3core::steps::quantise_exponents_to_grpsize(&mut exp, 2)?;
/// assert_eq!(exp, [6, 4, 4, 2, 2, 2]);
/// # Ok::<(), ac3core::Refusal>(())
/// ```
pub fn quantise_exponents_to_grpsize(exp: &mut [u8], grpsize: usize) -> Result<(), Refusal> {
    answer(ffi::quantise_exponents_to_grpsize(exp, grpsize))
}

/// How many groups of 7 bits an exponent set has after its first 4 bits.
///
/// # Errors
///
/// [`Refusal::OutOfRange`] for an end above 256 or a span other than 1, 2, 4.
///
/// ```
/// use ac3core::steps::ngrps_for_strategy;
///
/// assert_eq!(ngrps_for_strategy(253, 1), Ok(84));
/// assert_eq!(ngrps_for_strategy(40, 4), Ok(4));
/// ```
pub fn ngrps_for_strategy(end: usize, grpsize: usize) -> Result<u32, Refusal> {
    let mut groups = [0];
    answer(ffi::ngrps_for_strategy(end, grpsize, &mut groups))?;
    Ok(groups[0])
}

/// Writes the exponent set of the entries below `end` at the start of `out`, zero bits to the byte; gives the bits that
/// it has without those. Bytes after it stay.
///
/// # Errors
///
/// In this order, `out` left as it was: [`Refusal::OutOfRange`] for an end that no sheet holds or a span other than 1,
/// 2, 4; [`Refusal::WrongLength`] for an end beyond `exp` or more than 256 entries; [`Refusal::BadExponent`] for
/// exponents that are not shaped for the span; [`Refusal::NoRoom`].
///
/// ```
/// use ac3core::steps::{read_exponents_grouped, write_exponents_grouped};
///
/// let set = [4, 5, 6, 6, 5, 3, 3];
/// let mut out = [0; 3];
/// let bits = write_exponents_grouped(&mut out, &set, 7, 1)?;
/// assert_eq!(bits, 4 + 7 * 2);
/// let mut back = [0; 7];
/// assert_eq!(read_exponents_grouped(&out, &mut back, 7, 1)?, bits);
/// assert_eq!(back, set);
/// # Ok::<(), ac3core::Refusal>(())
/// ```
pub fn write_exponents_grouped(out: &mut [u8], exp: &[u8], end: usize, grpsize: usize) -> Result<u32, Refusal> {
    let mut bits = [0];
    answer(ffi::write_exponents_grouped(out, exp, end, grpsize, &mut bits))?;
    Ok(bits[0])
}

/// Reads an exponent set from the start of `input` into the entries of `exp` below `end`, 0 from there on; gives the
/// bits read.
///
/// # Errors
///
/// In this order, `exp` left as it was: [`Refusal::OutOfRange`] for an end that no sheet holds or a span other than 1,
/// 2, 4; [`Refusal::WrongLength`] for an end beyond `exp` or more than 256 entries. As met in bit order, `exp` made 0:
/// [`Refusal::PastInput`], [`Refusal::BadGroup`].
///
/// ```
/// use ac3core::{steps::read_exponents_grouped, Refusal};
///
/// let input = [0b0100_0111, 0b110_01111, 0b10_000000]; // 4, then two groups of three zero deltas
/// let mut exp = [9; 8];
/// assert_eq!(read_exponents_grouped(&input, &mut exp, 7, 1), Ok(18));
/// assert_eq!(exp, [4, 4, 4, 4, 4, 4, 4, 0]);
/// assert_eq!(read_exponents_grouped(&input[..2], &mut exp, 7, 1), Err(Refusal::PastInput));
/// assert_eq!(exp, [0; 8]);
/// ```
pub fn read_exponents_grouped(input: &[u8], exp: &mut [u8], end: usize, grpsize: usize) -> Result<u32, Refusal> {
    let mut bits = [0];
    answer(ffi::read_exponents_grouped(input, exp, end, grpsize, &mut bits))?;
    Ok(bits[0])
}

/// The strategy for the exponents of a block below `end`, by how much they differ from bin to bin; never
/// [`Strategy::Reuse`].
///
/// # Errors
///
/// [`Refusal::OutOfRange`] for an end above 256; [`Refusal::WrongLength`] for an end beyond `exp` or more than 256
/// entries.
///
/// ```
/// use ac3core::{steps::pick_strategy_for_block, Strategy};
///
/// assert_eq!(pick_strategy_for_block(&[8; 37], 37), Ok(Strategy::D45));
/// assert_eq!(pick_strategy_for_block(&[8, 6, 8, 6, 8, 6, 8], 7), Ok(Strategy::D15));
/// ```
pub fn pick_strategy_for_block(exp: &[u8], end: usize) -> Result<Strategy, Refusal> {
    let mut number = [0];
    answer(ffi::pick_strategy_for_block(exp, end, &mut number))?;
    Ok(strategy(number[0]))
}

/// The strategies of a frame, six for each channel, from the whole exponent buffer and an end for each channel: new
/// sets in blocks 0 and 3, reuse in the others.
///
/// # Errors
///
/// [`Refusal::OutOfRange`] for no channel, more than 6, or an end above 256; [`Refusal::WrongLength`] for a buffer of
/// other than 6 x C x 256 entries.
///
/// ```
/// use ac3core::steps::{extract_exponent, select_exp_strategies_per_end};
/// use ac3core::{ChannelRecord, Common, SheetBuilder, Strategy::*};
///
/// // The strategies that suit a channel's coefficients go into its record.
/// let coeffs = [0.01; 6 * 256];
/// let exps = coeffs.map(|x| extract_exponent(x).unwrap());
/// let strategies = select_exp_strategies_per_end(&exps, &[181])?;
/// assert_eq!(strategies, [[D45, Reuse, Reuse, D45, Reuse, Reuse]]);
/// let record = ChannelRecord { strategies: strategies[0], ..ChannelRecord::new(181) };
/// let sheet = SheetBuilder::new(Common::default()).channel(record).check()?;
/// # Ok::<(), ac3core::Refusal>(())
/// ```
pub fn select_exp_strategies_per_end(exps: &[u8], ends: &[u16]) -> Result<Vec<[Strategy; BLOCKS_PER_FRAME]>, Refusal> {
    let mut numbers = vec![0; BLOCKS_PER_FRAME * ends.len()];
    answer(ffi::select_exp_strategies_per_end(exps, ends, &mut numbers))?;
    let row = |numbers: &[u8]| std::array::from_fn(|block| strategy(numbers[block]));
    Ok(numbers.chunks_exact(BLOCKS_PER_FRAME).map(row).collect())
}

/// The code of a coefficient at an exponent and a bap (A/52 7.3).
///
/// # Errors
///
/// In this order: [`Refusal::NotFinite`]; [`Refusal::BadExponent`] for an exponent above 24; [`Refusal::BadCode`] for a
/// bap above 15.
///
/// ```
/// use ac3core::{steps::quantise_mantissa, Refusal};
///
/// assert_eq!(quantise_mantissa(31.0 / 32.0, 0, 6), Ok(15));
/// assert_eq!(quantise_mantissa(-1.0, 0, 6), Ok(16));
/// assert_eq!(quantise_mantissa(0.5, 0, 16), Err(Refusal::BadCode));
/// ```
pub fn quantise_mantissa(coeff: f32, exp: u32, bap: u32) -> Result<u16, Refusal> {
    let mut code = [0];
    answer(ffi::quantise_mantissa(coeff, exp, bap, &mut code))?;
    Ok(code[0])
}

/// The level of a bin (document 02, W3); none at bap 0, where the bin is silent and a player puts dither.
///
/// It is the f32 level of the code (bap 1..5), or the code as a signed number of its width over 2^(width-1) (bap
/// 6..15), times 2^-exponent: exact, at most 2^-exponent in magnitude, never -0. At the same exponent and bap
/// [`quantise_mantissa`] of the level gives the code back.
///
/// # Errors
///
/// In this order: [`Refusal::BadExponent`] for an exponent above 24; [`Refusal::BadCode`] for a bap above 15 or a code
/// that its bap has not.
///
/// ```
/// use ac3core::steps::{quantise_mantissa, reconstruct_mantissa};
/// use ac3core::Refusal;
///
/// assert_eq!(reconstruct_mantissa(1, 6, 16), Ok(Some(-0.5))); // -16 / 16, halved
/// assert_eq!(quantise_mantissa(-0.5, 1, 6), Ok(16));
/// assert_eq!(reconstruct_mantissa(1, 0, 0), Ok(None));
/// assert_eq!(reconstruct_mantissa(25, 1, 3), Err(Refusal::BadExponent));
/// assert_eq!(reconstruct_mantissa(24, 1, 3), Err(Refusal::BadCode));
/// ```
pub fn reconstruct_mantissa(exponent: u32, bap: u32, code: u32) -> Result<Option<f32>, Refusal> {
    let (mut has_level, mut level) = ([0], [0.0]);
    answer(ffi::reconstruct_mantissa(exponent, bap, code, &mut has_level, &mut level))?;
    Ok((has_level[0] == 1).then_some(level[0]))
}

/// Writes a stream of mantissas at the start of `out`, zero bits to the byte; gives the bits that it has without those.
/// Bytes after it stay.
///
/// # Errors
///
/// In this order, `out` left as it was: [`Refusal::WrongLength`] for `bap` and `codes` of two lengths or more than
/// 1,536 entries; [`Refusal::BadCode`] for a bap above 15 or a code that its bap has not; [`Refusal::NoRoom`].
///
/// ```
/// let mut out = [0xff; 3];
/// let bits = ac3core::steps::write_mantissa_stream(&mut out, &[1, 6, 1, 1], &[2, 3, 0, 1])?;
/// assert_eq!((bits, out), (10, [0b1001_1000, 0b1100_0000, 0xff]));
/// # Ok::<(), ac3core::Refusal>(())
/// ```
pub fn write_mantissa_stream(out: &mut [u8], bap: &[u8], codes: &[u16]) -> Result<u32, Refusal> {
    let mut bits = [0];
    answer(ffi::write_mantissa_stream(out, bap, codes, &mut bits))?;
    Ok(bits[0])
}

/// Reads a stream of mantissas from the start of `input`; gives the bits read.
///
/// # Errors
///
/// In this order, `codes` left as they were: [`Refusal::WrongLength`] for `bap` and `codes` of two lengths or more than
/// 1,536 entries; [`Refusal::BadCode`] for a bap above 15. As met in bit order, `codes` made 0: [`Refusal::PastInput`],
/// [`Refusal::NoCode`].
///
/// ```
/// use ac3core::{steps::read_mantissa_stream, Refusal};
///
/// let mut codes = [0; 4];
/// assert_eq!(read_mantissa_stream(&[0b1001_1000, 0b1100_0000], &[1, 6, 1, 1], &mut codes)?, 10);
/// assert_eq!(codes, [2, 3, 0, 1]);
/// assert_eq!(read_mantissa_stream(&[0b1101_1000], &[1], &mut codes[..1]), Err(Refusal::NoCode));
/// # Ok::<(), Refusal>(())
/// ```
pub fn read_mantissa_stream(input: &[u8], bap: &[u8], codes: &mut [u16]) -> Result<u32, Refusal> {
    let mut bits = [0];
    answer(ffi::read_mantissa_stream(input, bap, codes, &mut bits))?;
    Ok(bits[0])
}

/// Writes one field, the low `n` bits of `v`, highest first, at the start of `out`, zero bits to the byte; gives `n`.
/// Bytes after it stay. This is `BitWriter::write_u32` of the Rust, alone.
///
/// # Errors
///
/// In this order, `out` left as it was: [`Refusal::OutOfRange`] for more than 16 bits; [`Refusal::NoRoom`].
///
/// ```
/// use ac3core::{steps::write_u32, Refusal};
///
/// let mut out = [0xff; 2];
/// assert_eq!(write_u32(&mut out, 0b101, 3), Ok(3));
/// assert_eq!(out, [0b1010_0000, 0xff]);
/// assert_eq!(write_u32(&mut out, 0, 17), Err(Refusal::OutOfRange));
/// assert_eq!(write_u32(&mut out[..1], 0, 9), Err(Refusal::NoRoom));
/// ```
pub fn write_u32(out: &mut [u8], v: u32, n: u32) -> Result<u32, Refusal> {
    let mut bits = [0];
    answer(ffi::write_u32(out, v, n, &mut bits))?;
    Ok(bits[0])
}
