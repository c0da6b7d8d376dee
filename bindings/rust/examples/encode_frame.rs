//! One frame from its coefficients to the body and back, and its listening copy beside the coefficients.
//!
//! `scripts/run-examples` runs this program and bindings/c/example.c, which prints the same.

mod chord;

use ac3core::{ChannelRecord, Refusal, SheetBuilder, BLOCKS_PER_FRAME};

fn main() -> Result<(), Refusal> {
    let sheet = chord::sheet()?;
    println!("sheet of {} bytes, {} channels with ends {:?}", sheet.as_bytes().len(), sheet.channels(), sheet.ends());

    let coeffs = chord::coeffs(&sheet);
    let encoded = sheet.encode(&coeffs)?;
    println!("{}", encoded.counts);
    println!("body of {} bytes", encoded.body.len());

    // The allocation alone, of the exponents that the encoder chose.
    let lfe = sheet.bins(0, 2);
    let mut bap = vec![0; lfe.len()];
    sheet.compute_bap(2, &encoded.frame.exponents[lfe.clone()], &mut bap)?;
    assert_eq!(bap, encoded.frame.bap[lfe]);
    println!("bap of the LFE in block 0: {bap:?}");

    let reading = sheet.read(&encoded.body)?;
    assert_eq!(reading.frame, encoded.frame);
    assert_eq!(reading.counts, encoded.counts);
    println!("read back: {} bits, the same exponents, bap and codes", reading.bits);

    let again = sheet.write(&reading.frame)?;
    assert_eq!(again, encoded.body);
    println!("written again: the same {} bytes", again.len());

    // The listening copy of what was read. A bin without a level is silent.
    let copy = sheet.reconstruct(&reading.frame)?;
    let with_level: Vec<usize> = (0..sheet.entries()).filter(|&i| copy.has_level[i] == 1).collect();
    let difference = |&i: &usize| (f64::from(coeffs[i]) - f64::from(copy.levels[i])).abs();
    let largest = with_level.iter().map(difference).fold(0.0, f64::max);
    let bins = BLOCKS_PER_FRAME * sheet.ends().iter().sum::<usize>();
    println!("listened to: {} of {bins} bins have a level, the largest difference is {largest:.9}", with_level.len());

    let mut frame = encoded.frame.clone();
    let mut short = vec![0; encoded.body.len() - 1];
    let refusal = sheet.encode_body(&coeffs, &mut frame.exponents, &mut frame.bap, &mut frame.codes, &mut short);
    println!("a byte less room: {}", refusal.unwrap_err());
    assert_eq!((frame, short), (encoded.frame, vec![0; encoded.body.len() - 1]));

    println!("a byte less input: {}", sheet.read(&encoded.body[..again.len() - 1]).unwrap_err());

    let wide = SheetBuilder::new(sheet.common()).channel(ChannelRecord::new(254)).check();
    println!("a channel with end 254: {}", wide.unwrap_err());
    Ok(())
}
