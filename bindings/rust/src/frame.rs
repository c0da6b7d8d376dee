//! A frame under a sheet: the allocation of its channels, and its body encoded, written and read (document 01, "The
//! frame body").

use std::fmt;

use crate::ffi;
use crate::refusal::{answer, Refusal};
use crate::sheet::{Sheet, BLOCKS_PER_FRAME};

/// The bits of a body: those of the exponents and those of the mantissas, block by block.
///
/// It prints as the program `encode` does: `block b e m` for the six blocks, then `total t`.
///
/// ```
/// let counts = ac3core::Counts { exponents: [88, 0, 0, 0, 0, 0], mantissas: [3; 6] };
/// assert_eq!(counts.total(), 106);
/// assert_eq!(counts.bytes(), 14);
/// assert!(counts.to_string().starts_with("block 0 88 3\nblock 1 0 3\n"));
/// ```
#[derive(Clone, Copy, Debug, PartialEq, Eq)]
pub struct Counts {
    /// The exponent bits of each block.
    pub exponents: [u32; BLOCKS_PER_FRAME],
    /// The mantissa bits of each block.
    pub mantissas: [u32; BLOCKS_PER_FRAME],
}

impl Counts {
    /// From the entries' twelve: six exponent counts, then six mantissa counts.
    fn of_twelve(twelve: [u32; 2 * BLOCKS_PER_FRAME]) -> Counts {
        let half = |first: usize| std::array::from_fn(|block| twelve[first + block]);
        Counts { exponents: half(0), mantissas: half(BLOCKS_PER_FRAME) }
    }

    /// The bits of the whole body, the zero bits to the byte left off.
    pub fn total(&self) -> u32 {
        self.exponents.iter().chain(&self.mantissas).sum()
    }

    /// The bytes of the whole body, with the zero bits to the byte.
    pub fn bytes(&self) -> usize {
        self.total().div_ceil(8) as usize
    }
}

impl fmt::Display for Counts {
    fn fmt(&self, f: &mut fmt::Formatter<'_>) -> fmt::Result {
        for block in 0..BLOCKS_PER_FRAME {
            writeln!(f, "block {block} {} {}", self.exponents[block], self.mantissas[block])?;
        }
        write!(f, "total {}", self.total())
    }
}

/// The exponents, bap and codes of all six blocks, each a buffer of [`Sheet::entries`] entries.
///
/// The core writes 0 from each channel's end on, so that `==` of two frames that it made compares them below each end.
///
/// ```
/// use ac3core::{ChannelRecord, Common, SheetBuilder};
///
/// let sheet = SheetBuilder::new(Common::default()).channel(ChannelRecord::new(37)).check()?;
/// let frame = sheet.encode(&vec![0.5; sheet.entries()])?.frame;
/// assert_eq!(frame.exponents[sheet.bins(5, 0)], [0; 37]); // block 5 of channel 0
/// # Ok::<(), ac3core::Refusal>(())
/// ```
#[derive(Clone, Debug, PartialEq, Eq)]
pub struct Frame {
    /// The exponent of each bin, 0..24.
    pub exponents: Vec<u8>,
    /// The bit allocation pointer of each bin, 0..15.
    pub bap: Vec<u8>,
    /// The mantissa code of each bin.
    pub codes: Vec<u16>,
}

impl Frame {
    /// Buffers of the sheet's length, all 0.
    pub fn new(sheet: &Sheet) -> Frame {
        let n = sheet.entries();
        Frame { exponents: vec![0; n], bap: vec![0; n], codes: vec![0; n] }
    }
}

/// What [`Sheet::encode`] makes of coefficients.
#[derive(Clone, Debug, PartialEq, Eq)]
pub struct Encoded {
    /// Exponents, bap and codes.
    pub frame: Frame,
    /// The body, closed with zero bits to the byte.
    pub body: Vec<u8>,
    /// The bits of each block.
    pub counts: Counts,
}

/// What [`Sheet::read`] reads from a body.
#[derive(Clone, Debug, PartialEq, Eq)]
pub struct Reading {
    /// Exponents, bap and codes.
    pub frame: Frame,
    /// The bits of each block.
    pub counts: Counts,
    /// The bits read, the zero bits to the byte not counted.
    pub bits: u32,
}

/// A frame in buffers that are made for it.
impl Sheet {
    /// A frame from its coefficients: [`encode_body`](Sheet::encode_body) with room for every body.
    ///
    /// # Errors
    ///
    /// [`Refusal::WrongLength`] for other than [`entries`](Sheet::entries) coefficients; [`Refusal::NotFinite`].
    ///
    /// ```
    /// use ac3core::{ChannelRecord, Common, SheetBuilder};
    ///
    /// let common = Common { csnroffst: 40, ..Common::default() };
    /// let sheet = SheetBuilder::new(common).channel(ChannelRecord::new(37)).check()?;
    /// let mut coeffs = vec![0.0; sheet.entries()];
    /// for block in 0..6 {
    ///     coeffs[sheet.part(block, 0)][5] = 0.25; // one tone
    /// }
    /// let encoded = sheet.encode(&coeffs)?;
    /// assert_eq!(encoded.body.len(), encoded.counts.bytes());
    ///
    /// let reading = sheet.read(&encoded.body)?;
    /// assert_eq!(reading.frame, encoded.frame);
    /// assert_eq!(reading.bits, encoded.counts.total());
    ///
    /// assert_eq!(sheet.write(&reading.frame)?, encoded.body);
    /// # Ok::<(), ac3core::Refusal>(())
    /// ```
    pub fn encode(&self, coeffs: &[f32]) -> Result<Encoded, Refusal> {
        let mut frame = Frame::new(self);
        let mut body = vec![0; self.longest_body()];
        let counts = self.encode_body(coeffs, &mut frame.exponents, &mut frame.bap, &mut frame.codes, &mut body)?;
        body.truncate(counts.bytes());
        Ok(Encoded { frame, body, counts })
    }

    /// The body of a frame's exponents and codes: [`write_body`](Sheet::write_body) with room for every body. Its bap
    /// is not looked at: the allocation follows from the exponents.
    ///
    /// # Errors
    ///
    /// [`Refusal::WrongLength`], [`Refusal::BadExponent`], [`Refusal::BadCode`], as [`write_body`](Sheet::write_body).
    ///
    /// ```
    /// use ac3core::{ChannelRecord, Common, Frame, Refusal, SheetBuilder};
    ///
    /// let sheet = SheetBuilder::new(Common::default()).channel(ChannelRecord::new(37)).check()?;
    /// let mut frame = Frame::new(&sheet);
    /// assert_eq!(sheet.read(&sheet.write(&frame)?)?.frame.exponents, frame.exponents);
    /// frame.exponents[0] = 16;
    /// assert_eq!(sheet.write(&frame), Err(Refusal::BadExponent));
    /// # Ok::<(), Refusal>(())
    /// ```
    pub fn write(&self, frame: &Frame) -> Result<Vec<u8>, Refusal> {
        let mut body = vec![0; self.longest_body()];
        let counts = self.write_body(&frame.exponents, &frame.codes, &mut body)?;
        body.truncate(counts.bytes());
        Ok(body)
    }

    /// The frame that a body begins `input`: [`read_body`](Sheet::read_body) into buffers of the sheet's length.
    ///
    /// # Errors
    ///
    /// [`Refusal::PastInput`], [`Refusal::BadGroup`], [`Refusal::NoCode`], as met in bit order.
    ///
    /// ```
    /// use ac3core::{ChannelRecord, Common, Refusal, SheetBuilder};
    ///
    /// let sheet = SheetBuilder::new(Common::default()).channel(ChannelRecord::new(37)).check()?;
    /// assert_eq!(sheet.read(&[]), Err(Refusal::PastInput));
    /// assert_eq!(sheet.read(&[0xff; 99]), Err(Refusal::BadGroup));
    /// # Ok::<(), Refusal>(())
    /// ```
    pub fn read(&self, input: &[u8]) -> Result<Reading, Refusal> {
        let mut frame = Frame::new(self);
        let (counts, bits) = self.read_body(input, &mut frame.exponents, &mut frame.bap, &mut frame.codes)?;
        Ok(Reading { frame, counts, bits })
    }
}

/// The entries of the archive that work under a sheet, in the caller's buffers.
impl Sheet {
    /// The allocation of one channel (A/52 7.2.2): the bap of each bin below the channel's end, 0 from it on
    /// (`ac3_compute_bap`).
    ///
    /// `exp` and `bap` are that channel's alone, at least its end and at most 256 entries each. Exponents from its end
    /// on are ignored.
    ///
    /// # Errors
    ///
    /// In this order, `bap` left as it was: [`Refusal::OutOfRange`] for a channel that the sheet has not;
    /// [`Refusal::WrongLength`]; [`Refusal::BadExponent`] for an exponent above 24.
    ///
    /// ```
    /// use ac3core::{ChannelRecord, Common, Refusal, SheetBuilder};
    ///
    /// let common = Common { csnroffst: 40, ..Common::default() };
    /// let sheet = SheetBuilder::new(common).channel(ChannelRecord::new(37)).check()?;
    /// let mut bap = [0; 37];
    /// sheet.compute_bap(0, &[8; 37], &mut bap)?;
    /// assert!(bap.iter().all(|&b| b > 0));
    /// assert_eq!(sheet.compute_bap(1, &[8; 37], &mut bap), Err(Refusal::OutOfRange));
    /// assert_eq!(sheet.compute_bap(0, &[25; 37], &mut bap), Err(Refusal::BadExponent));
    /// # Ok::<(), Refusal>(())
    /// ```
    pub fn compute_bap(&self, channel: usize, exp: &[u8], bap: &mut [u8]) -> Result<(), Refusal> {
        // A number that does not fit is refused as any other that the sheet has not.
        let channel = u32::try_from(channel).unwrap_or(u32::MAX);
        answer(ffi::compute_bap(self.as_bytes(), channel, exp, bap))
    }

    /// The mantissa bits of a frame's six blocks, counted from its bap (`ac3_mantissa_bits_total_ends`).
    ///
    /// # Errors
    ///
    /// [`Refusal::WrongLength`] for other than [`entries`](Sheet::entries) entries; [`Refusal::BadCode`] for a bap
    /// above 15 below an end.
    ///
    /// ```
    /// use ac3core::{ChannelRecord, Common, SheetBuilder};
    ///
    /// let sheet = SheetBuilder::new(Common::default()).channel(ChannelRecord::new(37)).check()?;
    /// assert_eq!(sheet.mantissa_bits_total_ends(&[6; 1536]), Ok([37 * 5; 6]));
    /// # Ok::<(), ac3core::Refusal>(())
    /// ```
    pub fn mantissa_bits_total_ends(&self, bap: &[u8]) -> Result<[u32; BLOCKS_PER_FRAME], Refusal> {
        let mut counts = [0; BLOCKS_PER_FRAME];
        answer(ffi::mantissa_bits_total_ends(self.as_bytes(), bap, &mut counts))?;
        Ok(counts)
    }

    /// A frame from its coefficients: exponents, bap, codes, and the body at the start of `body`; gives the bits of
    /// each block (`ac3_encode_body`). Coefficients from an end on are ignored; bytes after the body stay.
    ///
    /// # Errors
    ///
    /// In this order, every buffer left as it was: [`Refusal::WrongLength`] where one of the first four has other than
    /// [`entries`](Sheet::entries) entries; [`Refusal::NotFinite`] for a coefficient below its channel's end;
    /// [`Refusal::NoRoom`].
    ///
    /// ```
    /// use ac3core::{Frame, Refusal, Sheet};
    ///
    /// // Document 01's example: 48 kHz, one channel with end 37, D15 in block 0.
    /// let sheet = Sheet::check(&[0, 0x15, 1, 0, 1, 0, 0, 0, 0, 0, 0, 0, 0, 37, 1, 0, 0, 0, 0, 0, 0, 0, 0])?;
    /// let coeffs = vec![0.0; sheet.entries()];
    /// let Frame { mut exponents, mut bap, mut codes } = Frame::new(&sheet);
    /// let mut body = [0; 11];
    /// let counts = sheet.encode_body(&coeffs, &mut exponents, &mut bap, &mut codes, &mut body)?;
    /// assert_eq!(counts.exponents, [88, 0, 0, 0, 0, 0]);
    /// let short = &mut body[..10];
    /// assert_eq!(sheet.encode_body(&coeffs, &mut exponents, &mut bap, &mut codes, short), Err(Refusal::NoRoom));
    /// # Ok::<(), Refusal>(())
    /// ```
    pub fn encode_body(
        &self,
        coeffs: &[f32],
        exps: &mut [u8],
        bap: &mut [u8],
        codes: &mut [u16],
        body: &mut [u8],
    ) -> Result<Counts, Refusal> {
        let mut counts = [0; 2 * BLOCKS_PER_FRAME];
        answer(ffi::encode_body(self.as_bytes(), coeffs, exps, bap, codes, body, &mut counts))?;
        Ok(Counts::of_twelve(counts))
    }

    /// A body at the start of `body` from exponents and codes; gives the bits of each block (`ac3_write_body`). Reuse
    /// blocks repeat the exponents of the block before. Entries from an end on are ignored; bytes after the body stay.
    ///
    /// # Errors
    ///
    /// In this order, `body` left as it was: [`Refusal::WrongLength`] where exponents or codes have other than
    /// [`entries`](Sheet::entries) entries; [`Refusal::BadExponent`] for exponents that are not shaped for their
    /// strategy or not repeated in a reuse block; [`Refusal::BadCode`] for a code that its bap has not;
    /// [`Refusal::NoRoom`].
    ///
    /// ```
    /// use ac3core::{ChannelRecord, Common, Refusal, SheetBuilder};
    ///
    /// let sheet = SheetBuilder::new(Common::default()).channel(ChannelRecord::new(37)).check()?;
    /// let (mut exps, codes) = (vec![15; sheet.entries()], vec![0; sheet.entries()]);
    /// let mut body = vec![0; sheet.longest_body()];
    /// assert_eq!(sheet.write_body(&exps, &codes, &mut body)?.exponents, [88, 0, 0, 0, 0, 0]);
    /// exps[sheet.part(1, 0)][0] = 14; // block 1 is reuse
    /// assert_eq!(sheet.write_body(&exps, &codes, &mut body), Err(Refusal::BadExponent));
    /// # Ok::<(), Refusal>(())
    /// ```
    pub fn write_body(&self, exps: &[u8], codes: &[u16], body: &mut [u8]) -> Result<Counts, Refusal> {
        let mut counts = [0; 2 * BLOCKS_PER_FRAME];
        answer(ffi::write_body(self.as_bytes(), exps, codes, body, &mut counts))?;
        Ok(Counts::of_twelve(counts))
    }

    /// Exponents, bap and codes from a body at the start of `input`, 0 from each end on; gives the bits of each block
    /// and the bits read, the zero bits to the byte not counted (`ac3_read_body`).
    ///
    /// # Errors
    ///
    /// [`Refusal::WrongLength`] where a buffer has other than [`entries`](Sheet::entries) entries, every buffer left as
    /// it was. As met in bit order, every buffer made 0: [`Refusal::PastInput`], [`Refusal::BadGroup`],
    /// [`Refusal::NoCode`].
    ///
    /// ```
    /// use ac3core::{ChannelRecord, Common, Frame, Refusal, SheetBuilder};
    ///
    /// let sheet = SheetBuilder::new(Common::default()).channel(ChannelRecord::new(37)).check()?;
    /// let body = sheet.encode(&vec![0.0; sheet.entries()])?.body;
    /// let Frame { mut exponents, mut bap, mut codes } = Frame::new(&sheet);
    /// let (counts, bits) = sheet.read_body(&body, &mut exponents, &mut bap, &mut codes)?;
    /// assert_eq!((counts.total(), bits), (88, 88));
    /// assert_eq!(exponents[..4], [15, 17, 19, 21]);
    /// assert_eq!(sheet.read_body(&body[..10], &mut exponents, &mut bap, &mut codes), Err(Refusal::PastInput));
    /// assert_eq!(exponents[..4], [0; 4]);
    /// # Ok::<(), Refusal>(())
    /// ```
    pub fn read_body(
        &self,
        input: &[u8],
        exps: &mut [u8],
        bap: &mut [u8],
        codes: &mut [u16],
    ) -> Result<(Counts, u32), Refusal> {
        let mut counts = [0; 2 * BLOCKS_PER_FRAME];
        let mut bits = [0];
        answer(ffi::read_body(self.as_bytes(), input, exps, bap, codes, &mut counts, &mut bits))?;
        Ok((Counts::of_twelve(counts), bits[0]))
    }
}
