//! The listening copy of a frame (document 02, W3): what a player has of it, as numbers beside the coefficients.

use crate::ffi;
use crate::frame::Frame;
use crate::refusal::{answer, Refusal};
use crate::sheet::Sheet;

/// The listening copy of a frame: each bin has a level or is silent, each buffer [`Sheet::entries`] entries.
///
/// A bin is silent where its bap is 0; a player puts dither there. A level is what
/// [`reconstruct_mantissa`](crate::steps::reconstruct_mantissa) gives for the bin's exponent, bap and code.
///
/// The core writes 0 in both buffers from each channel's end on, so that `==` of two copies that it made compares them
/// below each end.
///
/// ```
/// use ac3core::{ChannelRecord, Common, SheetBuilder};
///
/// let common = Common { csnroffst: 20, ..Common::default() };
/// let sheet = SheetBuilder::new(common).channel(ChannelRecord::new(37)).check()?;
/// let mut coeffs = vec![0.0; sheet.entries()];
/// for block in 0..6 {
///     coeffs[sheet.part(block, 0)][5] = 0.3; // one tone
/// }
/// let body = sheet.encode(&coeffs)?.body;
///
/// let copy = sheet.reconstruct(&sheet.read(&body)?.frame)?;
/// let bins: Vec<Option<f32>> = copy.block(&sheet, 0, 0).collect();
/// assert_eq!(bins.len(), 37);
/// assert!((bins[5].unwrap() - 0.3).abs() < 0.01);
/// assert_eq!(bins[36], None);
/// # Ok::<(), ac3core::Refusal>(())
/// ```
#[derive(Clone, Debug, PartialEq)]
pub struct Reconstruction {
    /// Whether each bin has a level: 1, or 0 where it is silent.
    pub has_level: Vec<u8>,
    /// The level of each bin, 0 where it is silent.
    pub levels: Vec<f32>,
}

impl Reconstruction {
    /// Buffers of the sheet's length, all 0: every bin is silent.
    pub fn new(sheet: &Sheet) -> Reconstruction {
        let n = sheet.entries();
        Reconstruction { has_level: vec![0; n], levels: vec![0.0; n] }
    }

    /// The bins of a channel's block below its end, each with its level or, where it is silent, none.
    ///
    /// # Panics
    ///
    /// As [`Sheet::part`]; and where the buffers are shorter than the sheet's.
    ///
    /// ```
    /// use ac3core::{ChannelRecord, Common, Reconstruction, SheetBuilder};
    ///
    /// let sheet = SheetBuilder::new(Common::default()).channel(ChannelRecord::new(37)).check()?;
    /// let mut copy = Reconstruction::new(&sheet);
    /// let first = sheet.bins(5, 0).start;
    /// (copy.has_level[first], copy.levels[first]) = (1, -0.25);
    /// let mut bins = copy.block(&sheet, 5, 0);
    /// assert_eq!((bins.len(), bins.next(), bins.next()), (37, Some(Some(-0.25)), Some(None)));
    /// # Ok::<(), ac3core::Refusal>(())
    /// ```
    pub fn block(
        &self,
        sheet: &Sheet,
        block: usize,
        channel: usize,
    ) -> impl DoubleEndedIterator<Item = Option<f32>> + ExactSizeIterator + '_ {
        let bins = sheet.bins(block, channel);
        let (has_level, levels) = (&self.has_level[bins.clone()], &self.levels[bins]);
        has_level.iter().zip(levels).map(|(&has_level, &level)| (has_level != 0).then_some(level))
    }
}

/// The listening copy of a frame, in buffers that are made for it and in the caller's.
impl Sheet {
    /// The listening copy of a frame's exponents and codes: [`reconstruct_body`](Sheet::reconstruct_body) into buffers
    /// of the sheet's length. Its bap is not looked at: the allocation follows from the exponents.
    ///
    /// # Errors
    ///
    /// [`Refusal::WrongLength`], [`Refusal::BadExponent`], [`Refusal::BadCode`], as
    /// [`reconstruct_body`](Sheet::reconstruct_body).
    ///
    /// ```
    /// use ac3core::{ChannelRecord, Common, Refusal, SheetBuilder};
    ///
    /// let common = Common { csnroffst: 40, ..Common::default() };
    /// let sheet = SheetBuilder::new(common).channel(ChannelRecord::new(37)).check()?;
    /// let encoded = sheet.encode(&vec![0.25; sheet.entries()])?;
    /// let copy = sheet.reconstruct(&encoded.frame)?;
    /// assert_eq!(copy.levels[sheet.bins(5, 0)], [0.25; 37]);
    ///
    /// // What is read from the body sounds the same.
    /// let mut frame = sheet.read(&encoded.body)?.frame;
    /// assert_eq!(sheet.reconstruct(&frame)?, copy);
    /// frame.exponents[0] = 16;
    /// assert_eq!(sheet.reconstruct(&frame), Err(Refusal::BadExponent));
    /// # Ok::<(), Refusal>(())
    /// ```
    pub fn reconstruct(&self, frame: &Frame) -> Result<Reconstruction, Refusal> {
        let mut copy = Reconstruction::new(self);
        self.reconstruct_body(&frame.exponents, &frame.codes, &mut copy.has_level, &mut copy.levels)?;
        Ok(copy)
    }

    /// The listening copy of exponents and codes, as [`write_body`](Sheet::write_body) takes them: in `has_level` 1 and
    /// in `levels` the level of each bin; 0 and 0 where it is silent and from each end on (`ac3_reconstruct_body`).
    /// Entries from an end on are ignored.
    ///
    /// # Errors
    ///
    /// In this order, both outputs left as they were: [`Refusal::WrongLength`] where a buffer has other than
    /// [`entries`](Sheet::entries) entries; [`Refusal::BadExponent`] for exponents that are not shaped for their
    /// strategy or not repeated in a reuse block; [`Refusal::BadCode`] for a code that its bap has not.
    ///
    /// ```
    /// use ac3core::{ChannelRecord, Common, Reconstruction, Refusal, SheetBuilder};
    ///
    /// let sheet = SheetBuilder::new(Common::default()).channel(ChannelRecord::new(37)).check()?;
    /// let (exps, mut codes) = (vec![15; sheet.entries()], vec![0; sheet.entries()]);
    /// let Reconstruction { mut has_level, mut levels } = Reconstruction::new(&sheet);
    /// sheet.reconstruct_body(&exps, &codes, &mut has_level, &mut levels)?;
    /// assert_eq!(has_level, [0; 1536]); // exponents of 15 get bap 0 here
    /// codes[0] = 1;
    /// assert_eq!(sheet.reconstruct_body(&exps, &codes, &mut has_level, &mut levels), Err(Refusal::BadCode));
    /// # Ok::<(), Refusal>(())
    /// ```
    pub fn reconstruct_body(
        &self,
        exps: &[u8],
        codes: &[u16],
        has_level: &mut [u8],
        levels: &mut [f32],
    ) -> Result<(), Refusal> {
        answer(ffi::reconstruct_body(self.as_bytes(), exps, codes, has_level, levels))
    }
}
