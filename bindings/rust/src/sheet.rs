//! The track sheet: its check, its values, a builder, and where each channel's part of a buffer stands.

use std::ops::Range;

use crate::ffi;
use crate::refusal::{answer, Refusal};
use crate::steps;

/// Blocks of a frame.
pub const BLOCKS_PER_FRAME: usize = 6;
/// Coefficients of a block of one channel.
pub const N_COEFFS: usize = 256;
/// Full-bandwidth channels that a sheet may have.
pub const MAX_FBW: usize = 5;

/// The version byte of a sheet.
const VERSION: u8 = 1;
/// Length and common part: the records follow.
const HEAD_SIZE: usize = 12;
/// A record without its segments.
const RECORD_SIZE: usize = 11;
/// Delta segments that a record may have.
const MAX_SEGMENTS: usize = 8;

/// The exponents of a block: those of the block before, or a new set with its span (document 01, "The track sheet").
///
/// ```
/// use ac3core::Strategy;
///
/// assert_eq!(Strategy::D45.number(), 3);
/// assert_eq!(Strategy::D45.span(), Some(4));
/// assert_eq!(Strategy::Reuse.span(), None);
/// ```
#[derive(Clone, Copy, Debug, PartialEq, Eq, Hash)]
pub enum Strategy {
    /// The exponents of the block before. Block 0 is never reuse.
    Reuse = 0,
    /// A new set, one exponent for each bin.
    D15 = 1,
    /// A new set, one exponent for two bins.
    D25 = 2,
    /// A new set, one exponent for four bins.
    D45 = 3,
}

impl Strategy {
    /// The strategy's number in a sheet.
    pub const fn number(self) -> u8 {
        self as u8
    }

    /// The strategy with this number, 0 to 3.
    ///
    /// ```
    /// use ac3core::Strategy;
    ///
    /// assert_eq!(Strategy::from_number(2), Some(Strategy::D25));
    /// assert_eq!(Strategy::from_number(4), None);
    /// ```
    pub const fn from_number(number: u8) -> Option<Strategy> {
        match number {
            0 => Some(Strategy::Reuse),
            1 => Some(Strategy::D15),
            2 => Some(Strategy::D25),
            3 => Some(Strategy::D45),
            _ => None,
        }
    }

    /// How many bins share an exponent of the new set; none for reuse.
    pub const fn span(self) -> Option<usize> {
        match self {
            Strategy::Reuse => None,
            Strategy::D15 => Some(1),
            Strategy::D25 => Some(2),
            Strategy::D45 => Some(4),
        }
    }
}

/// The common part of a sheet: codes of A/52 5.4.3 that hold for every channel.
///
/// The ranges are looked at by [`SheetBuilder::check`], not here.
#[derive(Clone, Copy, Debug, Default, PartialEq, Eq)]
pub struct Common {
    /// Sample rate code 0..2: 48, 44.1, 32 kHz.
    pub fscod: u8,
    /// Slow decay code 0..3.
    pub sdcycod: u8,
    /// Fast decay code 0..3.
    pub fdcycod: u8,
    /// Slow gain code 0..3.
    pub sgaincod: u8,
    /// dB per bit code 0..3.
    pub dbpbcod: u8,
    /// Masking floor code 0..7.
    pub floorcod: u8,
    /// Coarse SNR offset 0..63.
    pub csnroffst: u8,
}

/// A delta segment of a channel (A/52 7.2.2.6).
///
/// ```
/// use ac3core::{ChannelRecord, Segment};
///
/// // From band 10 on, four bands whose mask is moved up.
/// let record = ChannelRecord { segments: vec![Segment { offst: 10, len: 4, ba: 5 }], ..ChannelRecord::new(181) };
/// ```
#[derive(Clone, Copy, Debug, PartialEq, Eq)]
pub struct Segment {
    /// Bands from the end of the segment before (from band 0 for the first), 0..31.
    pub offst: u8,
    /// Bands that it covers, 0..15.
    pub len: u8,
    /// How far it moves the mask, 0..7: from -512 at 0 to 512 at 7.
    pub ba: u8,
}

/// A channel's record without its number.
///
/// The ranges are looked at by [`SheetBuilder::check`], not here.
#[derive(Clone, Debug, PartialEq, Eq)]
pub struct ChannelRecord {
    /// The first bin that is not coded: 37..253 with end - 1 a multiple of 3; 7 for the LFE.
    pub end: u8,
    /// The strategy of each block; the first is never reuse, those of the LFE are reuse or D15.
    pub strategies: [Strategy; BLOCKS_PER_FRAME],
    /// Fine SNR offset 0..15.
    pub fsnroffst: u8,
    /// Fast gain code 0..7.
    pub fgaincod: u8,
    /// Delta segments, at most 8; none for the LFE.
    pub segments: Vec<Segment>,
}

impl ChannelRecord {
    /// A channel with this end: D15 in block 0 and reuse after it, offsets and gain 0, no segments.
    ///
    /// ```
    /// use ac3core::{ChannelRecord, Strategy};
    ///
    /// let record = ChannelRecord { fsnroffst: 5, ..ChannelRecord::new(181) };
    /// assert_eq!(record.strategies[..2], [Strategy::D15, Strategy::Reuse]);
    /// ```
    pub fn new(end: u8) -> ChannelRecord {
        let mut strategies = [Strategy::Reuse; BLOCKS_PER_FRAME];
        strategies[0] = Strategy::D15;
        ChannelRecord { end, strategies, fsnroffst: 0, fgaincod: 0, segments: Vec::new() }
    }

    /// Appends the record of channel number `channel` to a sheet's bytes.
    fn lay_out(&self, channel: u8, bytes: &mut Vec<u8>) {
        bytes.extend([channel, self.end]);
        bytes.extend(self.strategies.map(Strategy::number));
        bytes.extend([self.fsnroffst, self.fgaincod, self.segments.len() as u8]);
        for segment in &self.segments {
            bytes.extend([segment.offst, segment.len, segment.ba]);
        }
    }

    /// The record whose bytes these are, of a sheet that was accepted.
    fn of_accepted(bytes: &[u8]) -> ChannelRecord {
        let strategy =
            |block| Strategy::from_number(bytes[2 + block]).expect("a strategy of an accepted sheet is 0..3");
        ChannelRecord {
            end: bytes[1],
            strategies: std::array::from_fn(strategy),
            fsnroffst: bytes[8],
            fgaincod: bytes[9],
            segments: bytes[RECORD_SIZE..]
                .chunks_exact(3)
                .map(|three| Segment { offst: three[0], len: three[1], ba: three[2] })
                .collect(),
        }
    }
}

/// Lays a sheet out from its values, then checks it.
///
/// The records are written in ascending order of channel, whatever the order of the calls: full-bandwidth channels as
/// they were added, then the LFE. So no sheet of a builder is refused with [`Refusal::OutOfOrder`].
///
/// ```
/// use ac3core::{ChannelRecord, Common, SheetBuilder};
///
/// let sheet = SheetBuilder::new(Common { csnroffst: 18, ..Common::default() })
///     .channel(ChannelRecord::new(181))
///     .channel(ChannelRecord::new(181))
///     .lfe(ChannelRecord::new(7))
///     .check()?;
/// assert_eq!(sheet.channels(), 3);
/// # Ok::<(), ac3core::Refusal>(())
/// ```
#[derive(Clone, Debug, Default)]
#[must_use = "the sheet comes of `check`"]
pub struct SheetBuilder {
    common: Common,
    full_bandwidth: Vec<ChannelRecord>,
    lfe: Option<ChannelRecord>,
}

impl SheetBuilder {
    /// A sheet with this common part and no channel yet.
    pub fn new(common: Common) -> SheetBuilder {
        SheetBuilder { common, ..SheetBuilder::default() }
    }

    /// Adds the next full-bandwidth channel; the first is number 0, also where the LFE was set before it.
    pub fn channel(mut self, record: ChannelRecord) -> SheetBuilder {
        self.full_bandwidth.push(record);
        self
    }

    /// Sets the LFE, whose number comes after those of all full-bandwidth channels, also of those added later.
    ///
    /// ```
    /// use ac3core::{ChannelRecord, Common, SheetBuilder};
    ///
    /// let (full, lfe) = (ChannelRecord::new(37), ChannelRecord::new(7));
    /// let last = SheetBuilder::new(Common::default()).channel(full.clone()).lfe(lfe.clone()).check()?;
    /// let first = SheetBuilder::new(Common::default()).lfe(lfe).channel(full).check()?;
    /// assert_eq!(first.as_bytes(), last.as_bytes());
    /// # Ok::<(), ac3core::Refusal>(())
    /// ```
    pub fn lfe(mut self, record: ChannelRecord) -> SheetBuilder {
        self.lfe = Some(record);
        self
    }

    /// The sheet, checked.
    ///
    /// # Errors
    ///
    /// [`Refusal::OutOfRange`] where a value is outside its range, there is no channel or more than [`MAX_FBW`] beside
    /// the LFE, or a channel has more than 8 segments.
    ///
    /// ```
    /// use ac3core::{ChannelRecord, Common, Refusal, SheetBuilder};
    ///
    /// let ends = |end| SheetBuilder::new(Common::default()).channel(ChannelRecord::new(end)).check();
    /// assert!(ends(37).is_ok());
    /// assert_eq!(ends(38), Err(Refusal::OutOfRange));
    /// ```
    pub fn check(&self) -> Result<Sheet, Refusal> {
        let records = || self.full_bandwidth.iter().chain(&self.lfe);
        // Such counts would not all fit their bytes; the sheet check refuses those that do with the same number.
        if self.full_bandwidth.len() > MAX_FBW || records().any(|record| record.segments.len() > MAX_SEGMENTS) {
            return Err(Refusal::OutOfRange);
        }
        let Common { fscod, sdcycod, fdcycod, sgaincod, dbpbcod, floorcod, csnroffst } = self.common;
        let mut bytes = vec![0, 0, VERSION, fscod, self.full_bandwidth.len() as u8, self.lfe.is_some() as u8];
        bytes.extend([sdcycod, fdcycod, sgaincod, dbpbcod, floorcod, csnroffst]);
        for (channel, record) in records().enumerate() {
            record.lay_out(channel as u8, &mut bytes);
        }
        let length = (bytes.len() - 2) as u16;
        bytes[..2].copy_from_slice(&length.to_be_bytes());
        Sheet::check(&bytes)
    }
}

/// A track sheet that was accepted (document 01, "The track sheet").
///
/// It is made only by [`Sheet::check`] and [`SheetBuilder::check`], so that no call that takes one refuses with
/// [`Refusal::Structure`] or [`Refusal::OutOfOrder`].
///
/// Equal settings are equal bytes: two sheets with the same [`common`](Sheet::common) part and the same
/// [`records`](Sheet::records) have the same bytes. That is proved for the core.
///
/// Coefficients, exponents, bap, codes and levels of a frame are buffers of [`entries`](Sheet::entries) entries;
/// [`part`](Sheet::part) and [`bins`](Sheet::bins) say where a channel's part of a block stands in them.
///
/// ```
/// use ac3core::{ChannelRecord, Common, Sheet, SheetBuilder};
///
/// let (full, lfe) = (ChannelRecord::new(181), ChannelRecord::new(7));
/// let sheet = SheetBuilder::new(Common::default()).channel(full).lfe(lfe).check()?;
/// assert_eq!(Sheet::check(sheet.as_bytes())?, sheet);
/// assert_eq!((sheet.channels(), sheet.lfe(), sheet.ends()), (2, Some(1), vec![181, 7]));
/// assert_eq!(sheet.records()[1], ChannelRecord::new(7));
/// assert_eq!(sheet.entries(), 6 * 2 * 256);
/// # Ok::<(), ac3core::Refusal>(())
/// ```
#[derive(Clone, Debug, PartialEq, Eq)]
pub struct Sheet {
    bytes: Vec<u8>,
    common: Common,
    records: Vec<ChannelRecord>,
}

impl Sheet {
    /// The sheet with these bytes (`ac3_check_sheet`).
    ///
    /// # Errors
    ///
    /// [`Refusal::Structure`], [`Refusal::OutOfRange`] and [`Refusal::OutOfOrder`], in this order.
    ///
    /// ```
    /// use ac3core::{Refusal, Sheet};
    ///
    /// // Document 01's example: 48 kHz, one channel with end 37, D15 in block 0.
    /// let mut bytes = [0, 0x15, 1, 0, 1, 0, 0, 0, 0, 0, 0, 0, 0, 37, 1, 0, 0, 0, 0, 0, 0, 0, 0];
    /// assert_eq!(Sheet::check(&bytes)?.ends(), [37]);
    /// assert_eq!(Sheet::check(&bytes[..22]), Err(Refusal::Structure));
    /// bytes[3] = 3; // fscod
    /// assert_eq!(Sheet::check(&bytes), Err(Refusal::OutOfRange));
    ///
    /// // Two channels and their records, 0 and 1.
    /// let head = [0, 0x20, 1, 0, 2, 0, 0, 0, 0, 0, 0, 0];
    /// let record = |channel, end| [channel, end, 1, 0, 0, 0, 0, 0, 0, 0, 0];
    /// let (zero, one) = (record(0, 37), record(1, 40));
    /// assert_eq!(Sheet::check(&[&head[..], &zero, &one].concat())?.ends(), [37, 40]);
    /// assert_eq!(Sheet::check(&[&head[..], &one, &zero].concat()), Err(Refusal::OutOfOrder));
    /// # Ok::<(), Refusal>(())
    /// ```
    pub fn check(bytes: &[u8]) -> Result<Sheet, Refusal> {
        answer(ffi::check_sheet(bytes))?;
        Ok(Sheet::of_accepted(bytes))
    }

    /// The values of accepted bytes: the records are whole and each channel has one, in ascending order.
    fn of_accepted(bytes: &[u8]) -> Sheet {
        let common = Common {
            fscod: bytes[3],
            sdcycod: bytes[6],
            fdcycod: bytes[7],
            sgaincod: bytes[8],
            dbpbcod: bytes[9],
            floorcod: bytes[10],
            csnroffst: bytes[11],
        };
        let mut records = Vec::new();
        let mut rest = &bytes[HEAD_SIZE..];
        while !rest.is_empty() {
            let segments = rest[RECORD_SIZE - 1] as usize;
            let (record, after) = rest.split_at(RECORD_SIZE + 3 * segments);
            records.push(ChannelRecord::of_accepted(record));
            rest = after;
        }
        Sheet { bytes: bytes.to_vec(), common, records }
    }

    /// The sheet's bytes.
    pub fn as_bytes(&self) -> &[u8] {
        &self.bytes
    }

    /// The common part.
    pub fn common(&self) -> Common {
        self.common
    }

    /// The records as they stand: in ascending order of channel, that of the LFE last.
    pub fn records(&self) -> &[ChannelRecord] {
        &self.records
    }

    /// C: how many channels there are, the LFE counted.
    pub fn channels(&self) -> usize {
        self.records.len()
    }

    /// The channel number of the LFE, where there is one.
    ///
    /// ```
    /// use ac3core::{ChannelRecord, Common, SheetBuilder};
    ///
    /// let one = SheetBuilder::new(Common::default()).channel(ChannelRecord::new(37));
    /// assert_eq!(one.check()?.lfe(), None);
    /// assert_eq!(one.lfe(ChannelRecord::new(7)).check()?.lfe(), Some(1));
    /// # Ok::<(), ac3core::Refusal>(())
    /// ```
    pub fn lfe(&self) -> Option<usize> {
        let full_bandwidth = self.bytes[4] as usize;
        (full_bandwidth < self.channels()).then_some(full_bandwidth)
    }

    /// The end of each channel.
    pub fn ends(&self) -> Vec<usize> {
        self.records.iter().map(|record| record.end as usize).collect()
    }

    /// The entries of each of a frame's buffers: 6 x C x 256.
    pub fn entries(&self) -> usize {
        BLOCKS_PER_FRAME * self.channels() * N_COEFFS
    }

    /// Where a channel's 256 entries of a block stand in a buffer: from 256 x (C x block + channel) on.
    ///
    /// # Panics
    ///
    /// At a block above 5 or a channel that the sheet has not, as indexing does.
    ///
    /// ```
    /// use ac3core::{ChannelRecord, Common, SheetBuilder};
    ///
    /// let channel = ChannelRecord::new(37);
    /// let sheet = SheetBuilder::new(Common::default()).channel(channel.clone()).channel(channel).check()?;
    /// assert_eq!(sheet.entries(), 3072);
    /// assert_eq!(sheet.part(1, 1), 768..1024);
    /// assert_eq!(sheet.bins(1, 1), 768..768 + 37);
    /// # Ok::<(), ac3core::Refusal>(())
    /// ```
    pub fn part(&self, block: usize, channel: usize) -> Range<usize> {
        assert!(block < BLOCKS_PER_FRAME, "block {block} of a frame of {BLOCKS_PER_FRAME}");
        assert!(channel < self.channels(), "channel {channel} of a sheet of {}", self.channels());
        let start = N_COEFFS * (self.channels() * block + channel);
        start..start + N_COEFFS
    }

    /// The entries of [`part`](Sheet::part) below the channel's end: those that are coded.
    ///
    /// # Panics
    ///
    /// As [`part`](Sheet::part).
    pub fn bins(&self, block: usize, channel: usize) -> Range<usize> {
        let start = self.part(block, channel).start;
        start..start + self.records[channel].end as usize
    }

    /// Bytes that have room for every body under this sheet: its exponent sets, and 16 bits for each mantissa.
    ///
    /// ```
    /// use ac3core::{ChannelRecord, Common, SheetBuilder};
    ///
    /// let sheet = SheetBuilder::new(Common::default()).channel(ChannelRecord::new(37)).check()?;
    /// assert_eq!(sheet.longest_body(), (4 + 7 * 12 + 6 * 37 * 16) / 8);
    /// # Ok::<(), ac3core::Refusal>(())
    /// ```
    pub fn longest_body(&self) -> usize {
        let bits_of = |record: &ChannelRecord| {
            let end = record.end as usize;
            let set = |span| {
                4 + 7 * steps::ngrps_for_strategy(end, span).expect("end and span of an accepted sheet") as usize
            };
            let sets: usize = record.strategies.iter().filter_map(|strategy| strategy.span()).map(set).sum();
            sets + 16 * BLOCKS_PER_FRAME * end
        };
        self.records.iter().map(bits_of).sum::<usize>().div_ceil(8)
    }
}
