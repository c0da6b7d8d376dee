//! The proved AC-3 encoder core for Rust hosts: from transform coefficients to packed mantissas, and back.
//!
//! A [`Sheet`] (document 01's track sheet) says how a frame is coded: sample rate and allocation codes, and for each
//! channel its end, its exponent strategies, its offsets and delta segments. Its records stand in ascending order of
//! channel, so equal settings are equal bytes. Everything else is a call under a sheet:
//!
//! | to | call |
//! |---|---|
//! | check a sheet's bytes, or lay one out | [`Sheet::check`], [`SheetBuilder`] |
//! | allocate bits to a channel's bins | [`Sheet::compute_bap`] |
//! | encode a frame of coefficients | [`Sheet::encode`], [`Sheet::encode_body`] in your own buffers |
//! | write a body from exponents and codes | [`Sheet::write`], [`Sheet::write_body`] |
//! | read a body | [`Sheet::read`], [`Sheet::read_body`] |
//! | listen to a frame: each bin's level, or that it is silent | [`Sheet::reconstruct`], [`Sheet::reconstruct_body`] |
//! | count mantissa bits | [`Sheet::mantissa_bits_total_ends`] |
//! | do one step alone | [`steps`] |
//!
//! ```
//! use ac3core::{ChannelRecord, Common, SheetBuilder};
//!
//! // 48 kHz, two channels of 181 bins and an LFE: D15 exponents in block 0, repeated in the five after it.
//! let sheet = SheetBuilder::new(Common { csnroffst: 18, ..Common::default() })
//!     .channel(ChannelRecord { fsnroffst: 5, ..ChannelRecord::new(181) })
//!     .channel(ChannelRecord { fsnroffst: 5, ..ChannelRecord::new(181) })
//!     .lfe(ChannelRecord { fsnroffst: 8, ..ChannelRecord::new(7) })
//!     .check()?;
//!
//! // Six blocks of 256 coefficients for each channel: here a tone in bin 11 of the first.
//! let mut coeffs = vec![0.0; sheet.entries()];
//! for block in 0..6 {
//!     coeffs[sheet.part(block, 0)][11] = 0.5;
//! }
//! let encoded = sheet.encode(&coeffs)?;
//! println!("{}\n{} bytes", encoded.counts, encoded.body.len());
//!
//! // Every body is read back as just the frame that was encoded.
//! let frame = sheet.read(&encoded.body)?.frame;
//! assert_eq!(frame, encoded.frame);
//!
//! // Listened to, a bin has a level, or none where it is silent.
//! let bins: Vec<Option<f32>> = sheet.reconstruct(&frame)?.block(&sheet, 0, 0).collect();
//! assert_eq!(bins[11], Some(0.5));
//! # Ok::<(), ac3core::Refusal>(())
//! ```
//!
//! # Refusals
//!
//! Every call takes every input. What it cannot take it turns back with a [`Refusal`], whose number and words are those
//! of document 01 and its table's later rows; a call that is turned back with 1 to 6, 10 or 11 leaves every buffer as it
//! was, one with 7 to 9 (a reader) makes its outputs 0.
//!
//! # What is proved
//!
//! The archive behind this crate is proved to meet its contracts on every input: docs/GUARANTEES.md of the repository
//! lists them. This crate is not proved. It adds slices, types and names; its `unsafe` is one module, and its tests
//! compare the declarations there with the proved source. The archive keeps nothing between calls, so they may be made
//! from several threads.
//!
//! # Linking
//!
//! The build script links `libhost.a`, which `scripts/archive` writes to the repository's target/staticlib (x86-64).
//! `AC3_ARCHIVE` names it where it stands elsewhere.

#![warn(missing_docs)]
#![deny(unsafe_code)]

#[allow(unsafe_code)]
#[rustfmt::skip] // a pointer and its length stay on one line
mod ffi;
#[cfg(test)]
mod causes;
mod frame;
mod reconstruct;
mod refusal;
mod sheet;
pub mod steps;

pub use frame::{Counts, Encoded, Frame, Reading};
pub use reconstruct::Reconstruction;
pub use refusal::Refusal;
pub use sheet::{ChannelRecord, Common, Segment, Sheet, SheetBuilder, Strategy, BLOCKS_PER_FRAME, MAX_FBW, N_COEFFS};

/// The Rust of the bindings' README runs as a test.
#[cfg(doctest)]
#[doc = include_str!("../../README.md")]
struct Readme;
