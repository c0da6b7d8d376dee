//! The Rust's functions, unchanged, with each stand-in writer, behind calls of the entries' shape that are not inlined; and the frame that
//! joins them as document 01 says, with nothing done twice: the sheet checked, coefficients looked at, entries from each end on written as 0.
#![allow(dead_code, clippy::all)]

/// One copy of the source's functions with a writer of its own.
macro_rules! source {
    ($name:ident, $writer:ident) => {
        pub mod $name {
            use crate::writers::$writer as BitWriter;
            use rust_reference::model::{runs, span_of, Sheet, BLOCKS};

            const MAX_FBW: usize = 5;
            const N_COEFFS: usize = 256;
            const BLOCKS_PER_FRAME: usize = 6;
            const LFE_END_MANT: usize = 7;
            include!(concat!(env!("ORACLE"), "/generated.rs"));
            include!(concat!(env!("ORACLE"), "/generated_hth.rs"));

            pub type Writer = BitWriter;

            /// A channel's parameters and segments as the source takes them.
            pub struct Channel(BitAllocParams, DbaPlan, u8);

            impl Channel {
                pub fn of(s: &Sheet, channel: usize) -> Channel {
                    let q = &s.records[channel];
                    let params = BitAllocParams {
                        sdcycod: s.sdcycod,
                        fdcycod: s.fdcycod,
                        sgaincod: s.sgaincod,
                        dbpbcod: s.dbpbcod,
                        floorcod: s.floorcod,
                        csnroffst: s.csnroffst,
                        fsnroffst: q.fsnroffst,
                        fsnroffst_ch: [q.fsnroffst; MAX_FBW],
                        cplfsnroffst: 0,
                        lfefsnroffst: 0,
                        fgaincod: q.fgaincod,
                        cplfgaincod: 0,
                        lfefgaincod: 0,
                    };
                    let mut plan = DbaPlan::default();
                    plan.nseg[0] = q.segs.len() as u8;
                    for (i, s) in q.segs.iter().enumerate() {
                        (plan.offst[0][i], plan.len[0][i], plan.ba[0][i]) = (s[0], s[1], s[2]);
                    }
                    Channel(params, plan, s.fscod)
                }

                #[inline(never)]
                pub fn bap(&self, exp: &[u8; 256], end: usize, bap: &mut [u8; 256]) {
                    let plan = if self.1.nseg[0] == 0 { None } else { Some((&self.1, 0)) };
                    compute_bap(exp, end, self.2, &self.0, bap, plan)
                }
            }

            #[inline(never)]
            pub fn exponent(x: f32, slot: &mut [u8]) {
                slot[0] = extract_exponent(x)
            }
            #[inline(never)]
            pub fn d15(exp: &mut [u8]) {
                preprocess_d15(exp)
            }
            #[inline(never)]
            pub fn spans(exp: &mut [u8], span: usize) {
                quantise_exponents_to_grpsize(exp, span)
            }
            #[inline(never)]
            pub fn pick(exp: &[u8], end: usize, slot: &mut [u8]) {
                slot[0] = pick_strategy_for_block(exp, end)
            }
            #[inline(never)]
            pub fn select(exps: &[Vec<[u8; 256]>], ends: &[usize]) -> Vec<[u8; 6]> {
                select_exp_strategies_per_end(exps, ends.len(), ends)
            }
            #[inline(never)]
            pub fn code(x: f32, exponent: i32, bap: u8, slot: &mut [u16]) {
                slot[0] = quantise_mantissa(x, exponent, bap) as u16
            }
            /// What a step that writes bits alone writes to; made once and used again.
            pub struct Sink {
                writer: Writer,
                out: Vec<u8>,
            }

            impl Sink {
                pub fn new() -> Sink {
                    Sink { writer: Writer::default(), out: vec![0; 3100] }
                }
                /// One exponent set from the first bit on.
                #[inline(never)]
                pub fn exponents(&mut self, exp: &[u8; 256], end: usize, span: usize) -> usize {
                    self.writer.clear();
                    write_exponents_grouped(&mut self.writer, exp, end, span);
                    self.writer.store(&mut self.out);
                    self.writer.bits()
                }
                /// One stream of mantissas from the first bit on.
                #[inline(never)]
                pub fn mantissas(&mut self, pairs: &[(u8, u32)]) -> usize {
                    self.writer.clear();
                    write_mantissa_stream(&mut self.writer, pairs);
                    self.writer.store(&mut self.out);
                    self.writer.bits()
                }
            }

            /// The mantissa bits of a block, coupling off.
            #[inline(never)]
            pub fn count(baps: &[Vec<[u8; 256]>], ends: &[usize], lfe: bool) -> u32 {
                mantissa_bits_total_ends(baps, 0, Some(ends), ends.len(), &CouplingPlan::default(), lfe)
            }

            /// What a frame is written to; made once and used again.
            pub struct Frame {
                pub exps: Vec<u8>,
                pub bap: Vec<u8>,
                pub codes: Vec<u16>,
                pub body: Vec<u8>,
                pub counts: [u32; 12],
                writer: Writer,
                pairs: Vec<(u8, u32)>,
            }

            impl Frame {
                pub fn new(entries: usize, room: usize) -> Frame {
                    let (exps, bap, codes) = (vec![0; entries], vec![0; entries], vec![0; entries]);
                    Frame { exps, bap, codes, body: vec![0; room], counts: [0; 12], writer: Writer::default(), pairs: Vec::new() }
                }

                /// The frame of a sheet's bytes and coefficients.
                #[inline(never)]
                pub fn encode(&mut self, sheet: &[u8], coeffs: &[f32]) -> usize {
                    let s = rust_reference::model::check_sheet(sheet).expect("a good sheet");
                    for channel in 0..s.c() {
                        let own = Channel::of(&s, channel);
                        let finite = |b| coeffs[s.at(b, channel)..s.at(b, channel) + s.end(channel)].iter().all(|x| x.is_finite());
                        assert!((0..BLOCKS).all(finite), "finite coefficients");
                        for (first, after) in runs(&s.records[channel].strat) {
                            self.run(&s, &own, channel, first, after, coeffs);
                        }
                    }
                    self.writer.clear();
                    (0..BLOCKS).for_each(|b| self.block(&s, b));
                    self.writer.store(&mut self.body);
                    self.writer.bits()
                }

                /// Exponents, bap and codes of one run of a channel.
                fn run(&mut self, s: &Sheet, own: &Channel, channel: usize, first: usize, after: usize, coeffs: &[f32]) {
                    let end = s.end(channel);
                    let (mut e, mut bap) = ([24u8; 256], [0u8; 256]);
                    for b in first..after {
                        let at = s.at(b, channel);
                        for (least, &x) in e.iter_mut().zip(&coeffs[at..at + end]) {
                            *least = (*least).min(extract_exponent(x));
                        }
                    }
                    preprocess_d15(&mut e[..end]);
                    quantise_exponents_to_grpsize(&mut e[..end], span_of(s.records[channel].strat[first]));
                    own.bap(&e, end, &mut bap);
                    for b in first..after {
                        let at = s.at(b, channel);
                        self.exps[at..at + end].copy_from_slice(&e[..end]);
                        self.bap[at..at + end].copy_from_slice(&bap[..end]);
                        let rest = at + end..at + 256;
                        self.exps[rest.clone()].fill(0);
                        self.bap[rest.clone()].fill(0);
                        self.codes[rest].fill(0);
                        for i in 0..end {
                            self.codes[at + i] =
                                if bap[i] == 0 { 0 } else { quantise_mantissa(coeffs[at + i], e[i] as i32, bap[i]) as u16 };
                        }
                    }
                }

                /// The bits of one block and its two counts.
                fn block(&mut self, s: &Sheet, b: usize) {
                    let start = self.writer.bits();
                    for channel in (0..s.c()).filter(|&c| s.records[c].strat[b] != 0) {
                        let at = s.at(b, channel);
                        let exp: &[u8; 256] = self.exps[at..at + 256].try_into().unwrap();
                        write_exponents_grouped(&mut self.writer, exp, s.end(channel), span_of(s.records[channel].strat[b]));
                    }
                    let middle = self.writer.bits();
                    self.pairs.clear();
                    for channel in 0..s.c() {
                        let part = s.at(b, channel)..s.at(b, channel) + s.end(channel);
                        self.pairs.extend(self.bap[part.clone()].iter().zip(&self.codes[part]).map(|(&p, &c)| (p, c as u32)));
                    }
                    write_mantissa_stream(&mut self.writer, &self.pairs);
                    self.counts[b] = (middle - start) as u32;
                    self.counts[6 + b] = (self.writer.bits() - middle) as u32;
                }
            }
        }
    };
}

source!(bools, Bools);
source!(packed, Packed);
source!(nothing, Nothing);
