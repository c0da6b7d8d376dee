//! The entries of the archive (crate `host`), each behind a safe function over slices, parameters in the archive's order.
//! An answer is 0 or the refusal's number.
#![allow(clippy::too_many_arguments)]

#[rustfmt::skip] // a line or two for each entry
extern "C" {
    fn ac3_check_sheet(sheet: *const u8, n: usize) -> u32;
    fn ac3_extract_exponent(x: f32, exponent: *mut u8, one: usize) -> u32;
    fn ac3_preprocess_d15(exp: *mut u8, n: usize) -> u32;
    fn ac3_quantise_exponents_to_grpsize(exp: *mut u8, n: usize, grpsize: usize) -> u32;
    fn ac3_ngrps_for_strategy(end: usize, grpsize: usize, groups: *mut u32, one: usize) -> u32;
    fn ac3_write_exponents_grouped(
        out: *mut u8, n: usize, exp: *const u8, m: usize, end: usize, grpsize: usize, bits: *mut u32, one: usize,
    ) -> u32;
    fn ac3_read_exponents_grouped(
        input: *const u8, n: usize, exp: *mut u8, m: usize, end: usize, grpsize: usize, bits: *mut u32, one: usize,
    ) -> u32;
    fn ac3_pick_strategy_for_block(exp: *const u8, n: usize, end: usize, strategy: *mut u8, one: usize) -> u32;
    fn ac3_select_exp_strategies_per_end(
        exps: *const u8, n: usize, ends: *const u16, channels: usize, strategies: *mut u8, six_times_channels: usize,
    ) -> u32;
    fn ac3_compute_bap(
        sheet: *const u8, n: usize, channel: u32, exp: *const u8, m: usize, bap: *mut u8, k: usize,
    ) -> u32;
    fn ac3_quantise_mantissa(coeff: f32, exp: u32, bap: u32, code: *mut u16, one: usize) -> u32;
    fn ac3_write_mantissa_stream(
        out: *mut u8, n: usize, bap: *const u8, m: usize, codes: *const u16, k: usize, bits: *mut u32, one: usize,
    ) -> u32;
    fn ac3_read_mantissa_stream(
        input: *const u8, n: usize, bap: *const u8, m: usize, codes: *mut u16, k: usize, bits: *mut u32, one: usize,
    ) -> u32;
    fn ac3_mantissa_bits_total_ends(
        sheet: *const u8, n: usize, bap: *const u8, m: usize, counts: *mut u32, six: usize,
    ) -> u32;
    fn ac3_encode_body(
        sheet: *const u8, n: usize, coeffs: *const f32, a: usize, exps: *mut u8, b: usize, bap: *mut u8, c: usize, codes: *mut u16,
        d: usize, body: *mut u8, e: usize, counts: *mut u32, twelve: usize,
    ) -> u32;
    fn ac3_write_body(
        sheet: *const u8, n: usize, exps: *const u8, b: usize, codes: *const u16, d: usize, body: *mut u8, e: usize,
        counts: *mut u32, twelve: usize,
    ) -> u32;
    fn ac3_read_body(
        sheet: *const u8, n: usize, input: *const u8, a: usize, exps: *mut u8, b: usize, bap: *mut u8, c: usize, codes: *mut u16,
        d: usize, counts: *mut u32, twelve: usize, bits: *mut u32, one: usize,
    ) -> u32;
    fn ac3_reconstruct_mantissa(
        exponent: u32, bap: u32, code: u32, has_level: *mut u8, one: usize, level: *mut f32, one_: usize,
    ) -> u32;
    fn ac3_reconstruct_body(
        sheet: *const u8, n: usize, exps: *const u8, b: usize, codes: *const u16, d: usize, has_level: *mut u8, h: usize,
        levels: *mut f32, l: usize,
    ) -> u32;
    fn ac3_write_u32(out: *mut u8, size: usize, v: u32, n: u32, bits: *mut u32, one: usize) -> u32;
}

pub fn check_sheet(sheet: &[u8]) -> u32 {
    unsafe { ac3_check_sheet(sheet.as_ptr(), sheet.len()) }
}

pub fn extract_exponent(x: f32, exponent: &mut [u8]) -> u32 {
    unsafe { ac3_extract_exponent(x, exponent.as_mut_ptr(), exponent.len()) }
}

pub fn preprocess_d15(exp: &mut [u8]) -> u32 {
    unsafe { ac3_preprocess_d15(exp.as_mut_ptr(), exp.len()) }
}

pub fn quantise_exponents_to_grpsize(exp: &mut [u8], grpsize: usize) -> u32 {
    unsafe { ac3_quantise_exponents_to_grpsize(exp.as_mut_ptr(), exp.len(), grpsize) }
}

pub fn ngrps_for_strategy(end: usize, grpsize: usize, groups: &mut [u32]) -> u32 {
    unsafe { ac3_ngrps_for_strategy(end, grpsize, groups.as_mut_ptr(), groups.len()) }
}

pub fn write_exponents_grouped(out: &mut [u8], exp: &[u8], end: usize, grpsize: usize, bits: &mut [u32]) -> u32 {
    unsafe {
        ac3_write_exponents_grouped(out.as_mut_ptr(), out.len(), exp.as_ptr(), exp.len(), end, grpsize, bits.as_mut_ptr(), bits.len())
    }
}

pub fn read_exponents_grouped(input: &[u8], exp: &mut [u8], end: usize, grpsize: usize, bits: &mut [u32]) -> u32 {
    unsafe {
        ac3_read_exponents_grouped(input.as_ptr(), input.len(), exp.as_mut_ptr(), exp.len(), end, grpsize, bits.as_mut_ptr(), bits.len())
    }
}

pub fn pick_strategy_for_block(exp: &[u8], end: usize, strategy: &mut [u8]) -> u32 {
    unsafe { ac3_pick_strategy_for_block(exp.as_ptr(), exp.len(), end, strategy.as_mut_ptr(), strategy.len()) }
}

pub fn select_exp_strategies_per_end(exps: &[u8], ends: &[u16], strategies: &mut [u8]) -> u32 {
    unsafe {
        ac3_select_exp_strategies_per_end(exps.as_ptr(), exps.len(), ends.as_ptr(), ends.len(), strategies.as_mut_ptr(), strategies.len())
    }
}

pub fn compute_bap(sheet: &[u8], channel: u32, exp: &[u8], bap: &mut [u8]) -> u32 {
    unsafe { ac3_compute_bap(sheet.as_ptr(), sheet.len(), channel, exp.as_ptr(), exp.len(), bap.as_mut_ptr(), bap.len()) }
}

pub fn quantise_mantissa(coeff: f32, exp: u32, bap: u32, code: &mut [u16]) -> u32 {
    unsafe { ac3_quantise_mantissa(coeff, exp, bap, code.as_mut_ptr(), code.len()) }
}

pub fn write_mantissa_stream(out: &mut [u8], bap: &[u8], codes: &[u16], bits: &mut [u32]) -> u32 {
    unsafe {
        ac3_write_mantissa_stream(
            out.as_mut_ptr(),
            out.len(),
            bap.as_ptr(),
            bap.len(),
            codes.as_ptr(),
            codes.len(),
            bits.as_mut_ptr(),
            bits.len(),
        )
    }
}

pub fn read_mantissa_stream(input: &[u8], bap: &[u8], codes: &mut [u16], bits: &mut [u32]) -> u32 {
    unsafe {
        ac3_read_mantissa_stream(
            input.as_ptr(),
            input.len(),
            bap.as_ptr(),
            bap.len(),
            codes.as_mut_ptr(),
            codes.len(),
            bits.as_mut_ptr(),
            bits.len(),
        )
    }
}

pub fn mantissa_bits_total_ends(sheet: &[u8], bap: &[u8], counts: &mut [u32]) -> u32 {
    unsafe { ac3_mantissa_bits_total_ends(sheet.as_ptr(), sheet.len(), bap.as_ptr(), bap.len(), counts.as_mut_ptr(), counts.len()) }
}

#[rustfmt::skip]
pub fn encode_body(
    sheet: &[u8],
    coeffs: &[f32],
    exps: &mut [u8],
    bap: &mut [u8],
    codes: &mut [u16],
    body: &mut [u8],
    counts: &mut [u32],
) -> u32 {
    unsafe {
        ac3_encode_body(
            sheet.as_ptr(), sheet.len(), coeffs.as_ptr(), coeffs.len(), exps.as_mut_ptr(), exps.len(), bap.as_mut_ptr(), bap.len(),
            codes.as_mut_ptr(), codes.len(), body.as_mut_ptr(), body.len(), counts.as_mut_ptr(), counts.len(),
        )
    }
}

#[rustfmt::skip]
pub fn write_body(sheet: &[u8], exps: &[u8], codes: &[u16], body: &mut [u8], counts: &mut [u32]) -> u32 {
    unsafe {
        ac3_write_body(
            sheet.as_ptr(), sheet.len(), exps.as_ptr(), exps.len(), codes.as_ptr(), codes.len(), body.as_mut_ptr(), body.len(),
            counts.as_mut_ptr(), counts.len(),
        )
    }
}

#[rustfmt::skip]
pub fn read_body(
    sheet: &[u8],
    input: &[u8],
    exps: &mut [u8],
    bap: &mut [u8],
    codes: &mut [u16],
    counts: &mut [u32],
    bits: &mut [u32],
) -> u32 {
    unsafe {
        ac3_read_body(
            sheet.as_ptr(), sheet.len(), input.as_ptr(), input.len(), exps.as_mut_ptr(), exps.len(), bap.as_mut_ptr(), bap.len(),
            codes.as_mut_ptr(), codes.len(), counts.as_mut_ptr(), counts.len(), bits.as_mut_ptr(), bits.len(),
        )
    }
}

#[rustfmt::skip]
pub fn reconstruct_mantissa(exponent: u32, bap: u32, code: u32, has_level: &mut [u8], level: &mut [f32]) -> u32 {
    unsafe {
        ac3_reconstruct_mantissa(
            exponent, bap, code, has_level.as_mut_ptr(), has_level.len(), level.as_mut_ptr(), level.len(),
        )
    }
}

#[rustfmt::skip]
pub fn reconstruct_body(sheet: &[u8], exps: &[u8], codes: &[u16], has_level: &mut [u8], levels: &mut [f32]) -> u32 {
    unsafe {
        ac3_reconstruct_body(
            sheet.as_ptr(), sheet.len(), exps.as_ptr(), exps.len(), codes.as_ptr(), codes.len(), has_level.as_mut_ptr(), has_level.len(),
            levels.as_mut_ptr(), levels.len(),
        )
    }
}

pub fn write_u32(out: &mut [u8], v: u32, n: u32, bits: &mut [u32]) -> u32 {
    unsafe { ac3_write_u32(out.as_mut_ptr(), out.len(), v, n, bits.as_mut_ptr(), bits.len()) }
}
