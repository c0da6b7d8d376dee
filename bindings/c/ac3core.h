/* The AC-3 encoder core for C and C++: the entries of crate `host`, which `scripts/archive` builds as
 * target/staticlib/libhost.a (x86-64). bindings/c/example.c uses it; scripts/run-examples builds and runs that.
 *
 * ANSWERS. Every entry takes every input and answers 0 (AC3_ACCEPTED) or the number of a refusal (enum ac3_refusal).
 * They are looked for in the order 1, 2, 11, 10, 3, 4, 5, 6; then 7 to 9 are given as met in bit order. Each comment below
 * lists those of its entry in this order. Refused with 1 to 6, 10 or 11, a call leaves every buffer as it was; with 7 to 9
 * it leaves the input and makes every output 0.
 *
 * SLICES. A slice is a pointer, then its length in elements. A pointer is not NULL, also where the length is 0, is aligned
 * for its type, and what is written overlaps nothing else that is handed over. Result slices (exponent, groups, bits,
 * strategy, strategies, code, counts, and has_level and level of one bin) have exactly the length that is named, else 10;
 * on every refusal one of the right length holds 0.
 *
 * FRAMES. C is the number of channels, the LFE counted. Coefficients, exponents, bap, codes and levels of a frame have
 * AC3_ENTRIES(C) entries; the 256 of a channel in a block start at AC3_PART(C, block, channel). Entries from the
 * channel's end on are ignored when read and written as 0.
 *
 * FLOATS. A coefficient may be any float: an infinity and a NaN, whatever its bits, are refused with 3; from a channel's end
 * on they are ignored. A level is at most 1 in magnitude and never -0.
 *
 * THREADS. Nothing is kept between calls. */
#ifndef AC3CORE_H
#define AC3CORE_H

#include <stddef.h>
#include <stdint.h>

#ifdef __cplusplus
extern "C" {
#endif

#define AC3_BLOCKS_PER_FRAME 6
#define AC3_N_COEFFS 256
#define AC3_ENTRIES(channels) ((size_t)AC3_BLOCKS_PER_FRAME * AC3_N_COEFFS * (size_t)(channels))
#define AC3_PART(channels, block, channel) (AC3_N_COEFFS * ((size_t)(channels) * (size_t)(block) + (size_t)(channel)))
/* Bytes that have room for every body of so many channels: six blocks of 592 bits of exponents and 253 mantissas of 16. */
#define AC3_LONGEST_BODY(channels) ((size_t)3480 * (size_t)(channels))

/* Document 01, "When a call is turned back"; 11 is from document 02, W1. */
enum ac3_refusal {
    AC3_ACCEPTED = 0,
    AC3_STRUCTURE = 1,
    AC3_OUT_OF_RANGE = 2,
    AC3_NOT_FINITE = 3,
    AC3_BAD_EXPONENT = 4,
    AC3_BAD_CODE = 5,
    AC3_NO_ROOM = 6,
    AC3_PAST_INPUT = 7,
    AC3_BAD_GROUP = 8,
    AC3_NO_CODE = 9,
    AC3_WRONG_LENGTH = 10,
    AC3_OUT_OF_ORDER = 11
};

/* The cause of a refusal, in the words of that table. */
static inline const char *ac3_cause(uint32_t number)
{
    switch (number) {
    case AC3_ACCEPTED: return "accepted";
    case AC3_STRUCTURE: return "a sheet of fewer than 12 bytes, length not matching the bytes, version, or a record cut short";
    case AC3_OUT_OF_RANGE: return "a value outside its range, channel twice or missing";
    case AC3_NOT_FINITE: return "coefficient below end not finite";
    case AC3_BAD_EXPONENT: return "exponents not shaped, not repeated, or (allocation, mantissas) above 24";
    case AC3_BAD_CODE: return "bap above 15, code out of range";
    case AC3_NO_ROOM: return "body, or a step's bits, longer than the output";
    case AC3_PAST_INPUT: return "a field runs past the input";
    case AC3_BAD_GROUP: return "group above 124, or exponent outside 0..24";
    case AC3_NO_CODE: return "mantissa value no code has";
    case AC3_WRONG_LENGTH: return "buffer or slice of the wrong length";
    case AC3_OUT_OF_ORDER: return "the records are not in ascending order of channel";
    default: return "no refusal's number";
    }
}

/* ---- the track sheet */

/* Whether the n bytes are a track sheet. Its records stand in ascending channel number, that of the LFE last, so equal
 * settings are equal bytes.
 * Refuses 1, 2, 11. */
uint32_t ac3_check_sheet(const uint8_t *sheet, size_t n);

/* ---- a frame under a sheet */

/* The allocation of one channel (A/52 7.2.2): bap of each bin below the channel's end, 0 from it on.
 * channel: 0.., the LFE last. exp, bap: that channel's alone, each at least its end and at most 256 long; exponents 0..24.
 * Refuses 1, 2 (also a channel that the sheet has not), 11, 10, 4. */
uint32_t ac3_compute_bap(const uint8_t *sheet, size_t n, uint32_t channel, const uint8_t *exp, size_t m,
    uint8_t *bap, size_t k);

/* A frame from its coefficients.
 * coeffs: read. exps, bap, codes: written. body: the body at its start, zero bits to the byte; bytes after it stay.
 * counts: twelve, the exponent bits of the six blocks, then their mantissa bits. The body has their sum, as bytes rounded up.
 * Refuses 1, 2, 11, 10, 3, 6. */
uint32_t ac3_encode_body(const uint8_t *sheet, size_t n, const float *coeffs, size_t a, uint8_t *exps, size_t b,
    uint8_t *bap, size_t c, uint16_t *codes, size_t d, uint8_t *body, size_t e, uint32_t *counts, size_t twelve);

/* A body from exponents and codes; reuse blocks repeat the exponents of the block before.
 * exps, codes: read. body, counts: as in ac3_encode_body.
 * Refuses 1, 2, 11, 10, 4, 5, 6. */
uint32_t ac3_write_body(const uint8_t *sheet, size_t n, const uint8_t *exps, size_t b, const uint16_t *codes, size_t d,
    uint8_t *body, size_t e, uint32_t *counts, size_t twelve);

/* Exponents, bap and codes from a body at the start of the input.
 * counts: as in ac3_encode_body. bits: one, the bits read, the zero bits to the byte not counted.
 * Refuses 1, 2, 11, 10; then 7, 8, 9. */
uint32_t ac3_read_body(const uint8_t *sheet, size_t n, const uint8_t *input, size_t a, uint8_t *exps, size_t b,
    uint8_t *bap, size_t c, uint16_t *codes, size_t d, uint32_t *counts, size_t twelve, uint32_t *bits, size_t one);

/* The listening copy of exponents and codes, as ac3_write_body takes them: each bin has a level or, where its bap is 0, is
 * silent; a player puts dither there. The bap is the allocation of the exponents.
 * exps, codes: read. has_level, levels: written, 1 and the level of ac3_reconstruct_mantissa, or 0 and 0 where silent.
 * Refuses 1, 2, 11, 10, 4, 5. */
uint32_t ac3_reconstruct_body(const uint8_t *sheet, size_t n, const uint8_t *exps, size_t b,
    const uint16_t *codes, size_t d, uint8_t *has_level, size_t h, float *levels, size_t l);

/* The mantissa bits of the six blocks of a frame, counted from its bap.
 * counts: six.
 * Refuses 1, 2, 11, 10, 5 (a bap above 15 below an end). */
uint32_t ac3_mantissa_bits_total_ends(const uint8_t *sheet, size_t n, const uint8_t *bap, size_t m,
    uint32_t *counts, size_t six);

/* ---- exponents, each step alone: end 0..256, grpsize (the span) 1, 2 or 4, at most 256 entries */

/* The exponent of a coefficient, 0..24.
 * exponent: one.
 * Refuses 10, 3. */
uint32_t ac3_extract_exponent(float x, uint8_t *exponent, size_t one);

/* Shapes any bytes for D15, in place: the greatest exponents not above them with the first at most 15, all at most 24
 * and neighbours within 2.
 * Refuses 10. */
uint32_t ac3_preprocess_d15(uint8_t *exp, size_t n);

/* Shapes any bytes for a span, in place: for spans 2 and 4 the greatest exponents not above them with the first at most
 * 15, all at most 24, one value in each span from bin 1 on and neighbouring spans within 2. With span 1, and of one entry,
 * all stays.
 * Refuses 2, 10. */
uint32_t ac3_quantise_exponents_to_grpsize(uint8_t *exp, size_t n, size_t grpsize);

/* How many groups of 7 bits an exponent set has after its first 4 bits.
 * groups: one.
 * Refuses 2, 10. */
uint32_t ac3_ngrps_for_strategy(size_t end, size_t grpsize, uint32_t *groups, size_t one);

/* Writes the exponent set of the entries below end at the start of out, zero bits to the byte; bytes after it stay.
 * end: one that a sheet may hold (7; 37..253 with end - 1 a multiple of 3). bits: one, the bits of the set.
 * Refuses 2, 10, 4, 6. */
uint32_t ac3_write_exponents_grouped(uint8_t *out, size_t n, const uint8_t *exp, size_t m, size_t end, size_t grpsize,
    uint32_t *bits, size_t one);

/* Reads an exponent set from the start of the input; exponents from end on become 0.
 * end: as in ac3_write_exponents_grouped. bits: one, the bits read.
 * Refuses 2, 10; then 7, 8. */
uint32_t ac3_read_exponents_grouped(const uint8_t *input, size_t n, uint8_t *exp, size_t m, size_t end, size_t grpsize,
    uint32_t *bits, size_t one);

/* The strategy for a block's exponents below end: 1 D15, 2 D25, 3 D45.
 * strategy: one.
 * Refuses 2, 10. */
uint32_t ac3_pick_strategy_for_block(const uint8_t *exp, size_t n, size_t end, uint8_t *strategy, size_t one);

/* The strategies of a frame from its exponents, 0 reuse or as above: new sets in blocks 0 and 3.
 * exps: the whole buffer. ends: one for each of 1..6 channels. strategies: six for each channel, channel by channel.
 * Refuses 2, 10. */
uint32_t ac3_select_exp_strategies_per_end(const uint8_t *exps, size_t n, const uint16_t *ends, size_t channels,
    uint8_t *strategies, size_t six_times_channels);

/* ---- mantissas, each step alone: bap and codes of one length, at most 1,536 */

/* The code of a coefficient at an exponent 0..24 and a bap 0..15.
 * code: one.
 * Refuses 10, 3, 4, 5. */
uint32_t ac3_quantise_mantissa(float coeff, uint32_t exp, uint32_t bap, uint16_t *code, size_t one);

/* The level of a bin at an exponent 0..24, a bap 0..15 and a code that its bap has; bap 0 is silent. It is 2^-exponent times
 * the f32 level of the code (bap 1..5), or the code as a signed number of its width over 2^(width-1) (bap 6..15).
 * has_level: one, 1, or 0 where silent. level: one, 0 where silent; else ac3_quantise_mantissa of it gives the code back.
 * Refuses 10, 4, 5. */
uint32_t ac3_reconstruct_mantissa(uint32_t exponent, uint32_t bap, uint32_t code, uint8_t *has_level, size_t one,
    float *level, size_t one_);

/* Writes a stream of mantissas at the start of out, zero bits to the byte; bytes after it stay.
 * bits: one, the bits of the stream.
 * Refuses 10, 5, 6. */
uint32_t ac3_write_mantissa_stream(uint8_t *out, size_t n, const uint8_t *bap, size_t m,
    const uint16_t *codes, size_t k, uint32_t *bits, size_t one);

/* Reads a stream of mantissas from the start of the input.
 * bits: one, the bits read.
 * Refuses 10, 5 (a bap above 15); then 7, 9. */
uint32_t ac3_read_mantissa_stream(const uint8_t *input, size_t n, const uint8_t *bap, size_t m,
    uint16_t *codes, size_t k, uint32_t *bits, size_t one);

/* ---- one field */

/* Writes the low n bits of v, highest first, at the start of out, zero bits to the byte; bytes after it stay.
 * n: at most 16. bits: one, n.
 * Refuses 2, 10, 6. */
uint32_t ac3_write_u32(uint8_t *out, size_t size, uint32_t v, uint32_t n, uint32_t *bits, size_t one);

#ifdef __cplusplus
}
#endif

#endif
