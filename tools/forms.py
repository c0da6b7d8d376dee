#!/usr/bin/env python3
"""Counts the places in crates/*/src that stand in an older form, point by point (docs/DESIGN-PASS.md).

tools/forms.py [-v] [FOLDER]    FOLDER: a checkout, this one if none is named; -v prints each place too.
A place is a line of a .rt file that a pattern of the point matches, where a function's signature counts as one line up to its answer;
ghost lines, comments and clauses are no places, but for point 5, which counts clauses.
"""
import glob
import os
import re
import sys

CODE = [
    # 1
    (1, "types of the shape of Option or Result, and of an answer with a refusal's number in it",
     r"^pub (enum (Got|ExponentSet|Reconstructed)|struct (Answer|ReadEnd|FrameAnswer|MantissaBits|BinAnswer|BlockEnd|BlockSet)\b.*)"),
    (1, "functions that answer such a type",
     r"-> (bits::)?(frame::)?(Answer|ReadEnd|FrameAnswer|MantissaBits|BinAnswer|BlockEnd|Got|Reconstructed|ExponentSet|BlockSet|\[BlockSet; 6\])$|-> (Answer|FrameAnswer|MantissaBits|ReadEnd) ?\{"),
    (1, "refusals that are numbers: constants, answers, a number through a `&mut`",
     r"^pub const [A-Z_]+: u32 = (\d|1\d);|fn (check_sheet|check_beside|preprocess_d15|quantise_exponents_to_grpsize|select_refusal|slot_refusal|reconstruct_body|reconstruct_under|reconstruct_sized|reconstruct_shaped|compute_bap)\(.*-> u32|refusal: &mut u32"),
    (1, "strategies and spans that are numbers",
     r"(grpsize|span): (usize|u8)\b|fn (strategy_of|block_strategy|pick_strategy_for_block)\(.*-> u8|-> \[u8; 6\]$|-> \[\[u8; 6\]; 6\]|New\(u8\)"),
    (1, "0 as the answer that there is none", r"fn (place_span|place_group)\(.*-> usize"),
    # 2
    (2, "fills and copies, one for a type", r"fn (copy|copy_codes|copy_counts|fill|fill_codes|fill_levels)\("),
    (2, "tables: an entry, the whole, a size", r"pub fn (baptab|baptab_table|bndsz|bndsz_table|bndtab|latab|latab_table|quantization_bits|quantization_bits_table|hth|hth_row|mant_level|mant_level_3|mant_level_5|mant_level_7|mant_level_11|mant_level_15|slowdec|fastdec|slowgain|dbpbtab|floortab|fastgain)\((?!.*&'static)"),
    (2, "the lesser, the greater, the difference, one for a type and crate", r"fn (least|most|less|smaller|minus)\("),
    (2, "arrays of zeros, one for a type and size", r"fn (no_row|no_row_codes|no_bytes|no_codes|no_coefficients|no_body)\("),
    (2, "the same walk over other entries", r"fn (gather_baps|gather_codes|fill_few|fill_singles|extract_part|lower_part|segments_in_range|excite_start|excite_first|excite_low|excite_high|group_sizes|level_table|pass_by_pass)\("),
    (2, "a call with a span written out", r"fn (gather|gather_by|spread_out|spread_by)\("),
    (2, "result slices, one for a type or size", r"fn (return_byte|return_code|return_count|return_level|return_six|return_twelve|return_row|no_counts|no_bits|no_flag|no_level)\("),
    # 3
    (3, "`while` loops", r"^\s*while "),
    # 4
    (4, "conversions", r"fn (wide|wide_code|one_if|flag_at|flag_of|held_address)\("),
    (4, "equality, order, distance, copying", r"fn (alike|same_bytes|difference|least|most|less|smaller|minus|copy|copy_codes|copy_counts|fill|fill_codes|fill_levels)\("),
    (4, "rounding up to bytes", r"\+ 7\) / 8"),
    (4, "casts by `as`, the lossless and the others", r"\bas (u32|usize|u64|u16)\b"),
    # 6
    (6, "parallel arrays", r"^\s*(pub )?(offst|len|ba): (&)?\[u8; 8\]|&\[u8; 8\], (len|ba)|let mut (left|held) = \[0u(8|16); 16\]|\b(powers|excites|added|hth): &\[u16; 5[01]\]"),
    (6, "a length or a count beside", r"nseg: usize|\bentries: usize|\bn: usize\b"),
    (6, "buffers of the most entries", r"(no_bytes|no_codes|no_row|no_row_codes|no_coefficients|no_body)\(\);|= \[0(u8|u16|\.0f32|\.0)?; MOST_(ROW|BUFFER)\]"),
    # 7
    (7, "a switch on which step to run", r"if (h|grpsize) == \d|fn (first_leaks|low_leaks|high_leaks|level_code)\("),
]
CLAUSES = [
    (5, "an accepted sheet's settings and their table of strategies", r"Under settings strategies|\{ LegalSettings settings"),
    (5, "a set's span, or a span, is one of the three", r"KnownSet|is_span grpsize ≡ true"),
    (5, "the codes of a channel are legal", r"LegalCodes common channel"),
    (5, "lengths of a frame's buffers", r"≡ 256 \* channels [a-z.]*settings \* 6"),
]
TOGETHER = [
    (5, "parameters that travel together: settings with strategies; offst, len, ba, nseg; powers, excites, added, hth",
     r"^\s*strategies: \[\[BlockSet; 6\]; MOST_CHANNELS\],?|strategies: \[\[BlockSet; 6\]; MOST_CHANNELS\]|^\s*nseg: usize,?|nseg: usize\)|^\s*hth: &\[u16; 50\],"),
]


def is_clause(line):
    return bool(re.match(r"\s*(requires|ensures|ghost)\b", line))


def signature(lines, at):
    """The signature that begins in a line, as one line, up to its answer."""
    text = lines[at]
    while not re.search(r"\)( ->.*| \{.*|)$", text) and at + 1 < len(lines):
        at += 1
        text += " " + lines[at].strip()
    return text


def main():
    words = [w for w in sys.argv[1:] if w != "-v"]
    verbose = "-v" in sys.argv[1:]
    top = words[0] if words else os.path.join(os.path.dirname(os.path.abspath(__file__)), "..")
    files = sorted(glob.glob(os.path.join(top, "crates/*/src/**/*.rt"), recursive=True))
    totals = {}
    for patterns, clause in ((CODE, False), (CLAUSES, True), (TOGETHER, False)):
        for point, label, pattern in patterns:
            found = []
            for path in files:
                lines = open(path, encoding="utf-8").read().splitlines()
                for number, line in enumerate(lines, 1):
                    if re.search(r"\bfn \w+[(<]", line):
                        line = signature(lines, number - 1)
                    if line.lstrip().startswith("//") or is_clause(line) != clause:
                        continue
                    if re.search(pattern, line):
                        found.append((os.path.relpath(path, top), number, line.strip()))
            totals.setdefault(point, []).append((label, found))
    for point in sorted(totals):
        print(f"point {point}: {sum(len(f) for _, f in totals[point])}")
        for label, found in totals[point]:
            print(f"  {len(found):4d}  {label}")
            if verbose:
                for path, number, line in found:
                    print(f"          {path}:{number}: {line}")
    answers = glob.glob(os.path.join(top, "crates/*/proofs/**/Answers.antt"), recursive=True)
    given = sum(len(re.findall(r"^pub ", open(p, encoding="utf-8").read(), re.M)) for p in answers)
    proofs = glob.glob(os.path.join(top, "crates/*/proofs/**/*.antt"), recursive=True)
    lines = sum(len(open(p, encoding="utf-8").read().splitlines()) for p in proofs)
    print(f"point 8: {given} answers in {len(answers)} files; {lines} lines of proofs/")


main()
