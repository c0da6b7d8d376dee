//! Short inputs, all of them where that is possible, and every value of a field at its edges.
mod exponents;
mod fields;
mod levels;
pub mod mantissas;
mod not_finite;
mod orders;
mod sheets;
mod slots;

use crate::tally::Tally;

pub fn run(tally: &mut Tally) {
    exponents::run(tally);
    fields::run(tally);
    levels::run(tally);
    mantissas::run(tally);
    not_finite::run(tally);
    orders::run(tally);
    sheets::run(tally);
    slots::run(tally);
    println!("short inputs: done");
}

/// Calls `each` with every sequence of this length over these values.
fn sequences<T: Copy>(values: &[T], length: usize, each: &mut impl FnMut(&[T])) {
    fn grow<T: Copy>(values: &[T], left: usize, made: &mut Vec<T>, each: &mut impl FnMut(&[T])) {
        if left == 0 {
            return each(made);
        }
        for &v in values {
            made.push(v);
            grow(values, left - 1, made, each);
            made.pop();
        }
    }
    grow(values, length, &mut Vec::new(), each)
}
