//! Why a call is turned back: document 01's numbers and those that document 02 adds, each with its cause in words.

use std::{error, fmt};

/// Why a call was turned back (document 01, "When a call is turned back"; 11 is from document 02, W1).
///
/// Causes are looked for in the table's order, 1, 2, 11, 10, 3, 4, 5, 6; then 7 to 9 as they are met in bit order. Each
/// is given only for its cause. 1 to 6, 10 and 11 leave every buffer as it was; 7 to 9 leave the input and make every
/// output 0.
///
/// Later numbers join the table, so a `match` has a last arm for them.
///
/// ```
/// use ac3core::{Refusal, Sheet};
///
/// let refusal = Sheet::check(&[]).unwrap_err();
/// assert_eq!(refusal, Refusal::Structure);
/// assert_eq!(refusal.number(), 1);
/// println!("{refusal}"); // refused 1: a sheet of fewer than 12 bytes, ..
/// ```
#[derive(Clone, Copy, Debug, PartialEq, Eq, Hash)]
#[non_exhaustive]
pub enum Refusal {
    /// 1: a sheet of fewer than 12 bytes, a length not matching the bytes, another version, or a record cut short.
    Structure = 1,
    /// 2: a value outside its range, a channel twice or missing.
    OutOfRange = 2,
    /// 3: a coefficient below its channel's end that is not finite.
    NotFinite = 3,
    /// 4: exponents that are not shaped for their strategy, not repeated in a reuse block, or (allocation, mantissas)
    /// above 24.
    BadExponent = 4,
    /// 5: a bap above 15, or a code that its bap has not.
    BadCode = 5,
    /// 6: a body, or a step's bits, longer than the output.
    NoRoom = 6,
    /// 7: a field that runs past the input.
    PastInput = 7,
    /// 8: a group of exponents above 124, or an exponent read outside 0..24.
    BadGroup = 8,
    /// 9: a mantissa value that no code has.
    NoCode = 9,
    /// 10: a buffer or slice of the wrong length.
    WrongLength = 10,
    /// 11: records of a sheet that do not stand in ascending order of channel.
    OutOfOrder = 11,
}

impl Refusal {
    /// All refusals, by their numbers.
    pub const ALL: &'static [Refusal] = &[
        Refusal::Structure,
        Refusal::OutOfRange,
        Refusal::NotFinite,
        Refusal::BadExponent,
        Refusal::BadCode,
        Refusal::NoRoom,
        Refusal::PastInput,
        Refusal::BadGroup,
        Refusal::NoCode,
        Refusal::WrongLength,
        Refusal::OutOfOrder,
    ];

    /// The number of this refusal.
    ///
    /// ```
    /// assert_eq!(ac3core::Refusal::WrongLength.number(), 10);
    /// ```
    pub const fn number(self) -> u32 {
        self as u32
    }

    /// The refusal with this number, where there is one; 0 is none, it says that a call did its work.
    ///
    /// ```
    /// use ac3core::Refusal;
    ///
    /// assert_eq!(Refusal::from_number(7), Some(Refusal::PastInput));
    /// assert_eq!(Refusal::from_number(0), None);
    /// ```
    pub fn from_number(number: u32) -> Option<Refusal> {
        Refusal::ALL.iter().copied().find(|refusal| refusal.number() == number)
    }

    /// The cause, in the words of the table.
    ///
    /// ```
    /// assert_eq!(ac3core::Refusal::PastInput.cause(), "a field runs past the input");
    /// ```
    pub const fn cause(self) -> &'static str {
        match self {
            Refusal::Structure => {
                "a sheet of fewer than 12 bytes, length not matching the bytes, version, or a record cut short"
            }
            Refusal::OutOfRange => "a value outside its range, channel twice or missing",
            Refusal::NotFinite => "coefficient below end not finite",
            Refusal::BadExponent => "exponents not shaped, not repeated, or (allocation, mantissas) above 24",
            Refusal::BadCode => "bap above 15, code out of range",
            Refusal::NoRoom => "body, or a step's bits, longer than the output",
            Refusal::PastInput => "a field runs past the input",
            Refusal::BadGroup => "group above 124, or exponent outside 0..24",
            Refusal::NoCode => "mantissa value no code has",
            Refusal::WrongLength => "buffer or slice of the wrong length",
            Refusal::OutOfOrder => "the records are not in ascending order of channel",
        }
    }

    /// Whether a call so refused makes every output 0 (7 to 9, which a reader meets in its input) rather than leave it
    /// as it was.
    ///
    /// ```
    /// use ac3core::Refusal;
    ///
    /// assert!(Refusal::NoCode.zeroes_outputs());
    /// assert!(!Refusal::NoRoom.zeroes_outputs());
    /// ```
    pub const fn zeroes_outputs(self) -> bool {
        matches!(self, Refusal::PastInput | Refusal::BadGroup | Refusal::NoCode)
    }
}

impl fmt::Display for Refusal {
    fn fmt(&self, f: &mut fmt::Formatter<'_>) -> fmt::Result {
        write!(f, "refused {}: {}", self.number(), self.cause())
    }
}

impl error::Error for Refusal {}

/// What an entry's answer says: 0 that it did its work, else a refusal.
///
/// # Panics
///
/// At a number that the table has not: the archive is then not of this crate's version.
pub(crate) fn answer(number: u32) -> Result<(), Refusal> {
    if number == 0 {
        return Ok(());
    }
    match Refusal::from_number(number) {
        Some(refusal) => Err(refusal),
        None => {
            panic!("the archive answered {number}, which is no refusal's number: it is not of this crate's version")
        }
    }
}

#[cfg(test)]
mod tests {
    use super::*;

    #[test]
    fn each_number_is_one_refusal() {
        for number in 1..=11 {
            assert_eq!(Refusal::from_number(number).map(Refusal::number), Some(number));
            assert_eq!(answer(number).map_err(Refusal::number), Err(number));
        }
        assert_eq!(answer(0), Ok(()));
    }

    #[test]
    #[should_panic(expected = "the archive answered 12, which is no refusal's number")]
    fn an_unknown_number_is_told() {
        let _ = answer(12);
    }
}
