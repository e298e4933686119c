//! The numerals of all variables, each in a word, so that a literal is one store of eight bytes.

use super::places::MOST_VARIABLES;

/// By number: its digits, a space, and `0` and LF as at a clause's end, from the lowest byte on; in the highest byte how many bytes the digits
/// and the space are. The next literal is written over the end.
static NUMERALS: [u64; MOST_VARIABLES + 1] = numerals();

const SPACE_AND_END: u64 = u64::from_le_bytes(*b" 0\n\0\0\0\0\0");

/// What ends a clause.
pub const END_BYTES: usize = 2;

/// A sign, four digits and a space.
pub const MOST_BYTES: usize = 6;

const fn numerals() -> [u64; MOST_VARIABLES + 1] {
    let mut all = [0; MOST_VARIABLES + 1];
    let mut number = 0;
    while number < all.len() {
        let mut rest = number;
        let mut digits = 0;
        let mut text = SPACE_AND_END;
        while rest > 0 || digits == 0 {
            text = text << 8 | (b'0' as u64 + (rest % 10) as u64);
            rest /= 10;
            digits += 1;
        }
        all[number] = text | (digits + 1) << 56;
        number += 1;
    }
    all
}

/// A literal: its bytes from the lowest on, what ends a clause behind them, and how many bytes it has with its space.
#[derive(Clone, Copy)]
pub struct Literal {
    pub bytes: u64,
    pub length: usize,
}

impl Literal {
    #[inline(always)]
    pub fn is(variable: u32) -> Literal {
        let numeral = numeral(variable);
        Literal { bytes: numeral, length: (numeral >> 56) as usize }
    }

    #[inline(always)]
    pub fn not(variable: u32) -> Literal {
        let numeral = numeral(variable);
        Literal { bytes: numeral << 8 | u64::from(b'-'), length: (numeral >> 56) as usize + 1 }
    }
}

/// No variable is past the last, so the remainder changes nothing; it shows that the place is there.
#[inline(always)]
fn numeral(variable: u32) -> u64 {
    NUMERALS[variable as usize % NUMERALS.len()]
}

/// The digits alone, of a number that a variable may have.
pub fn digits(number: usize) -> ([u8; 8], usize) {
    let literal = Literal::is(number as u32);
    (literal.bytes.to_le_bytes(), literal.length - 1)
}
