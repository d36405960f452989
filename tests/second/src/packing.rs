//! Packing and unpacking of a monomial.

use crate::polynomial::Monomial;

/// RULES Limits.
pub const LARGEST_EXPONENT: u64 = 32_767;

/// RULES Single numbers: a reply and a value, 0 where it is refused.
#[derive(Clone, Copy, Debug, PartialEq, Eq)]
pub struct Packed {
    pub number: u64,
    pub value: u64,
}

/// The same with four exponents.
#[derive(Clone, Copy, Debug, PartialEq, Eq)]
pub struct Unpacked {
    pub number: u64,
    pub exponents: Monomial,
}

/// RULES Packing.
pub fn pack(m: Monomial) -> Packed {
    if m.iter().any(|&e| e > LARGEST_EXPONENT) {
        return Packed {
            number: 4,
            value: 0,
        };
    }
    // Each letter has sixteen bits, x at the top.
    let value = m.iter().fold(0, |word, e| word * 65_536 + e);
    Packed { number: 0, value }
}

/// The way back of RULES Packing: a field with its guard bit is over the largest exponent.
pub fn unpack(word: u64) -> Unpacked {
    let fields = [48, 32, 16, 0].map(|shift| (word >> shift) % 65_536);
    if fields.iter().any(|&e| e > LARGEST_EXPONENT) {
        return Unpacked {
            number: 4,
            exponents: [0; 4],
        };
    }
    Unpacked {
        number: 0,
        exponents: fields,
    }
}

#[cfg(test)]
mod tests {
    use super::*;

    #[test]
    fn letters_have_their_places() {
        assert_eq!(pack([1, 2, 3, 4]).value, 0x0001_0002_0003_0004);
        assert_eq!(pack([32_767; 4]).value, 0x7fff_7fff_7fff_7fff);
        assert_eq!(unpack(0x0001_0002_0003_0004).exponents, [1, 2, 3, 4]);
    }

    #[test]
    fn what_does_not_fit_is_refused() {
        assert_eq!(pack([0, 32_768, 0, 0]).number, 4);
        assert_eq!(pack([0, 0, 0, 1 << 48]).number, 4);
        for bit in [15, 31, 47, 63] {
            let refused = unpack(1 << bit | 1);
            assert_eq!((refused.number, refused.exponents), (4, [0; 4]));
        }
    }
}
