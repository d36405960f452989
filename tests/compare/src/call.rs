//! A call of either program: what is asked, and what is lent.

use std::fmt;

#[derive(Clone, Copy, Debug, PartialEq, Eq, PartialOrd, Ord)]
pub enum Kind {
    Check,
    ProfileOf,
    Run,
    Sum,
    Difference,
    Product,
    Divide,
    Divides,
    FieldSum,
    FieldProduct,
    FieldInverse,
    Residue,
    Balanced,
    Pack,
    Unpack,
}

impl Kind {
    pub const ALL: [Kind; 15] = [
        Kind::Check,
        Kind::ProfileOf,
        Kind::Run,
        Kind::Sum,
        Kind::Difference,
        Kind::Product,
        Kind::Divide,
        Kind::Divides,
        Kind::FieldSum,
        Kind::FieldProduct,
        Kind::FieldInverse,
        Kind::Residue,
        Kind::Balanced,
        Kind::Pack,
        Kind::Unpack,
    ];

    /// The operands that are input polynomials.
    pub fn inputs(self) -> &'static [usize] {
        match self {
            Kind::Check | Kind::ProfileOf | Kind::Run => &[1],
            Kind::Sum | Kind::Difference | Kind::Product | Kind::Divide | Kind::Divides => &[1, 2],
            _ => &[],
        }
    }

    /// The operands that are rooms for results.
    pub fn outputs(self) -> &'static [usize] {
        match self {
            Kind::Sum | Kind::Difference | Kind::Product | Kind::Divides => &[3],
            Kind::Divide => &[3, 4],
            _ => &[],
        }
    }

    pub fn divides(self) -> bool {
        matches!(self, Kind::Divide | Kind::Divides)
    }

    pub fn has_work(self) -> bool {
        self == Kind::Product || self.divides()
    }

    /// Every call but these three takes a modulus.
    pub fn has_modulus(self) -> bool {
        !matches!(self, Kind::Run | Kind::Pack | Kind::Unpack)
    }
}

#[derive(Clone)]
pub struct Call {
    pub kind: Kind,
    pub p: u64,
    /// The operands 1 to 5; those that the call doesn't have are empty.
    pub arrays: [Vec<u64>; 5],
    /// The power of a run, the residues of a field operation, the exponents or the word of packing.
    pub numbers: [u64; 4],
}

impl Call {
    pub fn on_numbers(kind: Kind, p: u64, numbers: [u64; 4]) -> Self {
        let arrays = Default::default();
        Call {
            kind,
            p,
            arrays,
            numbers,
        }
    }

    pub fn on_arrays(kind: Kind, p: u64, arrays: [Vec<u64>; 5]) -> Self {
        let numbers = [0; 4];
        Call {
            kind,
            p,
            arrays,
            numbers,
        }
    }

    /// The array of an operand from 1 to 5.
    pub fn operand(&mut self, operand: usize) -> &mut Vec<u64> {
        &mut self.arrays[operand - 1]
    }
}

impl fmt::Display for Call {
    fn fmt(&self, out: &mut fmt::Formatter) -> fmt::Result {
        writeln!(out, "{:?}, p = {}", self.kind, self.p)?;
        writeln!(out, "numbers {:?}", self.numbers)?;
        show_arrays(out, &self.arrays)
    }
}

/// What a call answers, and what it leaves in the operands 1 to 5.
#[derive(PartialEq, Eq)]
pub struct Answer {
    /// The numbers of the report, the record or the value, in the order of their fields.
    pub numbers: Vec<u64>,
    pub arrays: [Vec<u64>; 5],
}

impl fmt::Display for Answer {
    fn fmt(&self, out: &mut fmt::Formatter) -> fmt::Result {
        writeln!(out, "numbers {:?}", self.numbers)?;
        show_arrays(out, &self.arrays)
    }
}

fn show_arrays(out: &mut fmt::Formatter, arrays: &[Vec<u64>; 5]) -> fmt::Result {
    for (i, array) in arrays.iter().enumerate() {
        writeln!(out, "operand {}, {} words: {array:x?}", i + 1, array.len())?;
    }
    Ok(())
}
