//! RULES Report.

#[derive(Clone, Copy, Debug, Default, PartialEq, Eq)]
pub struct Report {
    pub number: u64,
    pub operand: u64,
    pub index: u64,
    pub first: u64,
    pub second: u64,
}

/// Reply 0, which alone has counts.
pub fn done(first: usize, second: usize) -> Report {
    Report {
        first: first as u64,
        second: second as u64,
        ..Report::default()
    }
}

/// One of 9 to 12, which blame nobody.
pub fn stopped(number: u64) -> Report {
    Report {
        number,
        ..Report::default()
    }
}
