//! Random calls: valid ones, ones at the edges of the rules, and ones with faults.

mod division;
mod field;
mod packing;
mod product;
mod services;
mod sums;

use crate::call::{Call, Kind};
use crate::faults;
use crate::moduli::Moduli;
use crate::rng::Rng;

/// A call without a fault put into it, whatever its reply may be.
pub fn plain(rng: &mut Rng, moduli: &Moduli, kind: Kind) -> Call {
    match kind {
        Kind::Check | Kind::ProfileOf => services::on_polynomial(rng, moduli, kind),
        Kind::Run => services::run(rng, moduli),
        Kind::Sum | Kind::Difference => sums::call(rng, moduli, kind),
        Kind::Product => product::call(rng, moduli),
        Kind::Divide | Kind::Divides => division::call(rng, moduli, kind),
        Kind::Pack | Kind::Unpack => packing::call(rng, kind),
        _ => field::call(rng, moduli, kind),
    }
}

/// Every fourth call has a fault, and some of these a second one.
pub fn any(rng: &mut Rng, moduli: &Moduli, kind: Kind) -> Call {
    let mut call = plain(rng, moduli, kind);
    let faults = faults::all(kind);
    if !faults.is_empty() && rng.one_in(4) {
        for _ in 0..1 + rng.below(2) {
            let fault = rng.pick(&faults);
            faults::put(rng, &mut call, fault);
        }
    }
    call
}
