//! One call, answered by both programs.

use crate::call::{Answer, Call};
use crate::tally::Tally;
use crate::{engine, reference};
use std::panic::catch_unwind;

/// What both answer, or a text that says where they differ.
pub fn compare(call: &Call, tally: &mut Tally) -> Result<Answer, String> {
    let expected = reference::answer(call);
    let given = catch_unwind(|| engine::answer(call))
        .unwrap_or_else(|_| Err("a part outside the slice".to_string()))
        .map_err(|fault| format!("{fault}\n{call}"))?;
    if given != expected {
        return Err(format!(
            "DISAGREEMENT\n{call}engine:\n{given}second program:\n{expected}"
        ));
    }
    tally.add(call.kind, &given.numbers);
    Ok(given)
}

/// The same, where it is known what they have to answer: the numbers, and the results in the
/// operands from 3 on, which zero words follow. A refusal leaves every operand as it was.
pub fn expect(
    call: &Call,
    numbers: &[u64],
    results: &[Vec<u64>],
    tally: &mut Tally,
) -> Result<(), String> {
    let given = compare(call, tally)?;
    let mut arrays = call.arrays.clone();
    if !(1..=8).contains(&numbers[0]) {
        for (i, array) in arrays.iter_mut().enumerate().skip(2) {
            array.fill(0);
            if let Some(result) = results.get(i - 2) {
                array[..result.len()].copy_from_slice(result);
            }
        }
    }
    if given.numbers != numbers || given.arrays != arrays {
        return Err(format!(
            "NOT AS THE SHEET SAYS\n{call}both programs:\n{given}"
        ));
    }
    Ok(())
}
