//! Refusal 5: where DO and REPEAT may stand.

use crate::operation::Operation;

/// Whether refusal 5 is given for none of the operations.
pub fn is_placed_well(operations: &[Operation]) -> bool {
    loops_nest(operations) && repeats_stand_well(operations)
}

/// DO's last is in DO + 2..count - 1. A DO at d' with d < d' <= e is inside
/// (d, e), and its last is below e.
fn loops_nest(operations: &[Operation]) -> bool {
    let mut around: Vec<usize> = Vec::new();
    for (number, operation) in operations.iter().enumerate() {
        around.retain(|&last| number <= last);
        let Some(last) = operation.last_of_do() else {
            continue;
        };
        let last = usize::from(last);
        if last < number + 2 || last >= operations.len() {
            return false;
        }
        if around.iter().any(|&outer| last >= outer) {
            return false;
        }
        around.push(last);
    }
    true
}

/// REPEAT is neither the last operation of the program or of any loop, nor
/// right before kind 19..22.
fn repeats_stand_well(operations: &[Operation]) -> bool {
    let mut is_last = vec![false; operations.len()];
    for last in operations.iter().filter_map(Operation::last_of_do) {
        if let Some(mark) = is_last.get_mut(usize::from(last)) {
            *mark = true;
        }
    }
    let mut repeats = (0..operations.len()).filter(|&number| operations[number].is_repeat());
    repeats.all(|number| {
        !is_last[number]
            && operations
                .get(number + 1)
                .is_some_and(|next| !next.is_repeat_or_do())
    })
}
