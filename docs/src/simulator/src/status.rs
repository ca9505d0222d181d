//! SR, composed by shifts.

use crate::state::State;

/// Bit 15 OA, 14 OB, 13 SA, 12 SB, 11 OA or OB, 10 SA or SB, 9 a loop is
/// active, 4 repeat left is not 0; the rest 0.
pub fn status_word(state: &State) -> u16 {
    let [oa, ob] = state.overflow;
    let [sa, sb] = state.saturated;
    let bit = |set: bool, number: u32| u16::from(set) << number;
    bit(oa, 15)
        | bit(ob, 14)
        | bit(sa, 13)
        | bit(sb, 12)
        | bit(oa || ob, 11)
        | bit(sa || sb, 10)
        | bit(state.flow.active != 0, 9)
        | bit(state.flow.repeat != 0, 4)
}
