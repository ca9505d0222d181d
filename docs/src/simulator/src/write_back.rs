//! b6 of kinds 1, 3, 4, 7: where the other accumulator is stored.

use crate::address::{step_outside_y, ByteAddress};
use crate::ending::Trap;
use crate::memory::Memory;
use crate::operand::{Destination, Moved, Place};
use crate::operation::WriteBack;
use crate::settings::Settings;

/// W13 itself, or memory at the old W13, which then goes up by 2 (corrected
/// when it is X's register, never bit-reversed).
pub fn destination(
    write_back: WriteBack,
    w: &[u16; 14],
    settings: &Settings,
    memory: &Memory,
) -> Result<Option<Destination>, Trap> {
    match write_back {
        WriteBack::None => Ok(None),
        WriteBack::ToW13 => Ok(Some(Destination {
            place: Place::Register(13),
            moved: None,
        })),
        WriteBack::ToMemory => {
            let place = Place::Memory(memory.place(ByteAddress(w[13]))?);
            let to = step_outside_y(settings, 13, w[13], 2);
            let moved = Some(Moved { pointer: 13, to });
            Ok(Some(Destination { place, moved }))
        }
    }
}
