//! Loads and writes: the requests of another stream with the room they have.

use crate::cases::{Case, What};
use crate::generate::requests::requests;
use crate::requests::{Call, Request};
use crate::settings::Settings;
use crate::state::State;

pub fn cases() -> Vec<Case> {
    requests().into_iter().map(copy).collect()
}

fn copy(request: Request) -> Case {
    Case {
        what: match request.call {
            Call::Load => What::Load,
            Call::Write => What::Write,
        },
        file: request.input,
        memory: Vec::new(),
        budget: request.room.into(),
        settings: Settings::plain(1),
        state: State::reset(),
    }
}
