//! A service in the making: a start, a window, and bags added one by one, with
//! every lent slice exactly long enough until another length is asked for.

use crate::bags::Serving;
use crate::cases::Case;
use crate::generate::bench::Bench;

/// A bag that goes on, and one that starts again.
pub const ON: u8 = 0;
pub const AGAIN: u8 = 1;

impl Serving {
    /// No bags and an empty window, with this file, settings, state and memory.
    pub fn of(start: Case) -> Serving {
        Serving {
            start: Case { budget: 0, ..start },
            window: [0, 0],
            budgets: Vec::new(),
            restarts: Vec::new(),
            words: Vec::new(),
            room: [0, 0],
        }
    }

    pub fn on(bench: Bench) -> Serving {
        Serving::of(bench.case)
    }

    pub fn window_at(mut self, first: u32, size: u32) -> Serving {
        self.window = [first, size];
        self
    }

    /// A further bag with its words, and room for it.
    pub fn bag(mut self, budget: u32, restart: u8, words: &[u16]) -> Serving {
        self.budgets.push(budget);
        self.restarts.push(restart);
        self.words.extend(words);
        self.room = self.room.map(|length| length + 1);
        self
    }

    /// Further bags without words.
    pub fn bags(self, bags: &[(u32, u8)]) -> Serving {
        let add =
            |serving: Serving, &(budget, restart): &(u32, u8)| serving.bag(budget, restart, &[]);
        bags.iter().fold(self, add)
    }

    /// Other lengths of restarts and words: cut off, or filled up.
    pub fn lists(mut self, restarts: usize, words: usize) -> Serving {
        self.restarts.resize(restarts, AGAIN);
        self.words.resize(words, 0x5A5A);
        self
    }

    /// Other lengths of the lent endings and steps.
    pub fn room(mut self, endings: u32, steps: u32) -> Serving {
        self.room = [endings, steps];
        self
    }
}
