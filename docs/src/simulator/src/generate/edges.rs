//! Short runs with settings or a state at the edge of what rows 6 and 7 allow.

use super::case::file_of;
use super::damage::{damage_settings, damage_state};
use super::layout::{address_of, Layout};
use super::program::{program, Style};
use super::random::Random;
use super::start;
use crate::cases::{Case, What};
use crate::settings::{BitReversed, Circular, Settings};

/// A small layout with both buffers and a bit-reversed register.
fn small_layout(random: &mut Random) -> Layout {
    let x_words = random.range(4, 12) as usize;
    let words = x_words + random.range(4, 12) as usize;
    let mut settings = Settings::plain(x_words as u16);
    settings.x = Circular {
        register: random.pick(&[0, 8, 10, 13]),
        start: address_of(random.below(2)),
        end: address_of(2 + random.below(2)) + 1,
    };
    settings.x.end = settings.x.end.max(settings.x.start + 5);
    settings.y = Circular {
        register: random.pick(&[10, 11]),
        start: address_of(x_words),
        end: address_of(words - 1) + 1,
    };
    settings.reversed = BitReversed {
        register: random.pick(&[1, 12]),
        words: 2 << random.below(4),
    };
    // Without the buffers now and then, so that they hide no other edge.
    if random.percent(40) {
        settings.x = Circular::NONE;
    }
    if random.percent(40) {
        settings.y = Circular::NONE;
    }
    Layout { words, settings }
}

fn small_run(random: &mut Random, count: usize) -> Case {
    let layout = small_layout(random);
    let mut style = Style::random(random, true);
    style.depth = style.depth.min(4);
    let operations = program(random, &layout, style, count);
    Case {
        what: What::Run,
        file: file_of(&operations),
        memory: layout.memory(random),
        budget: random.below(40) as u32,
        settings: layout.settings,
        state: start::state(random, &layout, &operations, false),
    }
}

/// Settings with one thing off.
pub fn settings_case(random: &mut Random) -> Case {
    let count = random.range(2, 8) as usize;
    let mut case = small_run(random, count);
    damage_settings(random, &mut case);
    case
}

/// A state with one thing off.
pub fn state_case(random: &mut Random) -> Case {
    let count = random.range(8, 40) as usize;
    let mut case = small_run(random, count);
    damage_state(random, &mut case);
    case
}
