//! Refusal 8: each lent slice too short, exactly long enough and longer, and 8
//! after every other refusal.

use super::build::{AGAIN, ON};
use crate::bags::Serving;
use crate::generate::bench::Bench;
use crate::generate::ops::*;
use crate::generate::runs::build::{add, Program};

/// Three bags of two words, all slices exactly long enough: 3 restarts, 6 words,
/// 3 endings, 3 steps.
fn exact() -> Serving {
    let program = Program::new().op(literal(0, 0x1006));
    let program = program.looped(1, |body| body.op(load(4, 0, 2)).op(add(0, 4)));
    Serving::on(program.bench())
        .window_at(3, 2)
        .bag(50, AGAIN, &[0x0101, 0x0202])
        .bag(3, AGAIN, &[0x0303, 0x0404])
        .bag(50, ON, &[0x0505, 0x0606])
}

pub fn services() -> Vec<Serving> {
    let mut all = vec![exact()];
    all.extend(longer());
    all.extend(shorter());
    all.extend(two_short());
    all.extend(without_bags());
    all.extend(after_others());
    all
}

/// Each slice longer than needed, and all of them; the most there may be.
fn longer() -> Vec<Serving> {
    vec![
        exact().lists(4, 6),
        exact().lists(256, 6),
        exact().lists(3, 7),
        exact().lists(3, 4_096),
        exact().room(4, 3),
        exact().room(256, 3),
        exact().room(3, 4),
        exact().room(3, 256),
        exact().lists(5, 9).room(7, 6),
        exact().lists(256, 4_096).room(256, 256),
    ]
}

/// Each slice too short by one and empty; the window one word past the end.
fn shorter() -> Vec<Serving> {
    let mut all = Vec::new();
    all.extend([2, 1, 0].map(|restarts| exact().lists(restarts, 6)));
    all.extend([5, 4, 2, 0].map(|words| exact().lists(3, words)));
    all.extend([2, 1, 0].map(|endings| exact().room(endings, 3)));
    all.extend([2, 1, 0].map(|steps| exact().room(3, steps)));
    all.extend([15, 16].map(|first| exact().window_at(first, 2)));
    // A larger window than the words are for.
    all.push(exact().window_at(3, 3));
    all.push(exact().window_at(3, 3).lists(3, 9));
    all
}

/// Two and more too short, the others ample.
fn two_short() -> Vec<Serving> {
    vec![
        exact().lists(2, 5),
        exact().lists(2, 9).room(2, 9),
        exact().lists(9, 5).room(9, 2),
        exact().room(0, 0),
        exact().lists(0, 0).room(0, 0),
        exact().window_at(15, 2).lists(9, 5),
    ]
}

/// No bags: empty slices are long enough, longer ones stay as they are.
fn without_bags() -> Vec<Serving> {
    let none = || Serving::on(Bench::one(add(0, 4)));
    vec![
        none(),
        none().window_at(0, 16),
        none().lists(4, 20).room(6, 256),
        none().window_at(0, 17),
        none().window_at(17, 0).room(3, 3),
    ]
}

/// Refusals 1 to 7 with short slices too: 8 comes last.
fn after_others() -> Vec<Serving> {
    let benches = [
        Bench::one(IDLE).file(Vec::new()),
        Bench::one(IDLE).file(vec![0; 511]),
        Bench::one(IDLE).file(vec![1; 512]),
        Bench::one(IDLE).file(vec![0; 512]),
        Bench::of(&[IDLE, [26, 0, 0, 0, 0, 0, 0, 0]]),
        Bench::of(&[IDLE, repeat(1)]),
        Bench::one(IDLE).traps(1),
        Bench::one(IDLE).memory(1, 1),
        Bench::one(IDLE).at(3),
        Bench::one(IDLE).both(1 << 39, 0),
        Bench::one(IDLE),
    ];
    let mut all = Vec::new();
    for bench in benches {
        let start = Serving::on(bench);
        let bag = start.window_at(0, 2).bag(5, AGAIN, &[8, 9]);
        all.push(bag.clone().lists(0, 2).room(1, 2));
        all.push(bag.window_at(1, 16).room(2, 1));
    }
    all
}
