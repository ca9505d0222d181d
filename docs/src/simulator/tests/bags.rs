//! The stream of services stored in crates/bags: what it holds, and the lines for
//! it.

mod common;
use common::*;
use std::collections::BTreeMap;

use simulator::bags::{bytes_of, next_serving, print_lines, Serving};
use simulator::engine::accept;
use simulator::generate::services::{parts, random_stream, stream};
use simulator::service::{engine_service, EngineBag};
use simulator::{Ending, State};

// ---- the files

#[test]
fn the_stored_stream_is_what_the_bin_writes() {
    let stored = stored_bags("stdin");
    assert!(stored == stream());
    println!("{} bytes", stored.len());
    assert!(stored.len() <= 1_500_000);
}

#[test]
fn the_stored_lines_are_what_is_printed() {
    let mut printed = Vec::new();
    print_lines(stored_bags("stdin").as_slice(), &mut printed).unwrap();
    assert!(stored_bags("stdout") == printed);
}

#[test]
fn the_last_line_alone_is_short() {
    let stored = String::from_utf8(stored_bags("stdout")).unwrap();
    let lines: Vec<&str> = stored.lines().collect();
    let (last, others) = lines.split_last().expect("lines");
    assert_eq!(*last, "short");
    assert!(!others.contains(&"short") && !others.contains(&"toolarge"));
    assert_eq!(others.len(), services().len());
    assert!((1_300..=1_400).contains(&others.len()));
}

#[test]
fn the_parts_have_these_lengths() {
    let said = [
        ("sequence", 53),
        ("windows", 62),
        ("room", 61),
        ("refused", 229),
        ("starts", 222),
        ("endings", 140),
        ("modes", 128),
        ("clears", 24),
        ("random", 370),
        ("passes", 51),
    ];
    assert_eq!(lengths(parts()), said);
}

#[test]
fn random_streams_are_the_same_for_a_seed() {
    assert_eq!(random_stream(5, 40), random_stream(5, 40));
    assert_ne!(random_stream(5, 40), random_stream(6, 40));
    let stream = random_stream(5, 40);
    assert_eq!(servings(&stream).len(), 40);
}

// ---- what the stream holds

/// The whole services of a stream.
fn servings(mut stream: &[u8]) -> Vec<Serving> {
    let mut all = Vec::new();
    while let Ok(Ok(serving)) = next_serving(&mut stream) {
        all.push(serving);
    }
    all
}

fn services() -> Vec<Serving> {
    servings(&stored_bags("stdin"))
}

/// The stored services that are not refused, with what their bags came to.
fn served() -> Vec<(Serving, Vec<EngineBag>)> {
    let accepted = services()
        .into_iter()
        .filter(|serving| serving.serve().answer.is_ok());
    let bags = |serving: Serving| {
        let engine = engine_service(&serving.service());
        (serving, engine)
    };
    accepted.map(bags).collect()
}

#[test]
fn the_stream_is_read_as_it_was_written() {
    let read = services();
    let mut made = parts().into_iter().flat_map(|(_, services)| services);
    assert!(read
        .iter()
        .all(|serving| made.next().as_ref() == Some(serving)));
    assert_eq!(made.next(), None);
}

#[test]
fn every_answer_comes_up() {
    let mut answers: BTreeMap<String, usize> = BTreeMap::new();
    let stored = String::from_utf8(stored_bags("stdout")).unwrap();
    for line in stored.lines() {
        let first = line.split(' ').next().unwrap_or_default();
        *answers.entry(first.to_string()).or_default() += 1;
    }
    println!("{answers:?}");
    assert!(answers["served"] >= 850 && answers["refused8"] >= 80);
    for number in 1..=7 {
        assert!(answers[&format!("refused{number}")] >= 8, "{number}");
    }
}

/// How many bags end in each way, with a bag after it that goes on or restarts.
#[test]
fn every_ending_is_followed_in_both_ways() {
    let mut ways: BTreeMap<(Ending, bool), usize> = BTreeMap::new();
    for (serving, bags) in served() {
        for (bag, &restart) in bags.iter().zip(serving.restarts.iter().skip(1)) {
            *ways.entry((bag.outcome.ending, restart != 0)).or_default() += 1;
        }
    }
    println!("{ways:?}");
    let traps = (1..=7).map(trap);
    for ending in traps.chain([Ending::Done, Ending::Spent]) {
        assert!(ways[&(ending, false)] >= 5, "{ending} gone on");
        assert!(ways[&(ending, true)] >= 5, "{ending} restarted");
    }
}

#[test]
fn starts_and_cuts_in_loops_and_repeats() {
    let served = served();
    let count = |fits: &dyn Fn(&Serving, &[EngineBag]) -> bool| {
        let fits = |(serving, bags): &&(Serving, Vec<EngineBag>)| fits(serving, bags);
        served.iter().filter(fits).count()
    };
    let goes_on = |serving: &Serving| serving.restarts.first() == Some(&0);
    let in_loop = |serving: &Serving, _: &[EngineBag]| {
        goes_on(serving) && serving.start.state.flow.active > 0
    };
    let in_repeat = |serving: &Serving, _: &[EngineBag]| {
        goes_on(serving) && serving.start.state.flow.repeat > 0
    };
    let (loops, repeats) = (count(&in_loop), count(&in_repeat));
    println!("{loops} {repeats}");
    assert!(loops >= 90 && repeats >= 50);
    let cut = |_: &Serving, bags: &[EngineBag]| {
        let spent = |bag: &EngineBag| bag.outcome.ending == Ending::Spent;
        bags.iter()
            .any(|bag| spent(bag) && bag.outcome.state.flow.active > 0)
    };
    assert!(count(&cut) >= 100);
}

/// The refusal of a run from this state.
fn run_refusal(serving: &Serving, state: &State) -> Option<u8> {
    let start = &serving.start;
    accept(&start.file, &start.settings, state, start.memory.len()).err()
}

/// First states that do not fit the program, by the answer: those that a restart
/// mends, by what is lent for the first bag, and those that it does not mend.
#[test]
fn first_states_that_do_not_fit() {
    let mut mended: BTreeMap<(&str, Option<u8>), usize> = BTreeMap::new();
    let mut others: BTreeMap<(&str, Option<u8>), usize> = BTreeMap::new();
    for serving in services() {
        let state = serving.start.state;
        if run_refusal(&serving, &state) != Some(7) {
            continue;
        }
        let way = match (serving.budgets.first(), serving.restarts.first()) {
            (None, _) => "no bags",
            (_, None) => "no restart",
            (_, Some(0)) => "on",
            _ => "again",
        };
        let fits = run_refusal(&serving, &state.restart()).is_none();
        let counts = if fits { &mut mended } else { &mut others };
        let answer = serving.serve().answer.err();
        *counts.entry((way, answer)).or_default() += 1;
    }
    println!("{mended:?} {others:?}");
    assert!(mended[&("again", None)] >= 60 && mended[&("again", Some(8))] >= 6);
    assert!(mended[&("on", Some(7))] >= 50);
    assert!(mended[&("no bags", Some(7))] >= 12);
    assert!(mended[&("no restart", Some(7))] >= 4);
    assert_eq!(mended.len(), 5);
    assert!(others[&("again", Some(7))] >= 10 && others[&("on", Some(7))] >= 10);
    assert!(others.keys().all(|(_, answer)| *answer == Some(7)));
}

#[test]
fn numbers_at_their_ends() {
    let services = services();
    let count =
        |fits: &dyn Fn(&Serving) -> bool| services.iter().filter(|serving| fits(serving)).count();
    assert!(count(&|one| one.budgets.contains(&0)) >= 50);
    assert!(count(&|one| one.budgets.contains(&u32::MAX)) >= 15);
    assert!(count(&|one| one.budgets.is_empty()) >= 40);
    assert!(count(&|one| one.budgets.len() == 256) >= 4);
    assert!(count(&|one| one.words.len() == 4_096) >= 3);
    assert!(count(&|one| one.room == [256, 256]) >= 4);
    assert!(count(&|one| one.window.contains(&u32::MAX)) >= 10);
    assert!(count(&|one| one.restarts.iter().any(|&byte| byte > 1)) >= 50);
    let whole = |one: &Serving| one.window == [0, one.start.memory.len() as u32];
    assert!(count(&whole) >= 10);
    let modes = services.iter().map(|one| one.start.state.mode.0);
    let modes: std::collections::BTreeSet<u16> = modes.collect();
    assert!(modes.len() >= 128);
}

/// The sample filter: 300 and 400 steps, the 117 left of 817, and all 817 again;
/// A and B are what samples/README.md says.
#[test]
fn the_sample_filter_is_cut_and_started_again() {
    let stored = String::from_utf8(stored_bags("stdout")).unwrap();
    let cut = " 0010 300 0010 400 0000 117 0000 817";
    let mut lines = stored.lines().filter(|line| line.ends_with(cut));
    let line = lines.next().expect("the filter's line");
    assert!(line.starts_with("served 535461888 272607232 0000 68 0 0020 0 "));
    let file = stored_sample("fir.bin");
    let with_it = services().into_iter().filter(|one| one.start.file == file);
    assert_eq!(with_it.count(), 3);
}

// ---- streams that break off or ask for too much

fn printed(stream: &[u8]) -> String {
    let mut output = Vec::new();
    print_lines(stream, &mut output).unwrap();
    String::from_utf8(output).unwrap()
}

/// Literal 3 to W4; two bags of one word, longer slices.
fn example() -> Serving {
    Serving::of(memory([1, 2, 3, 4]).case(&[lit(4, 3)]))
        .window_at(3, 1)
        .bag(5, 1, &[6])
        .bag(5, 0, &[8])
        .lists(3, 3)
        .room(2, 3)
}

/// The memory 1, 2, 3, 8; endings 0, 0; steps 1, 0, 2: 1, 31, 963.
const EXAMPLE_LINE: &str = "served 0 0 0000 1 0 0020 0 0:0 0:0 0:0 0:0 \
     0000 0000 0000 0000 0003 0000 0000 0000 0000 0000 0000 0000 0000 0000 31814 \
     0 963 0000 1 0000 0";

#[test]
fn a_service_is_laid_out_as_the_page_says() {
    let bytes = bytes_of(&example());
    assert_eq!(bytes.len(), 112 + 512 + 8 + 28 + 8 + 3 + 6);
    assert_eq!(bytes[..12], [0, 2, 0, 0, 4, 0, 0, 0, 0, 0, 0, 0]);
    assert_eq!(bytes[111], 0);
    assert_eq!(bytes[624..632], [1, 0, 2, 0, 3, 0, 4, 0]);
    let sizes: Vec<u8> = [3, 1, 2, 3, 3, 2, 3]
        .iter()
        .flat_map(|&n: &u32| n.to_le_bytes())
        .collect();
    assert_eq!(bytes[632..660], sizes);
    assert_eq!(bytes[660..668], [5, 0, 0, 0, 5, 0, 0, 0]);
    assert_eq!(bytes[668..671], [1, 0, 1]);
    assert_eq!(bytes[671..], [6, 0, 8, 0, 0x5A, 0x5A]);
    assert_eq!(printed(&bytes), format!("{EXAMPLE_LINE}\n"));
}

#[test]
fn the_budget_and_what_are_not_looked_at() {
    let mut bytes = bytes_of(&example());
    bytes[8..12].copy_from_slice(&u32::MAX.to_le_bytes());
    for what in [0, 1, 2, 3, 16, 22, 255] {
        bytes[111] = what;
        assert_eq!(printed(&bytes), format!("{EXAMPLE_LINE}\n"), "{what}");
    }
}

#[test]
fn an_empty_stream_prints_nothing() {
    assert_eq!(printed(&[]), "");
}

#[test]
fn a_service_that_breaks_off_prints_short_and_ends() {
    let whole = bytes_of(&example());
    for length in 1..whole.len() {
        assert_eq!(printed(&whole[..length]), "short\n", "{length}");
    }
    let two = [&whole[..], &whole[..whole.len() - 1]].concat();
    assert_eq!(printed(&two), format!("{EXAMPLE_LINE}\nshort\n"));
    let twice = whole.repeat(2);
    assert_eq!(printed(&twice), format!("{EXAMPLE_LINE}\n").repeat(2));
}

/// The example's bytes up to `length`, with a number set.
fn with_number(at: usize, number: u32, length: usize) -> Vec<u8> {
    let mut bytes = bytes_of(&example());
    bytes[at..at + 4].copy_from_slice(&number.to_le_bytes());
    bytes.truncate(length);
    bytes
}

#[test]
fn file_and_memory_are_judged_after_the_header() {
    for (at, most) in [(0, 65_536), (4, 32_768)] {
        for length in [112, 113, 700] {
            assert_eq!(printed(&with_number(at, most + 1, length)), "toolarge\n");
            assert_eq!(printed(&with_number(at, u32::MAX, length)), "toolarge\n");
            assert_eq!(printed(&with_number(at, most, length)), "short\n");
        }
        assert_eq!(printed(&with_number(at, most + 1, 111)), "short\n");
    }
}

#[test]
fn the_five_numbers_are_judged_after_the_28_bytes() {
    let most = [256, 256, 4_096, 256, 256];
    for (i, most) in most.into_iter().enumerate() {
        let at = 640 + 4 * i;
        for length in [660, 661, 700] {
            assert_eq!(printed(&with_number(at, most + 1, length)), "toolarge\n");
            assert_eq!(printed(&with_number(at, u32::MAX, length)), "toolarge\n");
        }
        assert_eq!(printed(&with_number(at, most + 1, 659)), "short\n");
        assert_eq!(printed(&with_number(at, u32::MAX, 632)), "short\n");
    }
    // The window is any number: refused, not too large.
    for at in [632, 636] {
        let line = printed(&with_number(at, u32::MAX, usize::MAX));
        assert!(line.starts_with("refused8 0 0 0000 0 0 0020 0 "), "{line}");
    }
}

#[test]
fn toolarge_ends_the_program_after_the_lines_before_it() {
    let whole = bytes_of(&example());
    let stream = [&whole[..], &with_number(640, 257, 660), &whole[..]].concat();
    assert_eq!(printed(&stream), format!("{EXAMPLE_LINE}\ntoolarge\n"));
}

#[test]
fn the_largest_numbers_are_carried_out() {
    let budgets = [(1, 1); 256];
    let start = Serving::of(memory([0; 4]).case(&[IDLE])).bags(&budgets);
    let serving = start.lists(256, 4_096).room(256, 256);
    let line = printed(&bytes_of(&serving));
    assert!(line.starts_with("served 0 0 0000 1 0 0020 0 "), "{line}");
    assert_eq!(line.matches(" 0000 1").count(), 256 + 1);
    let mut large = serving;
    large.start.memory = vec![0; 32_768];
    large.start.file = vec![0; 65_536];
    assert!(printed(&bytes_of(&large)).starts_with("refused1 0 0 "));
}

#[test]
fn any_bytes_are_a_stream() {
    let mut random = simulator::generate::random::Random::new(66);
    let base = bytes_of(&example());
    for _ in 0..20_000 {
        let stream = altered(&base, &mut random);
        assert!(printed(&stream).ends_with('\n'));
    }
}
