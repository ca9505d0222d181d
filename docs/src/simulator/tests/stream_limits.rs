//! Streams that break off or ask for too much, and the printed line's form.

mod common;
use common::*;
use simulator::cases::{bytes_of, line, Case, What};
use simulator::form::print_lines;
use simulator::{Settings, State};

fn printed(stream: &[u8]) -> String {
    let mut output = Vec::new();
    print_lines(stream, &mut output).unwrap();
    String::from_utf8(output).unwrap()
}

fn example() -> Case {
    Case {
        what: What::Run,
        file: file_of(&[lit(4, 3), lit(5, 0xFFFE), mpy(0, 0x54, 0, 0, 0)]),
        memory: vec![1, 2, 3],
        budget: 100,
        settings: Settings::plain(1),
        state: State::reset(),
    }
}

const EXAMPLE_LINE: &str = "done 3 -12 0 0000 3 0 0020 0 0:0 0:0 0:0 0:0 \
     0000 0000 0000 0000 0003 FFFE 0000 0000 0000 0000 0000 0000 0000 0000 1026";

#[test]
fn a_run_line_is_as_the_page_says() {
    // The memory's check: (1 x 31 + 2) x 31 + 3 = 1026.
    assert_eq!(line(&example()), EXAMPLE_LINE);
    let mut case = example();
    case.state.flow.pc = 0xFFFF;
    case.state.flow.active = 9;
    case.state.flow.loops[1].do_number = 65_535;
    case.state.flow.loops[1].passes = u32::MAX;
    case.state.flow.repeat = 70_000;
    case.state.mode.0 = 0xABCD;
    case.state.accumulators = [i64::MIN, i64::MAX];
    case.state.overflow = [true, false];
    case.state.saturated = [false, true];
    let line = line(&case);
    let start = "refused7 0 -9223372036854775808 9223372036854775807 9E10 65535 70000 \
         ABCD 9 0:0 65535:4294967295 0:0 0:0 0000 ";
    assert!(line.starts_with(start), "{line}");
    assert!(line.ends_with(" 1026"));
}

#[test]
fn the_header_is_laid_out_as_the_page_says() {
    let mut case = example();
    case.settings.x.register = 8;
    case.settings.y.end = 0x1234;
    case.settings.reversed.words = 8;
    case.state.w[13] = 0xBEEF;
    case.state.accumulators = [-1, 2];
    case.state.flow.pc = 0x0102;
    case.state.flow.active = 1;
    case.state.flow.loops[3].do_number = 0x0506;
    case.state.flow.loops[3].passes = 0x0708;
    case.state.flow.repeat = 9;
    case.state.saturated = [true, false];
    case.state.overflow = [false, true];
    let bytes = bytes_of(&case);
    assert_eq!(bytes.len(), 112 + 512 + 6);
    assert_eq!(bytes[..12], [0, 2, 0, 0, 3, 0, 0, 0, 100, 0, 0, 0]);
    assert_eq!(bytes[12..20], [1, 0, 0, 0, 8, 0, 0, 0]);
    assert_eq!(bytes[22..32], [15, 0, 0, 0, 0x34, 0x12, 15, 0, 8, 0]);
    assert_eq!(bytes[58..60], [0xEF, 0xBE]);
    assert_eq!(
        bytes[60..76],
        [255, 255, 255, 255, 255, 255, 255, 255, 2, 0, 0, 0, 0, 0, 0, 0]
    );
    assert_eq!(bytes[76..80], [2, 1, 1, 0]);
    assert_eq!(bytes[86..88], [6, 5]);
    assert_eq!(bytes[100..108], [8, 7, 0, 0, 9, 0, 0, 0]);
    assert_eq!(bytes[108..112], [0x20, 0, 0b0110, 0]);
    assert_eq!(bytes[624..], [1, 0, 2, 0, 3, 0]);
    let again = simulator::cases::next_case(&mut bytes.as_slice());
    assert_eq!(again.unwrap().unwrap(), case);
}

#[test]
fn an_empty_stream_prints_nothing() {
    assert_eq!(printed(&[]), "");
}

#[test]
fn a_case_that_breaks_off_prints_short_and_ends() {
    let whole = bytes_of(&example());
    for length in [1, 50, 111, 112, 113, 623, 624, whole.len() - 1] {
        assert_eq!(printed(&whole[..length]), "short\n", "{length}");
        let mut two = whole.clone();
        two.extend(&whole[..length]);
        assert_eq!(printed(&two), format!("{EXAMPLE_LINE}\nshort\n"));
    }
    let twice = whole.repeat(2);
    assert_eq!(printed(&twice), format!("{EXAMPLE_LINE}\n{EXAMPLE_LINE}\n"));
}

/// A header with these sizes and nothing after it.
fn header(bytes: u32, words: u32, budget: u32, what: u8) -> Vec<u8> {
    let mut case = example();
    (case.file, case.memory) = (Vec::new(), Vec::new());
    let mut header = bytes_of(&case);
    header[..4].copy_from_slice(&bytes.to_le_bytes());
    header[4..8].copy_from_slice(&words.to_le_bytes());
    header[8..12].copy_from_slice(&budget.to_le_bytes());
    header[111] = what;
    header
}

#[test]
fn sizes_past_the_limits_print_toolarge_and_end() {
    for what in 0..3 {
        assert_eq!(printed(&header(65_537, 0, 0, what)), "toolarge\n");
        assert_eq!(printed(&header(0, 32_769, 0, what)), "toolarge\n");
        assert_eq!(printed(&header(u32::MAX, u32::MAX, 0, what)), "toolarge\n");
        assert_eq!(printed(&header(65_536, 32_768, 65_536, what)), "short\n");
    }
    assert_eq!(printed(&header(0, 0, 65_537, 1)), "toolarge\n");
    assert_eq!(printed(&header(0, 0, 65_537, 2)), "toolarge\n");
    let run = printed(&header(0, 0, 65_537, 0));
    assert!(run.starts_with("refused1 0 0 0 0000 0 0 0020 0 "), "{run}");
    let mut stream = bytes_of(&example());
    stream.extend(header(65_537, 0, 0, 0));
    stream.extend(bytes_of(&example()));
    assert_eq!(printed(&stream), format!("{EXAMPLE_LINE}\ntoolarge\n"));
}

#[test]
fn sizes_at_the_limits_are_carried_out() {
    let mut stream = header(65_536, 32_768, 65_536, 1);
    stream.extend(vec![0; 65_536 + 65_536]);
    let line = printed(&stream);
    assert!(line.starts_with("refused1 0 "), "{line}");
}

fn check_of(bytes: impl Iterator<Item = u64>) -> u64 {
    bytes.fold(0, |h, x| (31 * h + x) % (1 << 32))
}

#[test]
fn load_and_write_lines() {
    let ops = [lit(4, 3), IDLE];
    let file = file_of(&ops);
    let load = |lent| Case {
        what: What::Load,
        file: file.clone(),
        budget: lent,
        ..example()
    };
    let pattern = |from: usize, to: usize| (from..to).map(|i| (i % 251) as u64);
    let operations = ops.concat();
    let good = operations.iter().map(|&b| u64::from(b));
    let check = check_of(good.chain(pattern(16, 300)));
    assert_eq!(line(&load(300)), format!("loaded 16 {check}"));
    let kept = check_of(pattern(0, 15));
    assert_eq!(line(&load(15)), format!("refused8 0 {kept}"));
    assert_eq!(line(&load(0)), "refused8 0 0");
    let write = |lent| Case {
        what: What::Write,
        file: ops.concat(),
        budget: lent,
        ..example()
    };
    let good = file.iter().map(|&b| u64::from(b));
    let check = check_of(good.chain(pattern(512, 600)));
    assert_eq!(line(&write(600)), format!("written 512 {check}"));
    let kept = check_of(pattern(0, 511));
    assert_eq!(line(&write(511)), format!("refused8 0 {kept}"));
}

#[test]
fn any_bytes_are_a_stream() {
    let mut random = simulator::generate::random::Random::new(5);
    let base = bytes_of(&example());
    for _ in 0..20_000 {
        let mut stream = altered(&base, &mut random);
        // Budgets stay small, so that no run is long.
        stream[9..12].fill(0);
        let lines = printed(&stream);
        assert!(lines.ends_with('\n'));
    }
}
