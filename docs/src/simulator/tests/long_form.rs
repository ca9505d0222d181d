//! The long form of CASES.md: its header, its lines, and streams that break off or ask
//! for too much.

mod common;
use common::*;
use simulator::cases::{self, Case};
use simulator::form::{bytes_of, forms_of, print_lines, Form};
use simulator::generate::random::Random;
use simulator::long::{long_bytes, long_line, Call, Long};

fn printed(stream: &[u8]) -> String {
    let mut output = Vec::new();
    print_lines(stream, &mut output).unwrap();
    String::from_utf8(output).unwrap()
}

/// Document 01's example with three words of memory.
fn start() -> Case {
    let ops = [lit(4, 3), lit(5, 0xFFFE), mpy(0, 0x54, 0, 0, 0)];
    let case = holding(&[1, 2, 3], 1).budget(100).case(&ops);
    assert_eq!(case.memory, [1, 2, 3]);
    case
}

fn long(call: Call) -> Long {
    Long {
        call,
        start: start(),
        second: file_of(&[lit(6, 7)]),
        words: 50,
        room: 600,
    }
}

const SHORT_LINE: &str = "done 3 -12 0 0000 3 0 0020 0 0:0 0:0 0:0 0:0 \
     0000 0000 0000 0000 0003 FFFE 0000 0000 0000 0000 0000 0000 0000 0000 1026";

/// Of the registers W4 and W5 count alone, with 64 after W5:
/// (3 x 31 + 65,534) x 31^64 modulo 2^32.
const REGISTERS_CHECK: u64 = 454_076_507;

fn long_run_line() -> String {
    format!("{SHORT_LINE} 0 {REGISTERS_CHECK} 0 0 0 0 0 0 0 0 3")
}

/// The words of the example's operations, then 48 and 49 as they came.
fn decoded_line() -> String {
    let words = [
        [16, 4, 3, 0, 0, 0, 0, 0, 0, 0, 0, 3, 0, 0, 0, 0],
        [16, 5, 14, 15, 15, 15, 0, 0, 0, 0, 0, 0xFFFE, 0, 0, 0, 0],
        [2, 0, 4, 5, 0, 0, 0, 0, 0, 0, 0, 0x54, 0, 0, 0, 0],
    ];
    let slice = check_of(words.concat().into_iter().chain([48, 49]));
    format!("{} {slice}", long_run_line())
}

fn check_of(bytes: impl Iterator<Item = u64>) -> u64 {
    bytes.fold(0, |h, x| (31 * h + x) % (1 << 32))
}

// ---- the header

#[test]
fn the_header_is_laid_out_as_the_page_says() {
    let mut case = long(Call::Join);
    case.words = 0x0001_0203;
    case.room = 0x0405;
    let bytes = long_bytes(&case);
    assert_eq!(bytes.len(), 320 + 512 + 512 + 6);
    let short = cases::bytes_of(&case.start);
    assert_eq!(bytes[..111], short[..111]);
    assert_eq!(bytes[111], 17);
    assert!(bytes[112..260].iter().all(|&byte| byte == 0));
    assert_eq!(bytes[260..264], [0, 2, 0, 0]);
    assert_eq!(bytes[264..272], [3, 2, 1, 0, 5, 4, 0, 0]);
    assert!(bytes[272..320].iter().all(|&byte| byte == 0));
    assert_eq!(bytes[320..832], case.start.file);
    assert_eq!(bytes[832..1_344], case.second);
    assert_eq!(bytes[1_344..], [1, 0, 2, 0, 3, 0]);
    assert_eq!(forms_of(&bytes), [Form::Long(case)]);
}

#[test]
fn every_call_has_its_number() {
    let calls = [(Call::Run, 16), (Call::Join, 17), (Call::Decoded, 21)];
    let others = [18, 19, 20, 23, 99, 255].map(|what| (Call::Unknown(what), what));
    for (call, what) in calls.into_iter().chain(others) {
        let bytes = long_bytes(&long(call));
        assert_eq!(bytes[111], what);
        assert_eq!(forms_of(&bytes), [Form::Long(long(call))]);
    }
}

/// Below 16 a case is short, and a `what` that the page does not list is a run.
#[test]
fn below_16_the_form_is_short() {
    for what in [0, 3, 9, 15] {
        let mut bytes = cases::bytes_of(&start());
        bytes[111] = what;
        assert_eq!(printed(&bytes), format!("{SHORT_LINE}\n"), "{what}");
    }
}

// ---- lines

#[test]
fn a_long_run_shows_one_set_and_no_tasks() {
    let registers = (0..70).map(|i| match i {
        4 => 3,
        5 => 0xFFFE,
        _ => 0,
    });
    assert_eq!(check_of(registers), REGISTERS_CHECK);
    assert_eq!(long_line(&long(Call::Run)), long_run_line());
}

/// Spent: the steps so far are the count of operations in no task.
#[test]
fn a_long_run_that_is_spent() {
    let mut case = long(Call::Run);
    case.start.budget = 1;
    let line = long_line(&case);
    assert!(line.starts_with("spent 1 0 0 0000 1 0 0020 "), "{line}");
    assert!(line.ends_with(" 0 0 0 0 0 0 0 0 1"), "{line}");
}

/// Refused: registers as they came, W13 alone 7 with 56 after it, all counts zero.
#[test]
fn a_long_run_that_is_refused() {
    let mut case = long(Call::Run);
    case.start.settings.trap_word = 1;
    case.start.state.w[13] = 7;
    let registers = (0..70).map(|i| if i == 13 { 7 } else { 0 });
    let check = check_of(registers);
    let line = long_line(&case);
    assert!(line.starts_with("refused6 0 0 0 0000 0 0 0020 "), "{line}");
    let end = format!(" 0007 1026 0 {check} 0 0 0 0 0 0 0 0 0");
    assert!(line.ends_with(&end), "{line}");
    assert_eq!(line.split(' ').count(), 28 + 11);
}

/// Marks, the set in use, tasks, registers of other sets, and what the page calls zero.
#[test]
fn what_has_not_landed_is_not_looked_at() {
    let mut random = Random::new(69);
    for call in [Call::Run, Call::Join, Call::Decoded, Call::Unknown(18)] {
        let bytes = long_bytes(&long(call));
        let due = printed(&bytes);
        for _ in 0..200 {
            let mut other = bytes.clone();
            other[112..260].fill_with(|| random.word() as u8);
            other[272..320].fill_with(|| random.word() as u8);
            assert_eq!(printed(&other), due);
        }
    }
}

/// A slice of 50, 48 and 47 words, and of 300 for a run that is refused.
#[test]
fn decoded_lines() {
    let mut case = long(Call::Decoded);
    assert_eq!(long_line(&case), decoded_line());
    case.words = 48;
    assert!(long_line(&case).starts_with(&format!("{} ", long_run_line())));
    case.words = 47;
    let pattern = |words: u64| check_of((0..words).map(|i| i % 251));
    let as_it_came = |number: u8, words: u64| {
        let zeros = "0000 ".repeat(14);
        let start = format!("refused{number} 0 0 0 0000 0 0 0020 0 0:0 0:0 0:0 0:0 {zeros}1026");
        format!("{start} 0 0 0 0 0 0 0 0 0 0 0 {}", pattern(words))
    };
    assert_eq!(long_line(&case), as_it_came(8, 47));
    case.words = 0;
    assert_eq!(long_line(&case), as_it_came(8, 0));
    case.start.settings.trap_word = 1;
    assert_eq!(long_line(&case), as_it_came(6, 0));
    case.words = 300;
    assert_eq!(long_line(&case), as_it_came(6, 300));
}

/// The second file and the output are read over and not judged.
#[test]
fn a_decoded_run_has_no_second_file() {
    let mut case = long(Call::Decoded);
    (case.second, case.room) = (vec![9; 77], u32::MAX);
    assert_eq!(long_line(&case), decoded_line());
    assert_eq!(printed(&long_bytes(&case)), format!("{}\n", decoded_line()));
}

/// The joined file of four operations, then the lent pattern.
#[test]
fn join_lines() {
    let ops = [lit(4, 3), lit(5, 0xFFFE), mpy(0, 0x54, 0, 0, 0), lit(6, 7)];
    let pattern = |from: usize, to: usize| (from..to).map(|i| (i % 251) as u64);
    let file = file_of(&ops);
    let written = file.iter().map(|&byte| u64::from(byte));
    let check = check_of(written.clone().chain(pattern(512, 600)));
    let mut case = long(Call::Join);
    assert_eq!(long_line(&case), format!("joined 512 {check}"));
    case.room = 512;
    assert_eq!(
        long_line(&case),
        format!("joined 512 {}", check_of(written))
    );
    case.room = 511;
    let kept = check_of(pattern(0, 511));
    assert_eq!(long_line(&case), format!("refused8 0 {kept}"));
    case.room = 3;
    case.second = Vec::new();
    assert_eq!(long_line(&case), "refused1 0 33");
    case.room = 0;
    case.second = file_of(&vec![IDLE; 4_030]);
    assert_eq!(long_line(&case), "refused9 0 0");
}

/// A join is lent no memory, settings or state: none of them is judged.
#[test]
fn join_looks_at_files_and_room_alone() {
    let due = long_line(&long(Call::Join));
    let mut case = long(Call::Join);
    case.start.settings.trap_word = 0xFFFF;
    case.start.settings.x_words = 0;
    case.start.state.flow.pc = 9_999;
    case.start.state.mode.0 = 0xFFFF;
    case.start.memory = Vec::new();
    case.start.budget = u32::MAX;
    case.words = u32::MAX;
    assert_eq!(long_line(&case), due);
    assert_eq!(printed(&long_bytes(&case)), format!("{due}\n"));
}

/// F, G and M are read, so that the next case begins where it should.
#[test]
fn unknown_calls_are_read_over() {
    let run = bytes_of(&Form::Short(start()));
    for what in (18..=255).filter(|&what| what != 21 && what != 22) {
        let mut stream = long_bytes(&long(Call::Unknown(what)));
        stream.extend(&run);
        assert_eq!(
            printed(&stream),
            format!("unknown\n{SHORT_LINE}\n"),
            "{what}"
        );
    }
}

#[test]
fn both_forms_in_one_stream() {
    let forms = [
        Form::Short(start()),
        Form::Long(long(Call::Run)),
        Form::Long(long(Call::Unknown(20))),
        Form::Short(start()),
        Form::Long(long(Call::Decoded)),
        Form::Long(long(Call::Join)),
    ];
    let stream: Vec<u8> = forms.iter().flat_map(bytes_of).collect();
    assert_eq!(forms_of(&stream), forms);
    let join = long_line(&long(Call::Join));
    let run = long_run_line();
    let decoded = decoded_line();
    let due = format!("{SHORT_LINE}\n{run}\nunknown\n{SHORT_LINE}\n{decoded}\n{join}\n");
    assert_eq!(printed(&stream), due);
}

// ---- streams that end early

#[test]
fn a_long_case_that_breaks_off_prints_short() {
    for call in [Call::Run, Call::Join, Call::Decoded, Call::Unknown(19)] {
        let whole = long_bytes(&long(call));
        let line = printed(&whole);
        // In the header; in F, G and M and between them.
        let ends = (1..=320).chain([321, 831, 832, 833, 1_343, 1_344, 1_345]);
        for length in ends.chain([whole.len() - 1]) {
            assert_eq!(printed(&whole[..length]), "short\n", "{length}");
            let two = [&whole, &whole[..length]].concat();
            assert_eq!(printed(&two), format!("{line}short\n"));
        }
        assert_eq!(printed(&whole.repeat(2)), line.repeat(2));
    }
}

/// A header with these sizes and nothing after it.
fn header(what: u8, sizes: &[(usize, u32)]) -> Vec<u8> {
    let mut case = long(Call::Unknown(what));
    (case.start.file, case.start.memory) = (Vec::new(), Vec::new());
    case.second = Vec::new();
    let mut header = long_bytes(&case);
    for &(at, size) in sizes {
        header[at..at + 4].copy_from_slice(&size.to_le_bytes());
    }
    header
}

const F: usize = 0;
const M: usize = 4;
const G: usize = 260;
const L: usize = 264;
const R: usize = 268;

#[test]
fn sizes_past_the_limits_print_toolarge() {
    for what in 16..=255 {
        for size in [(F, 65_537), (M, 32_769), (G, 65_537), (G, u32::MAX)] {
            assert_eq!(printed(&header(what, &[size])), "toolarge\n", "{what}");
        }
        let most = [(F, 65_536), (M, 32_768), (G, 65_536)];
        assert_eq!(printed(&header(what, &most)), "short\n", "{what}");
        // A shorter header is short, whatever its sizes.
        let past = header(what, &[(F, u32::MAX), (G, u32::MAX)]);
        assert_eq!(printed(&past[..319]), "short\n");
        assert_eq!(printed(&past[..112]), "short\n");
    }
    let mut stream = long_bytes(&long(Call::Run));
    stream.extend(header(17, &[(G, 65_537)]));
    stream.extend(long_bytes(&long(Call::Run)));
    assert_eq!(printed(&stream), format!("{}\ntoolarge\n", long_run_line()));
}

/// R is judged for a join alone, L for a decoded run alone; the budget has 32 bits.
#[test]
fn sizes_that_are_not_used() {
    assert_eq!(printed(&header(17, &[(R, 65_537)])), "toolarge\n");
    assert!(printed(&header(17, &[(R, 65_536)])).starts_with("refused1 0 "));
    assert!(printed(&header(17, &[(R, 0), (L, u32::MAX)])).starts_with("refused1 0 "));
    let large = [(R, u32::MAX), (L, u32::MAX), (8, u32::MAX)];
    assert!(printed(&header(16, &large)).starts_with("refused1 0 "));
    for what in [18, 19, 20, 255] {
        assert_eq!(printed(&header(what, &large)), "unknown\n");
    }
    assert_eq!(printed(&header(21, &[(L, 65_537)])), "toolarge\n");
    assert_eq!(printed(&header(21, &[(L, u32::MAX)])), "toolarge\n");
    let most = [(R, u32::MAX), (L, 65_536), (8, u32::MAX)];
    assert!(printed(&header(21, &most)).starts_with("refused1 0 "));
}

#[test]
fn sizes_at_the_limits_are_carried_out() {
    let most = [(F, 65_536), (M, 32_768), (G, 65_536), (R, 65_536)];
    let mut stream = header(17, &most);
    stream.extend(vec![0; 3 * 65_536]);
    let line = printed(&stream);
    assert!(line.starts_with("refused1 0 "), "{line}");
}

#[test]
fn any_bytes_are_a_stream() {
    let mut random = Random::new(70);
    for call in [Call::Run, Call::Join, Call::Decoded, Call::Unknown(20)] {
        let base = long_bytes(&long(call));
        for _ in 0..5_000 {
            let mut stream = altered(&base, &mut random);
            // Budgets stay small, so that no run is long.
            stream[9..12].fill(0);
            assert!(printed(&stream).ends_with('\n'));
        }
    }
}
