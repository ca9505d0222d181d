//! The call `combine` in a stream: its bytes, its line, files of another length.

mod common;
use common::*;
use simulator::cases::What;
use simulator::combine::Board;
use simulator::form::{bytes_of, forms_of, print_lines, Form};
use simulator::generate::boards::{combine_case, counted_case, cut_combine, random_combine};
use simulator::generate::random::Random;
use simulator::long::{long_bytes, long_line, Call};

fn printed(stream: &[u8]) -> String {
    let mut output = Vec::new();
    print_lines(stream, &mut output).unwrap();
    String::from_utf8(output).unwrap()
}

fn board(a: i64, sa: bool) -> Board {
    Board { a, sa }
}

/// 65,536 and -5, SA set on the second.
fn stretches() -> Vec<u8> {
    let first = [0, 0, 1, 0, 0, 0, 0, 0, 0];
    let second = [0xFB, 0xFF, 0xFF, 0xFF, 0xFF, 0xFF, 0xFF, 0xFF, 1];
    [first, second].concat()
}

/// A run that prints a line of its own.
fn run() -> Vec<u8> {
    bytes_of(&Form::Short(Bench::new().case(&[IDLE])))
}

const RUN: &str = "done 1 0 0 0000 1 0 0020 0 0:0 0:0 0:0 0:0 \
     0000 0000 0000 0000 0000 0000 0000 0000 0000 0000 0000 0000 0000 0000 0\n";

#[test]
fn the_bytes_are_laid_out_as_the_page_says() {
    let case = combine_case(&[board(65_536, false), board(-5, true)], 0x00A1);
    let bytes = long_bytes(&case);
    assert_eq!(bytes.len(), 320 + 18);
    assert_eq!(bytes[..12], [18, 0, 0, 0, 0, 0, 0, 0, 2, 0, 0, 0]);
    assert_eq!(bytes[108..112], [0xA1, 0, 0, 22]);
    let others = (12..108).chain(112..320);
    assert!(others.into_iter().all(|at| bytes[at] == 0));
    assert_eq!(bytes[320..], stretches());
    assert_eq!(forms_of(&bytes), [Form::Long(case.clone())]);
    assert_eq!((case.call, case.start.what), (Call::Combine, What::Run));
    assert_eq!(printed(&bytes), "combined 65531 0 1\n");
}

#[test]
fn lines() {
    let line = |sums: &[i64], mode| {
        let boards: Vec<Board> = sums.iter().map(|&a| board(a, false)).collect();
        long_line(&combine_case(&boards, mode))
    };
    assert_eq!(line(&[3, -5], 0), "combined -2 0 0");
    assert_eq!(line(&[2_147_483_647, 1], 0), "combined 2147483648 1 0");
    assert_eq!(line(&[2_147_483_647, 1], 0x80), "combined 2147483647 0 1");
    assert_eq!(line(&[549_755_813_887, 1], 0), "combined -549755813888 1 1");
    assert_eq!(line(&[], 0), "refused13");
    assert_eq!(line(&[1], 0x3000), "refused13");
    assert_eq!(line(&[549_755_813_888, 1], 0x3000), "refused14");
    assert_eq!(line(&[1, 1], 0x3000), "refused7");
    assert_eq!(line(&[1; 8], 0), "combined 8 0 0");
    assert_eq!(line(&[1; 9], 0), "refused13");
}

/// Any byte but 0 is a set SA.
#[test]
fn every_byte_of_a_flag() {
    for byte in 0..=255 {
        let mut stretches = stretches();
        stretches[17] = byte;
        let due = format!("combined 65531 0 {}", u8::from(byte != 0));
        assert_eq!(long_line(&counted_case(stretches, 2, 0)), due);
    }
}

/// n of 0, 1, 9 and as many as a file holds: 9 n bytes are a whole case, 13.
#[test]
fn other_numbers_of_stretches_are_refused_and_read_over() {
    for count in [0, 1, 9, 10, 255, 256, 7_281] {
        let stretches = vec![0x55; 9 * count];
        let mut stream = long_bytes(&counted_case(stretches, count as u32, 0xFFFF));
        stream.extend(run());
        assert_eq!(printed(&stream), format!("refused13\n{RUN}"), "{count}");
    }
}

/// A file of another length: `short`, and the next case follows.
#[test]
fn a_file_of_another_length_is_short() {
    // The last four: 9 n is 7 and 65,536 modulo 2^32, 18 modulo 2^31, 9 modulo 2^30.
    let numbers = [
        (17, 2),
        (19, 2),
        (0, 1),
        (0, 2),
        (18, 0),
        (18, 1),
        (18, 3),
        (18, 9),
        (1, 0),
        (9, 0),
        (80, 9),
        (82, 9),
        (0, u32::MAX),
        (18, u32::MAX),
        (65_529, u32::MAX),
        (65_536, 7_281),
        (65_536, 7_282),
        (7, 2_386_092_943),
        (65_536, 65_536_u32.wrapping_mul(954_437_177)),
        (18, 2 + 0x8000_0000),
        (9, 1 + 0x4000_0000),
    ];
    for (length, count) in numbers {
        let case = counted_case(vec![0; length], count, 0x0020);
        assert_eq!(long_line(&case), "short");
        let stream = [run(), long_bytes(&case), run()].concat();
        let due = format!("{RUN}short\n{RUN}");
        assert_eq!(printed(&stream), due, "{length} {count}");
        assert_eq!(forms_of(&stream).len(), 3);
    }
    assert_eq!(2_386_092_943_u32.wrapping_mul(9), 7);
}

/// The bytes of such a case are F, G and M as of any other, whatever its number; where
/// they break off the program ends.
#[test]
fn a_case_of_another_length_is_read_whole() {
    for (length, count) in [(17, 2), (19, 2), (0, 1), (0, u32::MAX), (512, 3_000)] {
        let mut case = counted_case(vec![0x55; length], count, 0xFFFF);
        case.second = (0..100).collect();
        case.start.memory = (0..77).collect();
        let bytes = long_bytes(&case);
        assert_eq!(bytes.len(), 320 + length + 100 + 154);
        let stream = [bytes.clone(), run(), bytes.clone(), run()].concat();
        let due = format!("short\n{RUN}").repeat(2);
        assert_eq!(printed(&stream), due, "{length} {count}");
        for left in 1..bytes.len() {
            let stream = [&run()[..], &bytes[..left]].concat();
            assert_eq!(printed(&stream), format!("{RUN}short\n"));
            assert_eq!(forms_of(&stream).len(), 1);
        }
        let stream = [&bytes[..], &bytes[..bytes.len() - 1]].concat();
        assert_eq!(printed(&stream), "short\nshort\n");
    }
}

/// Past 65,536 bytes it is `toolarge`, whatever the number; M and G too.
#[test]
fn toolarge_comes_first() {
    let header = |sizes: &[(usize, u32)]| {
        let mut bytes = long_bytes(&counted_case(Vec::new(), 0, 0x0020));
        for &(at, size) in sizes {
            bytes[at..at + 4].copy_from_slice(&size.to_le_bytes());
        }
        bytes
    };
    for (length, count) in [(65_537, 2), (65_538, 7_282), (u32::MAX, 477_218_588)] {
        let bytes = header(&[(0, length), (8, count)]);
        assert_eq!(printed(&bytes), "toolarge\n");
    }
    for size in [(4, 32_769), (260, 65_537)] {
        assert_eq!(printed(&header(&[size])), "toolarge\n");
        assert_eq!(printed(&header(&[size, (8, 7)])), "toolarge\n");
    }
    // L and R are not used, and not looked at.
    let unused = [(264, u32::MAX), (268, u32::MAX)];
    assert_eq!(printed(&header(&unused)), "refused13\n");
}

/// The second file and the words of memory are read over.
#[test]
fn the_next_case_begins_after_g_and_m() {
    let mut case = combine_case(&[board(1, false), board(2, false)], 0x0020);
    case.second = (0..100).collect();
    case.start.memory = (0..77).collect();
    let mut stream = long_bytes(&case);
    assert_eq!(stream.len(), 320 + 18 + 100 + 154);
    let whole = stream.len();
    stream.extend(run());
    assert_eq!(printed(&stream), format!("combined 3 0 0\n{RUN}"));
    for length in (1..=340).chain([437, 438, 439, whole - 1]) {
        assert_eq!(printed(&stream[..length]), "short\n", "{length}");
    }
}

/// Settings, registers, A, B, pc, loops, flags and the fields of other calls: any bytes.
#[test]
fn the_mode_word_alone_is_looked_at() {
    let mut random = Random::new(121);
    let bytes = long_bytes(&combine_case(
        &[board(65_536, false), board(-5, true)],
        0x00A0,
    ));
    for _ in 0..500 {
        let mut other = bytes.clone();
        for part in [12..108, 110..111, 112..260, 264..320] {
            other[part].fill_with(|| random.word() as u8);
        }
        assert_eq!(printed(&other), "combined 65531 0 1\n");
    }
}

/// Random cases and their bytes are read again, those of another length too.
#[test]
fn random_cases_are_read_again() {
    let mut random = Random::new(122);
    for _ in 0..3_000 {
        let case = random_combine(&mut random);
        let bytes = long_bytes(&case);
        assert_eq!(forms_of(&bytes), [Form::Long(case.clone())]);
        assert_eq!(printed(&bytes), long_line(&case) + "\n");
        let cut = cut_combine(&mut random);
        assert_eq!(long_line(&cut), "short");
        assert_eq!(forms_of(&long_bytes(&cut)), [Form::Long(cut.clone())]);
        let stream = [bytes, long_bytes(&cut), run()].concat();
        assert_eq!(printed(&stream), long_line(&case) + "\nshort\n" + RUN);
    }
}

#[test]
fn any_bytes_are_a_stream() {
    let mut random = Random::new(123);
    let base = long_bytes(&combine_case(&[board(1, false), board(2, true)], 0x0020));
    for _ in 0..5_000 {
        let stream = altered(&base, &mut random);
        assert!(printed(&stream).ends_with('\n'));
    }
}
