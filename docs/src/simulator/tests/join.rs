//! The call `join`: its file, its room and its refusals, at their boundaries and in
//! their order.

mod common;
use common::*;
use simulator::{join, load as load_file, Ending};

/// A lent output of so many bytes, byte i holding i mod 251.
fn lent(room: usize) -> Vec<u8> {
    (0..room).map(|i| (i % 251) as u8).collect()
}

/// join's answer with so much room. Past what it says it wrote the output is as it
/// came; the written part.
fn joined_in(room: usize, first: &[u8], second: &[u8]) -> Result<Vec<u8>, u8> {
    let mut out = lent(room);
    let answer = join(first, second, &mut out);
    let kept = answer.unwrap_or(0);
    assert_eq!(out[kept..], lent(room)[kept..]);
    answer.map(|bytes| out[..bytes].to_vec())
}

fn joined(first: &[u8], second: &[u8]) -> Result<Vec<u8>, u8> {
    joined_in(40_000, first, second)
}

/// So many operations, no two alike: literal i to register i mod 14.
fn numbered(count: usize) -> Vec<Op> {
    (0..count).map(|i| lit((i % 14) as u8, i as u16)).collect()
}

/// The operations of a file as bytes, 8 each.
fn held(file: &[u8]) -> Vec<Op> {
    let mut out = vec![0; 8 * 4_032];
    let bytes = load_file(file, &mut out).expect("a file that loads");
    let operations = out[..bytes].chunks_exact(8);
    operations.map(|b| b.try_into().expect("eight")).collect()
}

// ---- the file

#[test]
fn two_operations_worked_out_by_hand() {
    let first = file_of(&[lit(4, 3)]);
    let second = file_of(&[lit(5, 0xFFFE)]);
    let mut due = vec![0; 512];
    due[2] = 2;
    due[8..24].copy_from_slice(&[16, 4, 3, 0, 0, 0, 0, 0, 16, 5, 0xFE, 0xFF, 0, 0, 0, 0]);
    // 2 + 16 + 4 + 3 + 16 + 5 + 254 + 255 = 555 = 2 x 256 + 43.
    (due[4], due[5]) = (43, 2);
    assert_eq!(joined(&first, &second), Ok(due));
}

#[test]
fn lasts_of_the_second_are_moved_and_nothing_else() {
    // Bytes 4 and 5 of other kinds, counts of 4 or 5 and registers 4, 5 are no lasts.
    let first = [do_lit(4, 2), IDLE, IDLE, IDLE];
    let others = [
        lit(4, 0x0504),
        mac(0, 0x54, 0x48, 0x4A, 0x54, 2),
        repeat(4),
        sac(0, 0, 5, 2),
        repeat_w(5),
        store(4, 5, 2),
    ];
    let second = [&[do_lit(5, 5), do_w(4, 3)], &others[..]].concat();
    let moved = [&[do_lit(5, 9), do_w(4, 7)], &others[..]].concat();
    let file = joined(&file_of(&first), &file_of(&second)).unwrap();
    assert_eq!(held(&file), [&first[..], &moved[..]].concat());
}

#[test]
fn the_largest_last_there_is() {
    let first = numbered(4_029);
    let second = [do_lit(0, 2), IDLE, IDLE];
    let file = joined(&file_of(&first), &file_of(&second)).unwrap();
    let held = held(&file);
    assert_eq!(held.len(), 4_032);
    assert_eq!(held[4_029], do_lit(0, 4_031));
    assert_eq!(held[4_029][4..6], [0xBF, 0x0F]);
}

/// Blocks are made anew: a count below 63 stands in the last alone.
#[test]
fn block_boundaries() {
    let counts = [1, 2, 61, 62, 63, 64, 125, 126, 127];
    for n1 in counts {
        for n2 in counts {
            let all = numbered(n1 + n2);
            let (first, second) = all.split_at(n1);
            let file = joined(&file_of(first), &file_of(second)).unwrap();
            assert_eq!(file, file_of(&all), "{n1} and {n2}");
            assert_eq!(file.len(), 512 * (n1 + n2).div_ceil(63));
        }
    }
}

#[test]
fn a_file_joined_with_itself() {
    let ops = [do_w(3, 2), IDLE, IDLE];
    let file = file_of(&ops);
    let twice = [&ops[..], &[do_w(3, 5), IDLE, IDLE]].concat();
    assert_eq!(joined(&file, &file), Ok(file_of(&twice)));
}

/// Three files give one and the same, whichever two are joined first.
#[test]
fn three_files_joined_in_either_order() {
    let files = [40, 30, 60].map(|count| {
        let loops = [do_lit(1, 2), IDLE, IDLE];
        file_of(&[&loops[..], &numbered(count)].concat())
    });
    let [a, b, c] = &files;
    let left = joined(&joined(a, b).unwrap(), c);
    assert_eq!(left, joined(a, &joined(b, c).unwrap()));
    assert_eq!(left.map(|file| file.len()), Ok(3 * 512));
}

// ---- room

#[test]
fn room_exact_short_and_ample() {
    for (n1, n2, needed) in [
        (1, 1, 512),
        (62, 1, 512),
        (63, 1, 1_024),
        (2_016, 2_016, 32_768),
    ] {
        let (first, second) = (file_of(&numbered(n1)), file_of(&numbered(n2)));
        let file = joined_in(needed, &first, &second).unwrap();
        assert_eq!(file.len(), needed);
        assert_eq!(joined_in(needed + 1, &first, &second), Ok(file.clone()));
        assert_eq!(joined_in(needed + 700, &first, &second), Ok(file));
        for room in [0, 1, 511, needed - 1] {
            assert_eq!(joined_in(room, &first, &second), Err(8), "{n1} {n2} {room}");
        }
    }
}

// ---- refusals

/// Files given 1, 2, 3, 4, 5, in this order.
fn bad_files() -> [Vec<u8>; 5] {
    let good = file_of(&[IDLE, IDLE]);
    let mut sum = good.clone();
    sum[4] ^= 1;
    let mut header = good.clone();
    header[3] = 1;
    set_sum(&mut header);
    [
        good[..511].to_vec(),
        sum,
        header,
        file_of(&[[26, 0, 0, 0, 0, 0, 0, 0]]),
        file_of(&[IDLE, repeat(3)]),
    ]
}

#[test]
fn each_refusal_of_either_file() {
    let good = file_of(&[IDLE]);
    for (bad, number) in bad_files().iter().zip(1..) {
        assert_eq!(joined(bad, &good), Err(number));
        assert_eq!(joined(&good, bad), Err(number));
        // Also without room.
        assert_eq!(joined_in(0, bad, &good), Err(number));
        assert_eq!(joined_in(0, &good, bad), Err(number));
    }
}

/// The first is checked whole before the second, whatever the numbers.
#[test]
fn both_bad_gives_the_firsts_number() {
    let files = bad_files();
    for (first, number) in files.iter().zip(1..) {
        for second in &files {
            assert_eq!(joined(first, second), Err(number));
        }
    }
}

#[test]
fn more_than_4032_together_is_9() {
    for n1 in [1, 63, 2_016, 4_031] {
        let first = file_of(&numbered(n1));
        let fits = file_of(&numbered(4_032 - n1));
        assert_eq!(joined(&first, &fits).map(|file| file.len()), Ok(32_768));
        let one_more = file_of(&numbered(4_033 - n1));
        assert_eq!(joined(&first, &one_more), Err(9));
        assert_eq!(joined_in(32_768, &first, &one_more), Err(9));
    }
    let most = file_of(&numbered(4_032));
    assert_eq!(joined(&most, &file_of(&[IDLE])), Err(9));
    assert_eq!(joined(&file_of(&[IDLE]), &most), Err(9));
    assert_eq!(joined(&most, &most), Err(9));
}

/// 9 comes after both files' numbers and before 8.
#[test]
fn the_order_of_9() {
    let most = file_of(&numbered(4_032));
    for (bad, number) in bad_files().iter().zip(1..) {
        assert_eq!(joined(&most, bad), Err(number));
        assert_eq!(joined(bad, &most), Err(number));
    }
    for room in [0, 1, 512, 32_767] {
        assert_eq!(joined_in(room, &most, &file_of(&[IDLE])), Err(9));
    }
}

/// The second's own places are judged, not those in the joined file.
#[test]
fn a_last_past_the_seconds_end_is_5() {
    let long = file_of(&numbered(100));
    let past = file_of(&[do_lit(0, 3), IDLE, IDLE]);
    assert_eq!(joined(&long, &past), Err(5));
    assert_eq!(joined(&past, &long), Err(5));
    // REPEAT at the first's end is no REPEAT before the second's first.
    let repeats = file_of(&[IDLE, repeat(1)]);
    assert_eq!(joined(&repeats, &long), Err(5));
}

#[test]
fn refusals_are_named_by_their_number() {
    for number in 1..=15 {
        let name = Ending::Refused(number).to_string();
        assert_eq!(name, format!("refused{number}"));
    }
    assert_eq!(Ending::Refused(9).to_string(), "refused9");
    assert_eq!(Ending::Refused(15).to_string(), "refused15");
}
