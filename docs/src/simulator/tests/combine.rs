//! The call `combine`, worked out from the wish and the accumulator rules.

use simulator::combine;
use simulator::combine::{Board, Boards, Combined};
use simulator::mode::Mode;

const OFF: Mode = Mode(0x0000);
const NARROW: Mode = Mode(0x0080);
const WIDE: Mode = Mode(0x0090);
/// ACCSAT 1 with saturation off: the limits are those of 40 bits.
const OFF_WIDE: Mode = Mode(0x0010);
const ALL: [Mode; 4] = [OFF, OFF_WIDE, NARROW, WIDE];

const P31: i64 = 2_147_483_648;
const P39: i64 = 549_755_813_888;

/// Entries past the count hold what would be refused and seen.
fn room(used: &[(i64, bool)]) -> Boards {
    let mut boards = [Board {
        a: i64::MAX,
        sa: true,
    }; 8];
    for (board, &(a, sa)) in boards.iter_mut().zip(used) {
        *board = Board { a, sa };
    }
    boards
}

fn of(sums: &[i64], mode: Mode) -> Result<Combined, u8> {
    let used: Vec<(i64, bool)> = sums.iter().map(|&a| (a, false)).collect();
    combine(&room(&used), sums.len() as u32, mode)
}

fn answer(a: i64, oa: bool, sa: bool) -> Result<Combined, u8> {
    Ok(Combined { a, oa, sa })
}

#[test]
fn two_to_eight_are_added() {
    for count in 2..=8 {
        let sums: Vec<i64> = (1..=count).collect();
        for mode in ALL {
            assert_eq!(
                of(&sums, mode),
                answer(count * (count + 1) / 2, false, false)
            );
        }
    }
}

#[test]
fn other_numbers_are_refused_with_13() {
    let boards = room(&[(1, false); 8]);
    for count in [0, 1, 9, 10, 256 + 2, 65_536 + 2, u32::MAX] {
        assert_eq!(combine(&boards, count, OFF), Err(13));
    }
}

#[test]
fn beyond_40_bits_is_14() {
    for place in 0..3 {
        for (a, is_good) in [
            (P39 - 1, true),
            (P39, false),
            (-P39, true),
            (-P39 - 1, false),
            (i64::MAX, false),
            (i64::MIN, false),
        ] {
            let mut sums = [0; 3];
            sums[place] = a;
            let due = if is_good {
                answer(a, true, false)
            } else {
                Err(14)
            };
            assert_eq!(of(&sums, OFF), due);
        }
    }
}

#[test]
fn the_order_is_13_14_7() {
    let bad = Mode(0x3000);
    assert_eq!(of(&[P39], bad), Err(13));
    assert_eq!(of(&[P39], OFF), Err(13));
    assert_eq!(of(&[0], bad), Err(13));
    assert_eq!(of(&[], bad), Err(13));
    assert_eq!(of(&[0, 0, P39], bad), Err(14));
    assert_eq!(of(&[0, 0, 0], bad), Err(7));
    let boards = room(&[(P39, false); 8]);
    assert_eq!(combine(&boards, 9, bad), Err(13));
}

/// Bits 2, 3, 8 to 11, 14, 15 and US 2 and 3 are bad; US 1 is good.
#[test]
fn bad_mode_words_are_7() {
    for word in 0..=u16::MAX {
        let bits = [2, 3, 8, 9, 10, 11, 14, 15];
        let is_bad = bits.iter().any(|bit| word >> bit & 1 == 1) || word >> 12 & 3 >= 2;
        assert_eq!(of(&[1, 2], Mode(word)) == Err(7), is_bad, "{word:04X}");
    }
}

/// The good bits but SATA and ACCSAT do not matter.
#[test]
fn other_bits_of_the_mode_word_are_not_used() {
    let lists: [&[i64]; 4] = [&[P31 - 1, 1, -1], &[P39 - 1, 1], &[-P31, -1], &[3, 4]];
    for word in (0..=0x10F3).filter(|&word| Mode(word).is_good()) {
        for list in lists {
            let own = of(list, Mode(word & 0x0090));
            assert_eq!(of(list, Mode(word)), own, "{word:04X}");
        }
    }
}

#[test]
fn entries_past_the_count_are_not_looked_at() {
    let mut boards = room(&[(1, false), (2, false)]);
    let due = answer(3, false, false);
    assert_eq!(combine(&boards, 2, OFF), due);
    boards[2].a = 4;
    assert_eq!(combine(&boards, 2, OFF), due);
    assert_eq!(combine(&boards, 3, OFF), answer(7, false, true));
}

/// The page's first sum: with 32 bits the second result leaves, 2^31 is kept as 2^31 - 1,
/// and -1 makes it 2^31 - 2. A total limited once would be 2^31 - 1 with SA clear.
#[test]
fn each_result_is_limited_before_the_next() {
    let list = [P31 - 1, 1, -1];
    assert_eq!(of(&list, NARROW), answer(P31 - 2, false, true));
    for mode in [OFF, OFF_WIDE, WIDE] {
        assert_eq!(of(&list, mode), answer(P31 - 1, false, false));
    }
}

/// The page's second sum: 0 + 2^31 leaves 32 bits, so that SA is set.
#[test]
fn the_first_result_is_limited_too() {
    assert_eq!(of(&[P31, -1], NARROW), answer(P31 - 2, false, true));
    assert_eq!(of(&[P31, -1], OFF), answer(P31 - 1, false, false));
    assert_eq!(of(&[-P31 - 1, 1], NARROW), answer(-P31 + 1, false, true));
    assert_eq!(of(&[P39 - 1, 0], NARROW), answer(P31 - 1, false, true));
}

#[test]
fn at_40_bits() {
    // Saturation on keeps the limit, off the low 40 bits read as signed.
    assert_eq!(of(&[P39 - 1, 1], WIDE), answer(P39 - 1, true, true));
    assert_eq!(of(&[-P39, -1], WIDE), answer(-P39, true, true));
    for mode in [OFF, OFF_WIDE] {
        assert_eq!(of(&[P39 - 1, 1], mode), answer(-P39, true, true));
        assert_eq!(of(&[-P39, -1], mode), answer(P39 - 1, true, true));
        // There and back: A is right, SA stays set.
        assert_eq!(of(&[P39 - 1, 1, -1], mode), answer(P39 - 1, true, true));
        assert_eq!(of(&[-P39, -P39], mode), answer(0, false, true));
        assert_eq!(of(&[-P39; 8], mode), answer(0, false, true));
    }
    assert_eq!(of(&[P39 - 1, 1, -1], WIDE), answer(P39 - 2, true, true));
}

#[test]
fn the_limits_themselves_are_within() {
    assert_eq!(of(&[P31 - 1, 0], NARROW), answer(P31 - 1, false, false));
    assert_eq!(of(&[-P31, 0], NARROW), answer(-P31, false, false));
    for mode in [OFF, OFF_WIDE, WIDE] {
        assert_eq!(of(&[P39 - 2, 1], mode), answer(P39 - 1, true, false));
        assert_eq!(of(&[-P39 + 1, -1], mode), answer(-P39, true, false));
    }
}

/// SATB on and SATA off: nothing saturates. SATA on and SATB off: A does.
#[test]
fn the_limits_are_those_of_a() {
    assert_eq!(of(&[P31 - 1, 1], Mode(0x0040)), answer(P31, true, false));
    assert_eq!(
        of(&[P31 - 1, 1], Mode(0x0080)),
        answer(P31 - 1, false, true)
    );
    assert_eq!(of(&[P39 - 1, 1], Mode(0x0050)), answer(-P39, true, true));
    assert_eq!(of(&[P39 - 1, 1], Mode(0x0090)), answer(P39 - 1, true, true));
}

#[test]
fn a_board_with_sa_sets_it() {
    for count in 2..=8 {
        for place in 0..count {
            let mut used = vec![(10, false); count];
            used[place].1 = true;
            let answered = combine(&room(&used), count as u32, NARROW);
            assert_eq!(answered, answer(10 * count as i64, false, true));
        }
    }
}

/// OA is that of the last sum.
#[test]
fn oa_is_redone_at_each_sum() {
    assert_eq!(of(&[P31, -1], OFF), answer(P31 - 1, false, false));
    assert_eq!(of(&[P31 - 1, 1], OFF), answer(P31, true, false));
    assert_eq!(of(&[-P31, -1], OFF), answer(-P31 - 1, true, false));
    assert_eq!(of(&[-P31 - 1, 1], OFF), answer(-P31, false, false));
    assert_eq!(of(&[P31 - 1, 1, -1, 1], WIDE), answer(P31, true, false));
    // 32 bits with saturation: A never overflows.
    assert_eq!(
        of(&[P39 - 1, P39 - 1], NARROW),
        answer(P31 - 1, false, true)
    );
}

/// Order matters: the same boards, SA clear or set.
#[test]
fn in_order() {
    assert_eq!(of(&[P31 - 1, -5, 5], NARROW), answer(P31 - 1, false, false));
    assert_eq!(of(&[P31 - 1, 5, -5], NARROW), answer(P31 - 6, false, true));
}
