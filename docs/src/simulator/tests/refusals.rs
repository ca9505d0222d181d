//! Refusals 1 to 5 and 8 at their boundaries, and their order.

mod common;
use common::*;
use simulator::{load as load_file, write as write_file};

/// A call with plenty of room: past what it says it wrote, the lent slice is as
/// it came.
fn with_room(call: impl Fn(&mut [u8]) -> Result<usize, u8>) -> Result<usize, u8> {
    let mut out = vec![0xA5; 40_000];
    let answer = call(&mut out);
    let kept = answer.unwrap_or(0);
    assert!(out[kept..].iter().all(|&byte| byte == 0xA5));
    answer
}

fn loaded(file: &[u8]) -> Result<usize, u8> {
    with_room(|out| load_file(file, out))
}

fn written(bytes: &[u8]) -> Result<usize, u8> {
    with_room(|out| write_file(bytes, out))
}

/// One operation through loader, writer and run alike.
fn op_is_good(op: Op) -> bool {
    let ops = [op, IDLE, IDLE, IDLE];
    let answer = loaded(&file_of(&ops));
    let expected = if answer == Ok(32) { Ok(512) } else { answer };
    assert_eq!(written(&ops.concat()), expected);
    assert!(answer == Ok(32) || answer == Err(4), "{op:?} {answer:?}");
    if answer == Err(4) {
        Bench::new().refused(&ops, 4);
    }
    answer == Ok(32)
}

#[test]
fn refusal_1_whole_blocks_and_whole_operations() {
    let most = file_of(&vec![IDLE; 4_032]);
    assert_eq!(loaded(&most), Ok(32_256));
    let mut longer = most.clone();
    longer.extend(&most[..512]);
    assert_eq!(loaded(&longer), Err(1));
    for length in [0, 1, 511, 513, 1_023] {
        assert_eq!(loaded(&most[..length]), Err(1));
    }
    assert_eq!(written(&[]), Err(1));
    assert_eq!(written(&[16; 7]), Err(1));
    assert_eq!(written(&IDLE.repeat(4_032)), Ok(32_768));
    assert_eq!(written(&IDLE.repeat(4_033)), Err(1));
    // 1 before 4.
    assert_eq!(written(&[0; 9]), Err(1));
    assert_eq!(written(&vec![0; 8 * 4_033]), Err(1));
}

#[test]
fn refusal_2_every_byte_counts_in_the_sum() {
    let file = file_of(&vec![lit(3, 0xFFFF); 63]);
    for at in 0..512 {
        let mut bad = file.clone();
        bad[at] ^= 0x40;
        assert_eq!(loaded(&bad), Err(2), "{at}");
    }
    let sum = u16::from_le_bytes([file[4], file[5]]);
    assert_eq!(sum, 63 * (16 + 3 + 255 + 255) + 63);
}

#[test]
fn refusal_2_the_sum_is_modulo_65_536() {
    let mut file = vec![0xFF; 512];
    file[..8].copy_from_slice(&[0, 0, 63, 0, 0, 0, 0, 0]);
    let sum = 504 * 255 + 63 - 65_536;
    (file[4], file[5]) = ((sum % 256) as u8, (sum / 256) as u8);
    assert_eq!(loaded(&file), Err(4));
}

#[test]
fn refusal_3_number_count_and_zero_bytes() {
    let one = file_of(&[IDLE]);
    for (at, value) in [
        (0, 1),
        (1, 1),
        (2, 0),
        (3, 1),
        (6, 1),
        (7, 1),
        (16, 1),
        (511, 1),
    ] {
        let mut bad = one.clone();
        bad[at] = value;
        set_sum(&mut bad);
        assert_eq!(loaded(&bad), Err(3), "{at}");
    }
    let mut bad = one.clone();
    bad[2] = 64;
    set_sum(&mut bad);
    assert_eq!(loaded(&bad), Err(3));
    bad[2] = 255;
    set_sum(&mut bad);
    assert_eq!(loaded(&bad), Err(3));
    let full = file_of(&vec![IDLE; 63]);
    assert_eq!(loaded(&full), Ok(504));
    // 62 operations in a block before the last.
    let mut two = file_of(&vec![IDLE; 64]);
    assert_eq!(loaded(&two), Ok(512));
    two[2] = 62;
    two[504..512].fill(0);
    set_sum(&mut two);
    assert_eq!(loaded(&two), Err(3));
}

#[test]
fn refusal_3_block_numbers_count_from_zero() {
    let mut file = file_of(&vec![IDLE; 4_032]);
    assert_eq!(file[63 * 512], 63);
    file[63 * 512] = 62;
    set_sum(&mut file);
    assert_eq!(loaded(&file), Err(3));
    file[63 * 512] = 63;
    file[63 * 512 + 1] = 1;
    set_sum(&mut file);
    assert_eq!(loaded(&file), Err(3));
}

#[test]
fn a_count_above_the_operations_there_is_4() {
    let mut file = file_of(&[IDLE]);
    file[2] = 2;
    set_sum(&mut file);
    assert_eq!(loaded(&file), Err(4));
    // And a count below them is 3: bytes past it are not zero.
    let mut file = file_of(&[IDLE, IDLE]);
    file[2] = 1;
    set_sum(&mut file);
    assert_eq!(loaded(&file), Err(3));
}

#[test]
fn blocks_are_judged_one_by_one_2_then_3() {
    let file = file_of(&vec![IDLE; 64]);
    let mut bad = file.clone();
    bad[3] = 1;
    set_sum(&mut bad);
    bad[512 + 4] ^= 1;
    assert_eq!(loaded(&bad), Err(3));
    let mut bad = file.clone();
    bad[512 + 3] = 1;
    set_sum(&mut bad);
    bad[4] ^= 1;
    assert_eq!(loaded(&bad), Err(2));
    let mut bad = file.clone();
    bad[3] = 1;
    assert_eq!(loaded(&bad), Err(2));
    // A bad operation in block 0 comes after block 1's sum.
    let mut bad = file.clone();
    bad[8] = 0;
    set_sum(&mut bad);
    assert_eq!(loaded(&bad), Err(4));
    bad[512 + 4] ^= 1;
    assert_eq!(loaded(&bad), Err(2));
}

#[test]
fn all_of_4_comes_before_5() {
    assert_eq!(loaded(&file_of(&[do_lit(0, 9), IDLE, [0; 8]])), Err(4));
    assert_eq!(loaded(&file_of(&[do_lit(0, 9), IDLE, IDLE])), Err(5));
    assert_eq!(written(&[do_lit(0, 9), IDLE, [0; 8]].concat()), Err(4));
}

#[test]
fn the_order_goes_on_with_6_and_7() {
    let mut bench = Bench::sized(1, 1).pc(99);
    bench.refused(&[repeat(0)], 5);
    bench.refused(&[IDLE], 6);
    bench.memory = vec![0; 2];
    bench.refused(&[IDLE], 7);
}

#[test]
fn refusal_8_comes_last_and_needs_exact_room() {
    let file = file_of(&[IDLE, IDLE]);
    for room in 0..40 {
        let mut out = vec![0xA5; room];
        let answer = load_file(&file, &mut out);
        if room < 16 {
            assert_eq!((answer, out), (Err(8), vec![0xA5; room]));
        } else {
            assert_eq!(answer, Ok(16));
            assert_eq!(out[..16], [IDLE, IDLE].concat());
            assert!(out[16..].iter().all(|&byte| byte == 0xA5));
        }
    }
    assert_eq!(load_file(&file_of(&[repeat(0)]), &mut []), Err(5));
    for (count, needed) in [(1, 512), (63, 512), (64, 1_024), (126, 1_024), (127, 1_536)] {
        let operations = IDLE.repeat(count);
        let mut short = vec![0xA5; needed - 1];
        assert_eq!(write_file(&operations, &mut short), Err(8));
        assert_eq!(short, vec![0xA5; needed - 1]);
        let mut exact = vec![0xA5; needed];
        assert_eq!(write_file(&operations, &mut exact), Ok(needed));
        assert_eq!(exact, file_of(&vec![IDLE; count]));
    }
    assert_eq!(write_file(&repeat(0), &mut []), Err(5));
    assert_eq!(write_file(&[0; 8], &mut []), Err(4));
}

#[test]
fn refusal_4_kinds() {
    for kind in 0..=255_u8 {
        let mut op = IDLE;
        op[0] = kind;
        let all_zero_is_good = [1, 7, 8, 9, 10, 11, 12, 13, 14, 15, 16, 19, 20, 23, 24, 25];
        if kind == 21 || kind == 22 {
            assert_eq!(loaded(&file_of(&[op, IDLE])), Err(5));
        } else {
            assert_eq!(op_is_good(op), all_zero_is_good.contains(&kind), "{kind}");
        }
    }
}

/// Which values of byte `at` are good in an operation.
fn good_values(op: Op, at: usize) -> Vec<u8> {
    let with = |value| {
        let mut op = op;
        op[at] = value;
        op
    };
    (0..=255).filter(|&value| op_is_good(with(value))).collect()
}

fn nibbles(low: &[u8], high: &[u8]) -> Vec<u8> {
    let mut all: Vec<u8> = high
        .iter()
        .flat_map(|h| low.iter().map(move |l| l | h << 4))
        .collect();
    all.sort();
    all
}

const DATA: [u8; 4] = [4, 5, 6, 7];
const STEPS: [u8; 7] = [0, 1, 2, 3, 4, 5, 6];

#[test]
fn refusal_4_fields_of_kinds_1_to_7() {
    let ops = [
        clr(0, 0x48, 0x4A, 0x54, 0),
        mpy(0, 0x54, 0x48, 0x4A, 0x54),
        mac(0, 0x54, 0x48, 0x4A, 0x54, 0),
        msc(0, 0x54, 0x48, 0x4A, 0x54, 0),
        ed(0, 0x44, 0x48, 0x4A, 0x04),
        edac(0, 0x44, 0x48, 0x4A, 0x04),
        movsac(0, 0x48, 0x4A, 0x54, 0),
    ];
    for op in ops {
        let kind = op[0];
        assert_eq!(good_values(op, 1), [0, 1]);
        let factors = match kind {
            1 | 7 => vec![0],
            5 | 6 => vec![0x44, 0x55, 0x66, 0x77],
            _ => nibbles(&DATA, &DATA),
        };
        assert_eq!(good_values(op, 2), factors, "kind {kind}");
        let mut x = nibbles(&[8, 9], &STEPS);
        x.push(0x0C);
        x.sort();
        assert_eq!(good_values(op, 3), x, "kind {kind}");
        let mut y = nibbles(&[10, 11], &STEPS);
        y.push(0x0D);
        y.sort();
        assert_eq!(good_values(op, 4), y, "kind {kind}");
        let mut destinations = nibbles(&DATA, &DATA);
        destinations.retain(|byte| byte >> 4 != byte & 15);
        if kind == 5 || kind == 6 {
            destinations = DATA.to_vec();
        }
        assert_eq!(good_values(op, 5), destinations, "kind {kind}");
        let back: &[u8] = if [1, 3, 4, 7].contains(&kind) {
            &[0, 1, 2]
        } else {
            &[0]
        };
        assert_eq!(good_values(op, 6), back, "kind {kind}");
        assert_eq!(good_values(op, 7), [0]);
    }
}

#[test]
fn refusal_4_destinations_without_their_read() {
    assert_eq!(good_values(clr(0, 0, 0, 0, 0), 5), [0]);
    assert_eq!(good_values(clr(0, 0x48, 0, 4, 0), 5), DATA);
    assert_eq!(
        good_values(clr(0, 0, 0x4A, 0x40, 0), 5),
        [0x40, 0x50, 0x60, 0x70]
    );
    assert_eq!(good_values(movsac(0, 0, 0, 0, 0), 3), [0]);
    assert_eq!(good_values(mpy(0, 0x44, 0, 0, 0), 4), [0]);
    assert!(!op_is_good(ed(0, 0x44, 0, 0x4A, 4)));
    assert!(!op_is_good(ed(0, 0x44, 0x48, 0, 4)));
    assert!(!op_is_good(edac(0, 0x44, 0, 0, 0)));
}

#[test]
fn refusal_4_fields_of_kinds_8_to_18() {
    let registers: Vec<u8> = (0..=13).collect();
    let (targets, zero) = (vec![0, 1], vec![0]);
    let any: Vec<u8> = (0..=255).collect();
    let shifts: Vec<u8> = (0..=15).collect();
    for kind in 8..=18_u8 {
        let mut op = [kind, 0, 0, 0, 0, 0, 0, 0];
        if kind >= 17 {
            op[4] = 1;
        }
        let b1 = if kind < 16 { &targets } else { &registers };
        let b2 = match kind {
            12..=15 => &shifts,
            16 => &any,
            _ => &zero,
        };
        let b3 = match kind {
            8..=10 => &zero,
            16 => &any,
            _ => &registers,
        };
        let b4: &[u8] = match kind {
            12..=15 => &[0, 1, 2, 3],
            17 | 18 => &[1, 2, 3],
            _ => &[0],
        };
        assert_eq!(&good_values(op, 1), b1, "kind {kind}");
        assert_eq!(&good_values(op, 2), b2, "kind {kind}");
        assert_eq!(&good_values(op, 3), b3, "kind {kind}");
        assert_eq!(good_values(op, 4), b4, "kind {kind}");
        for at in 5..8 {
            assert_eq!(good_values(op, at), zero, "kind {kind}");
        }
    }
}

#[test]
fn refusal_4_fields_of_kinds_19_to_25() {
    let registers: Vec<u8> = (0..=13).collect();
    let any: Vec<u8> = (0..=255).collect();
    let seven_bits: Vec<u8> = (0..=127).collect();
    let zero = vec![0];
    for (kind, b1, b2, b3) in [
        (19, &zero, &any, &seven_bits),
        (20, &registers, &zero, &zero),
        (23, &zero, &zero, &zero),
        (25, &zero, &zero, &zero),
    ] {
        let op = [kind, 0, 0, 0, 0, 0, 0, 0];
        assert_eq!(&good_values(op, 1), b1, "kind {kind}");
        assert_eq!(&good_values(op, 2), b2, "kind {kind}");
        assert_eq!(&good_values(op, 3), b3, "kind {kind}");
        for at in 4..8 {
            assert_eq!(good_values(op, at), zero, "kind {kind}");
        }
    }
    for (op, b1, b2, b3) in [
        (do_lit(0, 2), &zero, &any, &seven_bits),
        (do_w(0, 2), &registers, &zero, &zero),
    ] {
        assert_eq!(&good_values(op, 1), b1);
        assert_eq!(&good_values(op, 2), b2);
        assert_eq!(&good_values(op, 3), b3);
        assert_eq!(good_values(op, 6), zero);
        assert_eq!(good_values(op, 7), zero);
    }
    for word in 0..=0xFFFF_u16 {
        let good = word & 0xEF0C == 0;
        let op = mode(word);
        assert_eq!(simulator::decode::decode(&op).is_some(), good, "{word:04X}");
    }
    assert!(op_is_good(mode(0x10F3)));
    assert!(!op_is_good(mode(0x2000)));
    assert!(!op_is_good(mode(0x3000)));
}

fn placed(ops: &[Op]) -> bool {
    let answer = loaded(&file_of(ops));
    let expected = answer.map(|bytes| 512 * (bytes / 8).div_ceil(63));
    assert_eq!(written(&ops.concat()), expected);
    match answer {
        Ok(_) => true,
        Err(5) => false,
        Err(other) => panic!("refused {other}"),
    }
}

#[test]
fn refusal_5_do_last_in_its_range() {
    for last in 0..12 {
        let mut ops = vec![IDLE; 8];
        ops[3] = do_lit(1, last);
        assert_eq!(placed(&ops), (5..=7).contains(&last), "{last}");
        ops[3] = do_w(1, last);
        assert_eq!(placed(&ops), (5..=7).contains(&last), "{last}");
    }
    let mut ops = vec![IDLE; 8];
    ops[3] = do_lit(1, 0xFFFF);
    assert!(!placed(&ops));
}

#[test]
fn refusal_5_an_inner_last_is_below_the_outers() {
    let nest = |outer: u16, at: usize, inner: u16| {
        let mut ops = vec![IDLE; 12];
        ops[1] = do_lit(1, outer);
        ops[at] = do_lit(1, inner);
        placed(&ops)
    };
    assert!(nest(8, 3, 7));
    assert!(!nest(8, 3, 8));
    assert!(!nest(8, 3, 9));
    // A DO in the outer's last place is inside.
    assert!(!nest(8, 8, 10));
    // Right after it, it is not.
    assert!(nest(8, 9, 11));
    assert!(nest(8, 2, 4));
    assert!(!nest(8, 7, 9));
}

#[test]
fn refusal_5_a_third_loop_is_held_against_every_outer_one() {
    let mut ops = vec![IDLE; 14];
    ops[0] = do_lit(1, 12);
    ops[1] = do_lit(1, 5);
    ops[7] = do_lit(1, 12);
    assert!(!placed(&ops));
    ops[7] = do_lit(1, 11);
    assert!(placed(&ops));
    ops[7] = do_lit(1, 13);
    assert!(!placed(&ops));
}

#[test]
fn refusal_5_more_than_four_nested_loops_are_accepted() {
    let depth = 20;
    let mut ops: Vec<Op> = (0..depth).map(|n| do_lit(0, 2 * depth + 1 - n)).collect();
    ops.resize(2 * depth as usize + 2, IDLE);
    assert!(placed(&ops));
}

#[test]
fn refusal_5_repeat_in_last_places() {
    for op in [repeat(1), repeat_w(1)] {
        assert!(!placed(&[op]));
        assert!(!placed(&[IDLE, op]));
        assert!(placed(&[op, IDLE]));
        let mut ops = vec![IDLE; 8];
        ops[0] = do_lit(1, 6);
        ops[1] = do_lit(1, 4);
        for at in 2..8 {
            let mut ops = ops.clone();
            ops[at] = op;
            assert_eq!(placed(&ops), ![4, 6, 7].contains(&at), "{at}");
        }
    }
}

#[test]
fn refusal_5_repeat_before_kinds_19_to_22() {
    let followers = [
        (repeat(1), false),
        (repeat_w(1), false),
        (do_lit(1, 3), false),
        (do_w(1, 3), false),
        (END_EARLY, true),
        (mode(0), true),
        (CLEAR_S, true),
        (store(1, 2, 2), true),
        (mac(0, 0x44, 0, 0, 0, 0), true),
    ];
    for (follower, good) in followers {
        for op in [repeat(1), repeat_w(1)] {
            assert_eq!(placed(&[op, follower, IDLE, IDLE, IDLE]), good);
        }
    }
}
