//! Wrong versions of wish 11, and what notices each: wrong calls by stored cases and by
//! the statement's points, wrong statements by a sum that breaks them.

mod common;
use common::*;
use std::collections::BTreeSet;
use std::sync::OnceLock;

use simulator::accumulator::{keep, limits};
use simulator::combine;
use simulator::combine::{Board, Boards, Combined};
use simulator::combine_form::{answer_line, boards_of};
use simulator::form::{forms_of, Form};
use simulator::generate::long_sums::{free_sum, listed_sum};
use simulator::generate::random::Random;
use simulator::long::Call;
use simulator::mode::Mode;
use simulator::operation::Target;
use simulator::stretches::*;
use simulator::words::signed_40;
use simulator::Ending;

type Answer = Result<Combined, u8>;

// ---- wrong calls

/// A stored case that comes to the call, and the line for it.
struct Stored {
    boards: Boards,
    count: u32,
    mode: Mode,
    line: String,
}

fn stored() -> &'static [Stored] {
    static STORED: OnceLock<Vec<Stored>> = OnceLock::new();
    STORED.get_or_init(|| {
        let lines = String::from_utf8(stored_case_files("stdout")).unwrap();
        let forms = forms_of(&stored_case_files("stdin"));
        let cases = forms.into_iter().zip(lines.lines());
        let cases = cases.filter(|(_, line)| *line != "short");
        let combined = cases.filter_map(|(form, line)| match form {
            Form::Long(long) if long.call == Call::Combine => Some(Stored {
                boards: boards_of(&long.start.file),
                count: long.start.budget,
                mode: long.start.state.mode,
                line: line.to_string(),
            }),
            _ => None,
        });
        combined.collect()
    })
}

/// Stored cases whose line is another with a wrong call.
fn stored_notices(wrong: Combine) -> usize {
    let cases = stored().iter();
    cases
        .filter(|case| answer_line(wrong(&case.boards, case.count, case.mode)) != case.line)
        .count()
}

/// Two thousand random sums.
fn sums() -> &'static [Ended] {
    static SUMS: OnceLock<Vec<Ended>> = OnceLock::new();
    SUMS.get_or_init(|| {
        let mut random = Random::new(124);
        let sum = |number: usize| match number % 2 {
            0 => Ended::of(&listed_sum(&mut random)),
            _ => Ended::of(&free_sum(&mut random)),
        };
        (0..2_000).map(sum).collect()
    })
}

/// Points that notice a wrong call on random sums.
fn points(wrong: Combine) -> BTreeSet<Point> {
    let faults = sums().iter().flat_map(|sum| sum.faults(wrong));
    faults.collect()
}

/// A wrong call is noticed by a stored case, and by these points.
fn is_noticed(name: &str, wrong: Combine, by: &[Point]) {
    let (cases, points) = (stored_notices(wrong), points(wrong));
    println!("{name}: {cases} stored cases, {points:?}");
    assert!(cases > 0, "{name}");
    assert_eq!(points, by.iter().copied().collect(), "{name}");
}

const ANSWER: &[Point] = &[Point::Answer];
const BOTH: &[Point] = &[Point::Answer, Point::Exact];

#[test]
fn the_right_call_is_not_noticed() {
    assert_eq!(stored_notices(combine), 0);
    assert_eq!(points(combine), BTreeSet::new());
}

fn used(boards: &Boards, count: u32) -> &[Board] {
    &boards[..count as usize]
}

fn any_sa(boards: &[Board]) -> bool {
    boards.iter().any(|board| board.sa)
}

/// Refusals as they are, then another fold: from a start, with each board.
fn folded(
    boards: &Boards,
    count: u32,
    mode: Mode,
    fold: impl FnOnce(&[Board]) -> Combined,
) -> Answer {
    combine(boards, count, mode)?;
    Ok(fold(used(boards, count)))
}

/// A fold by these limits, from these first numbers.
fn limited(first: Combined, boards: &[Board], mode: Mode, target: Target) -> Combined {
    boards.iter().fold(first, |sum, board| {
        let kept = keep(sum.a + board.a, mode, target);
        Combined {
            a: kept.value,
            oa: kept.overflow,
            sa: sum.sa | kept.left,
        }
    })
}

fn zero(sa: bool) -> Combined {
    Combined {
        a: 0,
        oa: false,
        sa,
    }
}

/// It fulfils the theorem: a total within the limits is exact.
#[test]
fn the_exact_total_limited_once() {
    is_noticed(
        "limited once",
        |boards, count, mode| {
            folded(boards, count, mode, |used| {
                let kept = keep(used.iter().map(|board| board.a).sum(), mode, Target::A);
                Combined {
                    a: kept.value,
                    oa: kept.overflow,
                    sa: any_sa(used) | kept.left,
                }
            })
        },
        ANSWER,
    );
}

/// So does a start from the first board's A, which its own run has kept within them.
#[test]
fn the_first_sum_not_limited() {
    let wrong: Combine = |boards, count, mode| {
        folded(boards, count, mode, |used| {
            let first = Combined {
                a: used[0].a,
                oa: false,
                sa: any_sa(used),
            };
            limited(first, &used[1..], mode, Target::A)
        })
    };
    // No run under the mode word leaves such an A with SA clear.
    assert!(stored_notices(wrong) > 0);
    assert_eq!(points(wrong), BTreeSet::new());
    let boards = boards_with(&[1 << 31, -1]);
    let right = combine(&boards, 2, Mode(0x0080)).map(|sum| sum.sa);
    let wronged = wrong(&boards, 2, Mode(0x0080)).map(|sum| sum.sa);
    assert_eq!((right, wronged), (Ok(true), Ok(false)));
}

fn boards_with(sums: &[i64]) -> Boards {
    let mut boards = [Board::NONE; 8];
    for (board, &a) in boards.iter_mut().zip(sums) {
        board.a = a;
    }
    boards
}

#[test]
fn sa_not_taken_from_the_boards() {
    is_noticed(
        "SA from 0",
        |boards, count, mode| {
            folded(boards, count, mode, |used| {
                limited(zero(false), used, mode, Target::A)
            })
        },
        BOTH,
    );
}

/// SA of the first board alone, of the last alone, of all of them.
#[test]
fn sa_taken_from_some_boards() {
    is_noticed(
        "SA of the first",
        |boards, count, mode| {
            folded(boards, count, mode, |used| {
                limited(zero(used[0].sa), used, mode, Target::A)
            })
        },
        BOTH,
    );
    is_noticed(
        "SA of the last",
        |boards, count, mode| {
            folded(boards, count, mode, |used| {
                limited(zero(used[used.len() - 1].sa), used, mode, Target::A)
            })
        },
        BOTH,
    );
    is_noticed(
        "SA of all",
        |boards, count, mode| {
            folded(boards, count, mode, |used| {
                let all = used.iter().all(|board| board.sa);
                limited(zero(all), used, mode, Target::A)
            })
        },
        BOTH,
    );
}

/// Boards past the count are a caller's own, which no stream can hold: what notices is
/// the call with entries past the count.
#[test]
fn entries_past_the_count() {
    let all_sa: Combine = |boards, count, mode| {
        let sum = combine(boards, count, mode)?;
        let sa = sum.sa | any_sa(boards);
        Ok(Combined { sa, ..sum })
    };
    let all_a: Combine = |boards, count, mode| {
        let beyond = |board: &Board| signed_40(board.a) != board.a;
        match combine(boards, count, mode) {
            Err(13) => Err(13),
            _ if boards.iter().any(beyond) => Err(14),
            answer => answer,
        }
    };
    let all_added: Combine = |boards, count, mode| {
        combine(boards, count, mode)?;
        combine(boards, 8, mode)
    };
    let mut boards = boards_with(&[1, 2]);
    (boards[2].sa, boards[7].a) = (true, 1 << 39);
    let right = Ok(Combined {
        a: 3,
        oa: false,
        sa: false,
    });
    assert_eq!(combine(&boards, 2, Mode(0)), right);
    assert_eq!(all_sa(&boards, 2, Mode(0)).map(|sum| sum.sa), Ok(true));
    assert_eq!(all_a(&boards, 2, Mode(0)), Err(14));
    boards[7].a = 9;
    assert_eq!(combine(&boards, 2, Mode(0)), right);
    assert_eq!(all_added(&boards, 2, Mode(0)).map(|sum| sum.a), Ok(12));
}

#[test]
fn the_limits_of_b() {
    is_noticed(
        "limits of B",
        |boards, count, mode| {
            folded(boards, count, mode, |used| {
                limited(zero(any_sa(used)), used, mode, Target::B)
            })
        },
        ANSWER,
    );
}

/// A fold that keeps results by another rule.
fn by_rule(
    boards: &Boards,
    count: u32,
    mode: Mode,
    keep: fn(i64, (i64, i64)) -> (i64, bool),
) -> Answer {
    let range = limits(mode, Target::A);
    folded(boards, count, mode, |used| {
        let first = zero(any_sa(used));
        used.iter().fold(first, |sum, board| {
            let (a, left) = keep(sum.a + board.a, range);
            Combined {
                a,
                oa: i64::from(a as i32) != a,
                sa: sum.sa | left,
            }
        })
    })
}

#[test]
fn other_ways_of_keeping_a_sum() {
    // Saturation off, and the limit is kept all the same; it fulfils the theorem.
    is_noticed(
        "always saturating",
        |boards, count, mode| {
            by_rule(boards, count, mode, |exact, (low, high)| {
                (exact.clamp(low, high), exact < low || exact > high)
            })
        },
        ANSWER,
    );
    // Saturation on, and the low bits are kept; so does it.
    is_noticed(
        "never saturating",
        |boards, count, mode| {
            by_rule(boards, count, mode, |exact, (low, high)| {
                (signed_40(exact), exact < low || exact > high)
            })
        },
        ANSWER,
    );
    // The exact sum is kept and SA is set: an A beyond 40 bits.
    is_noticed(
        "exact",
        |boards, count, mode| {
            by_rule(boards, count, mode, |exact, (low, high)| {
                (exact, exact < low || exact > high)
            })
        },
        ANSWER,
    );
    // A limit is left when it is reached.
    is_noticed(
        "at the limit",
        |boards, count, mode| {
            by_rule(boards, count, mode, |exact, (low, high)| {
                (exact.clamp(low, high), exact <= low || exact >= high)
            })
        },
        ANSWER,
    );
    // A sum modulo 2^40 and no SA: too weak a theorem would let it pass.
    is_noticed(
        "modulo 2^40",
        |boards, count, mode| by_rule(boards, count, mode, |exact, _| (signed_40(exact), false)),
        BOTH,
    );
}

/// ACCSAT not looked at: always the limits of 40 bits, always those of 32 bits.
#[test]
fn other_limits() {
    is_noticed(
        "always 40 bits",
        |boards, count, mode| {
            folded(boards, count, mode, |used| {
                limited(zero(any_sa(used)), used, Mode(mode.0 | 0x0010), Target::A)
            })
        },
        ANSWER,
    );
    is_noticed(
        "always 32 bits",
        |boards, count, mode| {
            folded(boards, count, mode, |used| {
                limited(zero(any_sa(used)), used, Mode(mode.0 & !0x0010), Target::A)
            })
        },
        ANSWER,
    );
    is_noticed(
        "32 bits without saturation",
        |boards, count, mode| {
            by_rule(boards, count, mode, |exact, (low, high)| {
                let kept = i64::from(exact as i32);
                (kept.clamp(low, high), kept != exact)
            })
        },
        ANSWER,
    );
}

#[test]
fn sa_that_does_not_stay() {
    is_noticed(
        "SA of the last sum",
        |boards, count, mode| {
            folded(boards, count, mode, |used| {
                let first = zero(any_sa(used));
                used.iter().fold(first, |sum, board| {
                    let kept = keep(sum.a + board.a, mode, Target::A);
                    Combined {
                        a: kept.value,
                        oa: kept.overflow,
                        sa: any_sa(used) | kept.left,
                    }
                })
            })
        },
        BOTH,
    );
}

#[test]
fn oa_of_something_else() {
    is_noticed(
        "OA of any sum",
        |boards, count, mode| {
            folded(boards, count, mode, |used| {
                let first = zero(any_sa(used));
                used.iter().fold(first, |sum, board| {
                    let kept = keep(sum.a + board.a, mode, Target::A);
                    Combined {
                        a: kept.value,
                        oa: sum.oa | kept.overflow,
                        sa: sum.sa | kept.left,
                    }
                })
            })
        },
        ANSWER,
    );
    is_noticed(
        "OA of the exact total",
        |boards, count, mode| {
            let sum = combine(boards, count, mode)?;
            let total: i64 = used(boards, count).iter().map(|board| board.a).sum();
            let oa = i64::from(total as i32) != total;
            Ok(Combined { oa, ..sum })
        },
        ANSWER,
    );
    is_noticed(
        "OA never set",
        |boards, count, mode| {
            let sum = combine(boards, count, mode)?;
            Ok(Combined { oa: false, ..sum })
        },
        ANSWER,
    );
}

/// Other boards added, or in another order.
#[test]
fn other_sums() {
    is_noticed(
        "the last left out",
        |boards, count, mode| {
            folded(boards, count, mode, |used| {
                let (_, others) = used.split_last().expect("boards");
                limited(zero(any_sa(used)), others, mode, Target::A)
            })
        },
        BOTH,
    );
    is_noticed(
        "two alone",
        |boards, count, mode| {
            folded(boards, count, mode, |used| {
                limited(zero(any_sa(used)), &used[..2], mode, Target::A)
            })
        },
        BOTH,
    );
    is_noticed(
        "doubled",
        |boards, count, mode| {
            let mut doubled = *boards;
            let double = |board: &mut Board| board.a = signed_40(board.a.wrapping_mul(2));
            doubled.iter_mut().for_each(double);
            combine(boards, count, mode)?;
            combine(if mode.doubles() { &doubled } else { boards }, count, mode)
        },
        BOTH,
    );
    // It fulfils the theorem.
    is_noticed(
        "the last first",
        |boards, count, mode| {
            folded(boards, count, mode, |used| {
                let turned: Vec<Board> = used.iter().rev().copied().collect();
                limited(zero(any_sa(used)), &turned, mode, Target::A)
            })
        },
        ANSWER,
    );
}

// ---- wrong refusals: no accepted sum notices them, stored cases do

/// A count's refusal, an A's and a mode word's, in this order; the fold otherwise.
fn refusing(
    (boards, count, mode): (&Boards, u32, Mode),
    counts: std::ops::RangeInclusive<u32>,
    sums: std::ops::RangeInclusive<i64>,
    is_good: fn(Mode) -> bool,
    order: [u8; 3],
) -> Answer {
    let entries = &boards[..count.min(8) as usize];
    for number in order {
        let refused = match number {
            13 => !counts.contains(&count),
            14 => !entries.iter().all(|board| sums.contains(&board.a)),
            _ => !is_good(mode),
        };
        if refused {
            return Err(number);
        }
    }
    let first = zero(any_sa(entries));
    Ok(limited(first, entries, mode, Target::A))
}

const COUNTS: std::ops::RangeInclusive<u32> = 2..=8;
const SUMS: std::ops::RangeInclusive<i64> = -(1 << 39)..=(1 << 39) - 1;
const ORDER: [u8; 3] = [13, 14, 7];

/// The same parts make up the right call.
#[test]
fn the_right_refusals() {
    let right: Combine = |b, c, m| refusing((b, c, m), COUNTS, SUMS, Mode::is_good, ORDER);
    assert_eq!(stored_notices(right), 0);
    assert_eq!(points(right), BTreeSet::new());
}

#[test]
fn other_orders_of_refusals() {
    let orders: [(&str, Combine); 5] = [
        ("14 before 13", |b, c, m| {
            refusing((b, c, m), COUNTS, SUMS, Mode::is_good, [14, 13, 7])
        }),
        ("7 before 14", |b, c, m| {
            refusing((b, c, m), COUNTS, SUMS, Mode::is_good, [13, 7, 14])
        }),
        ("7 before 13", |b, c, m| {
            refusing((b, c, m), COUNTS, SUMS, Mode::is_good, [7, 13, 14])
        }),
        ("14, 7, 13", |b, c, m| {
            refusing((b, c, m), COUNTS, SUMS, Mode::is_good, [14, 7, 13])
        }),
        ("7, 14, 13", |b, c, m| {
            refusing((b, c, m), COUNTS, SUMS, Mode::is_good, [7, 14, 13])
        }),
    ];
    for (name, wrong) in orders {
        is_noticed(name, wrong, &[]);
    }
}

#[test]
fn other_counts() {
    is_noticed(
        "8 refused",
        |b, c, m| refusing((b, c, m), 2..=7, SUMS, Mode::is_good, ORDER),
        BOTH,
    );
    is_noticed(
        "2 refused",
        |b, c, m| refusing((b, c, m), 3..=8, SUMS, Mode::is_good, ORDER),
        BOTH,
    );
    is_noticed(
        "1 accepted",
        |b, c, m| refusing((b, c, m), 1..=8, SUMS, Mode::is_good, ORDER),
        &[],
    );
    is_noticed(
        "0 accepted",
        |b, c, m| match c {
            0 => Ok(zero(false)),
            _ => combine(b, c, m),
        },
        &[],
    );
    is_noticed(
        "9 accepted",
        |b, c, m| refusing((b, c, m), 2..=9, SUMS, Mode::is_good, ORDER),
        &[],
    );
    is_noticed("a count of 8 bits", |b, c, m| combine(b, c % 256, m), &[]);
}

#[test]
fn other_ranges_of_a() {
    const P39: i64 = 1 << 39;
    is_noticed(
        "2^39 accepted",
        |b, c, m| refusing((b, c, m), COUNTS, -P39..=P39, Mode::is_good, ORDER),
        &[],
    );
    is_noticed(
        "-2^39 - 1 accepted",
        |b, c, m| refusing((b, c, m), COUNTS, -P39 - 1..=P39 - 1, Mode::is_good, ORDER),
        &[],
    );
    is_noticed(
        "2^39 - 1 refused",
        |b, c, m| refusing((b, c, m), COUNTS, -P39..=P39 - 2, Mode::is_good, ORDER),
        BOTH,
    );
    is_noticed(
        "-2^39 refused",
        |b, c, m| refusing((b, c, m), COUNTS, -P39 + 1..=P39 - 1, Mode::is_good, ORDER),
        &[],
    );
    is_noticed(
        "32 bits asked for",
        |b, c, m| {
            refusing(
                (b, c, m),
                COUNTS,
                -P39 / 256..=P39 / 256 - 1,
                Mode::is_good,
                ORDER,
            )
        },
        BOTH,
    );
    is_noticed(
        "the low 40 bits taken",
        |b, c, m| {
            let low = b.map(|board| Board {
                a: signed_40(board.a),
                ..board
            });
            combine(&low, c, m)
        },
        &[],
    );
    is_noticed(
        "the last not looked at",
        |b, c, m| {
            let mut others = *b;
            if let Some(last) = others[..c.min(8) as usize].last_mut() {
                last.a = signed_40(last.a);
            }
            combine(&others, c, m)
        },
        &[],
    );
}

#[test]
fn other_mode_words() {
    is_noticed(
        "any mode word",
        |b, c, m| refusing((b, c, m), COUNTS, SUMS, |_| true, ORDER),
        &[],
    );
    is_noticed(
        "US 1 refused",
        |b, c, m| {
            let signed = |mode: Mode| mode.is_good() && mode.0 >> 12 == 0;
            refusing((b, c, m), COUNTS, SUMS, signed, ORDER)
        },
        &[],
    );
    is_noticed(
        "US 2 accepted",
        |b, c, m| {
            let but_3 = |mode: Mode| mode.0 & 0xCF0C == 0 && mode.0 >> 12 & 3 != 3;
            refusing((b, c, m), COUNTS, SUMS, but_3, ORDER)
        },
        &[],
    );
    is_noticed(
        "US 3 accepted",
        |b, c, m| {
            let but_2 = |mode: Mode| mode.0 & 0xCF0C == 0 && mode.0 >> 12 & 3 != 2;
            refusing((b, c, m), COUNTS, SUMS, but_2, ORDER)
        },
        &[],
    );
    is_noticed(
        "RND refused",
        |b, c, m| {
            let even = |mode: Mode| mode.is_good() && !mode.ties_up();
            refusing((b, c, m), COUNTS, SUMS, even, ORDER)
        },
        BOTH,
    );
}

// ---- wrong statements

/// What the wish promises of a sum, whether it is asked or not.
fn holds(sum: &Sum) -> bool {
    let (boards, count) = sum.boards();
    let answer = combine(&boards, count, sum.mode);
    is_exact(answer, exact_sum(&sum.pairs, sum.mode))
}

/// A premise is needed: a sum that breaks it alone, with SA clear and another A.
fn is_needed(premise: Premise, sum: &Sum) {
    assert_eq!(broken(sum), [premise]);
    assert_eq!(faults(sum), []);
    let (boards, count) = sum.boards();
    let answer = combine(&boards, count, sum.mode).expect("accepted boards");
    assert!(!answer.sa && !holds(sum), "{premise:?}");
}

const FRACTIONAL: u16 = 0x0020;

/// W4 x W5 for each: 3 x -2 or what the registers hold.
const MAC: Op = [3, 0, 0x54, 0, 0, 0, 0, 0];

fn bench(word: u16) -> Bench {
    Bench::new().mode(word).w(4, 3).w(5, 0xFFFE)
}

/// A board with these operations, and a second one with one product.
fn two(word: u16, first: Bench, ops: &[Op]) -> Sum {
    let runs = vec![first.case(ops), bench(word).case(&[MAC])];
    Sum::of_runs(Mode(word), runs)
}

fn plain(word: u16, ops: &[Op]) -> Sum {
    two(word, bench(word), ops)
}

#[test]
fn without_breaking_anything() {
    let sum = plain(FRACTIONAL, &[MAC, MAC]);
    assert_eq!((broken(&sum), faults(&sum)), (vec![], vec![]));
    assert_eq!(
        (sum.lengths.clone(), exact_sum(&sum.pairs, sum.mode)),
        (vec![2, 1], -36)
    );
    assert!(holds(&sum));
}

/// Kind 25 after the limits were left: 2 x 2^31 is kept as 2^31 - 1 with 32 bits.
#[test]
fn sa_must_not_be_cleared() {
    let word = 0x00A0;
    let ops = [lit(4, 0x8000), lit(5, 0x8000), MAC, CLEAR_S];
    is_needed(Premise::KeepsSa, &plain(word, &ops));
    // Without saturation: 257 of them wrap round to -2^39 + 2^31.
    let ops = [lit(4, 0x8000), lit(5, 0x8000), repeat(256), MAC, CLEAR_S];
    is_needed(Premise::KeepsSa, &plain(FRACTIONAL, &ops));
    // Executed while SA is clear it breaks nothing, SB set or not; nor does one that is
    // not reached.
    let ops = [CLEAR_S, MAC, CLEAR_S];
    let mut first = bench(word);
    first.state.saturated[1] = true;
    let sum = two(word, first, &ops);
    assert_eq!((broken(&sum), holds(&sum)), (vec![], true));
    assert!(!sum.boards().0[0].sa);
    let ops = [lit(4, 0x8000), lit(5, 0x8000), MAC, CLEAR_S];
    let sum = two(word, bench(word).budget(3), &ops);
    assert_eq!((broken(&sum), holds(&sum)), (vec![Premise::Done], true));
}

/// Kind 24: to integer mode on the way, to unsigned; and a run in another mode word from
/// its start.
#[test]
fn the_mode_word_must_be_kept() {
    is_needed(
        Premise::OneMode,
        &plain(FRACTIONAL, &[MAC, mode(0x0021), MAC]),
    );
    is_needed(
        Premise::OneMode,
        &plain(FRACTIONAL, &[MAC, mode(0x1020), MAC]),
    );
    // There and back again.
    let ops = [mode(0x0021), MAC, mode(FRACTIONAL)];
    is_needed(Premise::OneMode, &plain(FRACTIONAL, &ops));
    is_needed(Premise::OneMode, &two(FRACTIONAL, bench(0x0021), &[MAC]));
    // The same word breaks nothing.
    let sum = plain(FRACTIONAL, &[MAC, mode(FRACTIONAL), MAC]);
    assert_eq!((broken(&sum), holds(&sum)), (vec![], true));
}

/// Of the mode word US and IF alone are needed: runs in which kind 24 changes the others
/// fulfil what the statement promises.
#[test]
fn the_other_bits_of_the_mode_word_need_not_be_kept() {
    let mut random = Random::new(125);
    let (mut changed, mut clear) = (0, 0);
    for _ in 0..400 {
        let sum = listed_sum(&mut random);
        let mut runs = sum.runs.clone();
        for run in &mut runs {
            for op in run.file[8..].chunks_exact_mut(8).filter(|op| op[0] == 24) {
                op[2] = op[2] & 1 | random.word() as u8 & 0xF2;
            }
            set_sum(&mut run.file);
        }
        let other = Sum::of_runs(sum.mode, runs);
        let broken = broken(&other);
        if broken.contains(&Premise::OneMode) && !broken.contains(&Premise::KeepsSa) {
            assert!(holds(&other));
            changed += 1;
            clear += usize::from(!combine_of(&other).sa);
        }
    }
    println!("{changed} with other words, {clear} of them clear");
    assert!(clear >= 50);
}

fn combine_of(sum: &Sum) -> Combined {
    let (boards, count) = sum.boards();
    combine(&boards, count, sum.mode).expect("accepted boards")
}

#[test]
fn a_must_be_0_at_the_start() {
    let sum = two(FRACTIONAL, bench(FRACTIONAL).a(7), &[MAC]);
    is_needed(Premise::FromZero, &sum);
}

/// CLR in the middle, and each other kind that writes A.
#[test]
fn a_must_be_written_by_kind_3_alone() {
    let others = [
        clr(0, 0, 0, 0, 0),
        mpy(0, 0x54, 0, 0, 0),
        msc(0, 0x54, 0, 0, 0, 0),
        ed(0, 0x44, 0x08, 0x0A, 0x06),
        edac(0, 0x44, 0x08, 0x0A, 0x06),
        add_both(0),
        subtract(0),
        negate(0),
        shift_by(0, 2),
        lac(0, 0, 4, 0),
        add(0, 0, 4, 0),
    ];
    for op in others {
        let first = bench(FRACTIONAL).b(5).w(2, 1).w(8, 0x1000).w(10, 0x1040);
        let sum = two(FRACTIONAL, first, &[MAC, MAC, op, MAC]);
        is_needed(Premise::ByKind3, &sum);
    }
    // Kind 7 and the stores leave A alone, and so do all of these with target B.
    let leaving = [movsac(0, 0, 0, 0, 1), sac(0, 0, 12, 0), sac_r(0, 0, 12, 0)];
    let onto_b = others.map(|mut op| {
        op[1] = 1;
        op
    });
    for op in leaving.into_iter().chain(onto_b) {
        let first = bench(FRACTIONAL).b(5).w(2, 1).w(8, 0x1000).w(10, 0x1040);
        let sum = two(FRACTIONAL, first, &[MAC, MAC, op, MAC]);
        assert_eq!((broken(&sum), holds(&sum)), (vec![], true));
        assert_eq!(sum.lengths, [3, 1]);
    }
    // So it is one that is not executed.
    let ops = [MAC, clr(0, 0, 0, 0, 0)];
    let sum = two(FRACTIONAL, bench(FRACTIONAL).budget(1), &ops);
    assert_eq!((broken(&sum), holds(&sum)), (vec![Premise::Done], true));
}

/// US 1: 65,535 x 65,535 is not -1 x -1.
#[test]
fn the_words_must_be_signed() {
    let word = 0x1021;
    let first = bench(word).w(4, 0xFFFF).w(5, 0xFFFF);
    is_needed(Premise::Signed, &two(word, first, &[MAC]));
}

/// The pairs of another list, of the other stretch, in part, twice.
#[test]
fn the_pairs_must_be_the_stretch_s() {
    let mut sum = plain(FRACTIONAL, &[MAC, MAC]);
    sum.pairs[1] = (3, 4);
    is_needed(Premise::ItsPairs, &sum);
    let mut sum = plain(FRACTIONAL, &[MAC, MAC]);
    (sum.pairs, sum.lengths) = (vec![(3, 0xFFFE); 4], vec![3, 1]);
    is_needed(Premise::ItsPairs, &sum);
    let mut sum = plain(FRACTIONAL, &[MAC, MAC]);
    (sum.pairs, sum.lengths) = (vec![(3, 0xFFFE); 2], vec![1, 1]);
    is_needed(Premise::ItsPairs, &sum);
    // A cutting that is not the whole list.
    let mut sum = plain(FRACTIONAL, &[MAC, MAC]);
    sum.pairs.push((1, 1));
    is_needed(Premise::Cut, &sum);
}

/// A run that is spent before its last pair: with the whole stretch it breaks
/// `ItsPairs`, with what it multiplied it breaks nothing but `Done`.
#[test]
fn a_stretch_that_is_not_finished() {
    let short = two(FRACTIONAL, bench(FRACTIONAL).budget(1), &[MAC, MAC]);
    assert_eq!((broken(&short), holds(&short)), (vec![Premise::Done], true));
    let mut whole = short;
    (whole.pairs, whole.lengths) = (vec![(3, 0xFFFE); 3], vec![2, 1]);
    assert_eq!(broken(&whole), [Premise::ItsPairs, Premise::Done]);
    assert!(!holds(&whole));
}

/// One board, none and nine: the call refuses, and there is no sum.
#[test]
fn two_to_eight_stretches() {
    for count in [0, 1, 9] {
        let runs = vec![bench(FRACTIONAL).case(&[MAC]); count];
        let sum = Sum::of_runs(Mode(FRACTIONAL), runs);
        assert_eq!((broken(&sum), faults(&sum)), (vec![Premise::Cut], vec![]));
        assert!(!holds(&sum));
        let (boards, count) = sum.boards();
        assert_eq!(combine(&boards, count, sum.mode), Err(13));
    }
}

/// SA set at a start is not needed as a premise: it stays set up to the combined SA, and
/// nothing is promised. It is in the wish, and no sum is lost by it.
#[test]
fn sa_set_at_a_start_promises_nothing() {
    let mut random = Random::new(126);
    for _ in 0..500 {
        let mut sum = listed_sum(&mut random);
        let place = random.below(sum.runs.len());
        sum.runs[place].state.saturated[0] = true;
        let sum = Sum::of_runs(sum.mode, sum.runs);
        let broken = broken(&sum);
        assert!(broken.contains(&Premise::BeginsClear));
        if !broken.contains(&Premise::KeepsSa) {
            assert!(combine_of(&sum).sa && holds(&sum));
        }
    }
    // With kind 25, which then breaks both premises, SA is clear and A exact.
    let mut first = bench(FRACTIONAL);
    first.state.saturated[0] = true;
    let sum = two(FRACTIONAL, first, &[CLEAR_S, MAC]);
    assert_eq!(broken(&sum), [Premise::BeginsClear, Premise::KeepsSa]);
    assert!(!combine_of(&sum).sa && holds(&sum));
}

/// SB set, at every start or on the way, changes nothing: not the premises, not the sum.
#[test]
fn sb_is_harmless() {
    let mut random = Random::new(127);
    let mut clear = 0;
    for _ in 0..500 {
        let mut sum = listed_sum(&mut random);
        let before = (broken(&sum), combine_of(&sum));
        for run in &mut sum.runs {
            run.state.saturated[1] = true;
        }
        assert_eq!((broken(&sum), combine_of(&sum)), before);
        assert_eq!(faults(&sum), []);
        clear += usize::from(!before.1.sa);
    }
    assert!(clear >= 300);
    // B beyond its limits in the run, SB set by it.
    let word = FRACTIONAL;
    let first = bench(word).b((1 << 39) - 1);
    let sum = two(word, first, &[MAC, add(1, 0, 4, 0), MAC]);
    let (outcome, _) = sum.runs[0].run(9);
    assert_eq!(
        (outcome.ending, outcome.state.saturated),
        (Ending::Done, [false, true])
    );
    assert_eq!((broken(&sum), holds(&sum)), (vec![], true));
}

/// A refused run has no step and no pair, and an empty stretch is exact: the premise is
/// in the wish, and only says that there are runs.
#[test]
fn a_refused_run() {
    let sum = two(FRACTIONAL, bench(FRACTIONAL).pc(9), &[MAC]);
    assert_eq!(sum.lengths, [0, 1]);
    assert_eq!(broken(&sum), [Premise::Accepted, Premise::Done]);
    assert!(holds(&sum));
}

/// Wrong sums to be promised: not doubled, doubled always, words read as unsigned, one
/// pair left out, the difference, only modulo 2^32.
#[test]
fn other_totals() {
    type Total = fn(&[Words], Mode) -> i128;
    let totals: [(&str, Total); 5] = [
        ("not doubled", |pairs, _| exact_sum(pairs, Mode(0x0001))),
        ("doubled always", |pairs, _| exact_sum(pairs, Mode(0))),
        ("unsigned", |pairs, mode| {
            let products = pairs.iter().map(|&(m, n)| i128::from(m) * i128::from(n));
            products.sum::<i128>() * (1 + i128::from(mode.doubles()))
        }),
        ("the last left out", |pairs, mode| {
            let kept = pairs.len().saturating_sub(1);
            exact_sum(&pairs[..kept], mode)
        }),
        ("modulo 2^32", |pairs, mode| {
            i128::from(exact_sum(pairs, mode) as i32)
        }),
    ];
    let mut random = Random::new(128);
    let sums: Vec<Sum> = (0..400).map(|_| listed_sum(&mut random)).collect();
    for (name, total) in totals {
        let breaks = |sum: &&Sum| {
            let answer = combine_of(sum);
            broken(sum).is_empty() && !is_exact(Ok(answer), total(&sum.pairs, sum.mode))
        };
        let count = sums.iter().filter(breaks).count();
        println!("{name}: {count} of {}", sums.len());
        assert!(count >= 20, "{name}: {count}");
    }
}

/// "Always exact", SA set or not, is false, and so is the converse, that SA is clear
/// where A is exact: 2^39 wraps round and comes back.
#[test]
fn sa_set_says_nothing_of_a() {
    let mut random = Random::new(129);
    let sums = (0..400).map(|_| listed_sum(&mut random));
    let set: Vec<Sum> = sums
        .filter(|sum| broken(sum).is_empty() && combine_of(sum).sa)
        .collect();
    let exact = |sum: &Sum| i128::from(combine_of(sum).a) == exact_sum(&sum.pairs, sum.mode);
    let wrong = set.iter().filter(|sum| !exact(sum)).count();
    println!("{} set, {wrong} of them with another A", set.len());
    assert!(wrong >= 10);
    let board = |right: u16| {
        let bench = bench(FRACTIONAL).w(4, 0x8000).w(5, right);
        bench.case(&[repeat(255), MAC])
    };
    let sum = Sum::of_runs(Mode(FRACTIONAL), vec![board(0x8000), board(0x7FFF)]);
    assert_eq!(broken(&sum), []);
    assert!(combine_of(&sum).sa && exact(&sum));
    assert_eq!(combine_of(&sum).a, 1 << 24);
}
