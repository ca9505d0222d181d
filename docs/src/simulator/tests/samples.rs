//! The stored samples: text, program file, case and line of each agree, and the
//! filters give what plain whole numbers give.

mod common;
mod mnemonic;
use common::{end_alike, engine_word, stored_assembly, stored_sample};
use mnemonic::mnemonic;

use simulator::assemble::assemble_text;
use simulator::cases::{bytes_of, line, Case};
use simulator::combine::{combine, Combined};
use simulator::combine_form::boards_of;
use simulator::congruence::ledger_of;
use simulator::file::check_file;
use simulator::ledger::LedgerEnding;
use simulator::long::{long_bytes, long_line};
use simulator::mode::Mode;
use simulator::samples::{case_of, sum_case, NAMES, SUM};
use simulator::stretches::{broken, faults as faults_of_sum, watch, Sum};
use simulator::succession::{faults, Pair};
use simulator::tally::{tally_case, tally_line};
use simulator::{join, Ending, Outcome};

fn stored(name: &str, ending: &str) -> Vec<u8> {
    stored_sample(&format!("{name}.{ending}"))
}

fn text(name: &str) -> String {
    String::from_utf8(stored(name, "txt")).expect("the text is plain")
}

/// tally's run of a sample as a case, and the sample's own.
fn plain_case(name: &str) -> Case {
    tally_case(&stored(name, "bin"))
}

fn own_case(name: &str) -> Case {
    case_of(name, &stored(name, "bin")).expect("a sample's name")
}

fn run_whole(case: &Case) -> (Outcome, Vec<u16>) {
    let (outcome, memory) = case.run(case.budget);
    assert_eq!(outcome.ending, Ending::Done);
    assert_eq!(outcome.state.saturated, [false; 2]);
    (outcome, memory)
}

/// So many words from a byte address on, read as signed.
fn words(memory: &[u16], address: usize, count: usize) -> Vec<i64> {
    let first = (address - 0x1000) / 2;
    let held = &memory[first..first + count];
    held.iter().map(|&word| i64::from(word as i16)).collect()
}

/// The nearest multiple of 65,536, the even one of two, as a word.
fn rounded(value: i64) -> i64 {
    let (below, rest) = (value.div_euclid(65_536), value.rem_euclid(65_536));
    let nearest = match rest.cmp(&32_768) {
        std::cmp::Ordering::Less => below,
        std::cmp::Ordering::Equal => below + below.rem_euclid(2),
        std::cmp::Ordering::Greater => below + 1,
    };
    nearest.clamp(-32_768, 32_767)
}

/// 2 sum over k of taps[k] x[n - k], x being 0 before its start.
fn convolved(taps: &[i64], x: &[i64], n: usize) -> i64 {
    let products = taps.iter().zip(x[..=n].iter().rev());
    products.map(|(tap, sample)| 2 * tap * sample).sum()
}

fn squares(differences: impl Iterator<Item = i64>) -> i64 {
    differences
        .map(|difference| 2 * difference * difference)
        .sum()
}

// ---- the files

#[test]
fn the_program_files_are_the_texts_assembled() {
    for name in NAMES {
        assert_eq!(assemble_text(&stored(name, "txt")), Ok(stored(name, "bin")));
    }
}

#[test]
fn the_proved_assembler_is_held_to_the_fir_filter() {
    assert!(stored_assembly("stdin") == stored("fir", "txt"));
    assert!(stored_assembly("stdout") == stored("fir", "bin"));
}

#[test]
fn the_cases_hold_the_program_files() {
    for name in NAMES {
        let (file, case) = (stored(name, "bin"), own_case(name));
        assert_eq!(case.file, file);
        let bytes = stored(name, "case");
        assert!(bytes == bytes_of(&case), "{name}");
        assert!(bytes[112..].starts_with(&file), "{name}");
    }
}

#[test]
fn the_lines_are_those_of_the_cases() {
    for name in NAMES {
        let line = line(&own_case(name)) + "\n";
        assert_eq!(line.into_bytes(), stored(name, "line"));
    }
}

/// A text has one line that begins `# tally: `; samples/README.md repeats it.
#[test]
fn tally_prints_what_the_texts_claim() {
    let readme = String::from_utf8(stored_sample("README.md")).unwrap();
    for name in NAMES {
        let text = text(name);
        let mut claims = text.lines().filter_map(|l| l.strip_prefix("# tally: "));
        let claim = claims.next().expect("a claim");
        assert_eq!(claims.next(), None);
        assert_eq!(tally_line(&stored(name, "bin")), format!("{claim}\n"));
        assert!(readme.contains(&format!("`{claim}`")), "{name}");
    }
}

/// Each operation's comment is its mnemonic, its number and what it is for.
#[test]
fn every_operation_has_its_comment() {
    for name in NAMES {
        let text = text(name);
        let (_, operations) = check_file(&stored(name, "bin")).unwrap();
        let held = |line: &&str| !line.is_empty() && !line.starts_with('#');
        let lines: Vec<&str> = text.lines().filter(held).collect();
        assert_eq!(lines.len(), operations.len());
        for (number, (line, operation)) in lines.iter().zip(&operations).enumerate() {
            let (_, comment) = line.split_once("  # ").expect("a comment");
            let (says, purpose) = comment.split_once(" ; ").expect("a purpose");
            assert_eq!(says.trim_end(), mnemonic(operation), "{name} {number}");
            let purpose = purpose.strip_prefix(&format!("{number}: "));
            assert!(purpose.is_some_and(|why| !why.is_empty()), "{line}");
        }
    }
}

// ---- the FIR filter

const FIR_TAPS: [i64; 9] = [166, 962, 3_629, 7_187, 8_880, 7_187, 3_629, 962, 166];

fn fir_input() -> Vec<i64> {
    let impulse = vec![16_384, 0, 0, 0, 0, 0, 0, 0, 0];
    [impulse, [12_288, 4_096].repeat(9)].concat()
}

fn fir_sums() -> Vec<i64> {
    let x = fir_input();
    (0..27).map(|n| convolved(&FIR_TAPS, &x, n)).collect()
}

fn fir_outputs() -> Vec<i64> {
    fir_sums().into_iter().map(rounded).collect()
}

fn check_fir(case: &Case) {
    let (outcome, memory) = run_whole(case);
    let (x, outputs) = (fir_input(), fir_outputs());
    assert_eq!(words(&memory, 0x1200, 27), x);
    assert_eq!(words(&memory, 0x1800, 9), FIR_TAPS);
    assert_eq!(words(&memory, 0x1900, 27), outputs);
    assert_eq!(words(&memory, 0x1100, 9), x[18..]);
    let total: i64 = outputs.iter().sum();
    assert_eq!(outcome.state.accumulators, [fir_sums()[26], 2_048 * total]);
}

#[test]
fn the_fir_filter_is_a_convolution() {
    check_fir(&plain_case("fir"));
    check_fir(&own_case("fir"));
    check_fir(&own_case("fir_circular"));
}

#[test]
fn the_last_sum_is_the_one_worked_out_by_hand() {
    assert_eq!(FIR_TAPS.iter().sum::<i64>(), 32_768);
    let (even, odd) = (16_470, 16_298);
    assert_eq!(fir_sums()[26], 2 * (even * 4_096 + odd * 12_288));
    assert_eq!(fir_sums()[26], 535_461_888);
    assert_eq!(fir_outputs()[26], 8_170);
}

#[test]
fn the_fir_text_lists_the_outputs() {
    let text = text("fir");
    for row in fir_outputs().chunks(9) {
        let row: Vec<String> = row.iter().map(|y| format!("{y:>4}")).collect();
        assert!(text.contains(&row.join(" ")), "{row:?}");
    }
}

/// Without its settings W8 falls by 16 bytes a sample and leaves memory.
#[test]
fn the_circular_program_needs_its_settings() {
    let (outcome, _) = plain_case("fir_circular").run(100_000);
    assert_eq!(outcome.ending, common::trap(2));
    assert_eq!(outcome.state.w[8], 0x0FFE);
}

// ---- the adaptive filter

const UNKNOWN: [i64; 4] = [9_830, 6_554, -3_277, 1_638];
const SAMPLES: usize = 42;

/// What the adaptive filter leaves, by plain whole numbers.
struct Adapted {
    x: Vec<i64>,
    wanted: Vec<i64>,
    outputs: Vec<i64>,
    error: i64,
    taps: [i64; 4],
}

fn lms_input() -> Vec<i64> {
    let signs = [1, 1, 1, -1, 1, -1, -1];
    (0..SAMPLES).map(|n| 16_384 * signs[n % 7]).collect()
}

fn adapted() -> Adapted {
    let x = lms_input();
    let wanted: Vec<i64> = (0..SAMPLES)
        .map(|n| rounded(convolved(&UNKNOWN, &x, n)))
        .collect();
    let (mut taps, mut error, mut outputs) = ([0; 4], 0, Vec::new());
    for n in 0..SAMPLES {
        let sum = convolved(&taps, &x, n);
        outputs.push(rounded(sum));
        error = 65_536 * wanted[n] - sum;
        let step = rounded(error.div_euclid(2));
        for (tap, sample) in taps.iter_mut().zip(x[..=n].iter().rev()) {
            *tap = rounded(65_536 * *tap + 2 * step * sample);
        }
    }
    Adapted {
        x,
        wanted,
        outputs,
        error: rounded(error),
        taps,
    }
}

fn check_lms(case: &Case) {
    let (outcome, memory) = run_whole(case);
    let expected = adapted();
    let last_first = |taps: [i64; 4]| [taps[3], taps[2], taps[1], taps[0]];
    assert_eq!(words(&memory, 0x1100, 3), [0; 3]);
    assert_eq!(words(&memory, 0x1106, SAMPLES), expected.x);
    assert_eq!(words(&memory, 0x1200, SAMPLES), expected.wanted);
    assert_eq!(words(&memory, 0x1900, SAMPLES), expected.outputs);
    assert_eq!(words(&memory, 0x1800, 1), [expected.error]);
    assert_eq!(words(&memory, 0x1802, 4), last_first(expected.taps));
    assert_eq!(words(&memory, 0x1300, 4), last_first(UNKNOWN));
    assert_eq!(words(&memory, 0x1840, 4), last_first(UNKNOWN));
    let distance = squares(UNKNOWN.iter().zip(expected.taps).map(|(h, w)| h - w));
    let residual = period_error(&expected, SAMPLES - 7);
    assert_eq!(outcome.state.accumulators, [distance, residual]);
}

/// 2 sum of (d - y) squared over a period.
fn period_error(adapted: &Adapted, first: usize) -> i64 {
    let period = first..first + 7;
    squares(period.map(|n| adapted.wanted[n] - adapted.outputs[n]))
}

#[test]
fn the_adaptive_filter_is_that_of_whole_numbers() {
    check_lms(&plain_case("lms"));
    check_lms(&own_case("lms"));
}

#[test]
fn the_figures_of_the_lms_text() {
    let adapted = adapted();
    assert_eq!(adapted.taps, [9_784, 6_526, -3_318, 1_612]);
    assert_eq!(squares(UNKNOWN.into_iter()), 306_011_178);
    assert_eq!(period_error(&adapted, 0), 317_731_054);
    let last: Vec<i64> = (35..42)
        .map(|n| adapted.wanted[n] - adapted.outputs[n])
        .collect();
    assert_eq!(last, [5, 13, 91, 47, 87, -4, -58]);
}

/// Five write-backs a sample go round the error and the taps.
#[test]
fn the_write_back_goes_round_with_its_setting() {
    let end = |case: Case| run_whole(&case).0.state.w[13];
    assert_eq!(end(plain_case("lms")), 0x180A);
    assert_eq!(end(own_case("lms")), 0x1800);
}

// ---- both filters in one file

/// The steps of fir and of both.
const FIR_STEPS: u32 = 817;
const BOTH_STEPS: u32 = 2_264;

#[test]
fn the_joined_file_is_what_join_writes() {
    let mut out = vec![0; 1_536];
    let answer = join(&stored("fir", "bin"), &stored("lms", "bin"), &mut out);
    assert_eq!(answer, Ok(1_536));
    assert_eq!(out, stored("fir_lms", "bin"));
    assert_eq!(own_case("fir_lms"), plain_case("fir_lms"));
}

/// What each operation is for, by its text.
fn purposes(name: &str) -> Vec<String> {
    let text = text(name);
    let purpose = |line: &str| {
        let (_, purpose) = line.split_once(" ; ")?;
        let (_, why) = purpose.split_once(": ")?;
        Some(why.to_string())
    };
    text.lines().filter_map(purpose).collect()
}

#[test]
fn the_joined_text_is_both_texts() {
    let both = [purposes("fir"), purposes("lms")].concat();
    assert_eq!(both.len(), 148);
    assert_eq!(purposes("fir_lms"), both);
}

fn fields(name: &str) -> Vec<String> {
    let line = String::from_utf8(stored(name, "line")).unwrap();
    line.split_whitespace().map(str::to_string).collect()
}

/// From the parts' lines: lms's but for the steps, pc, fir's W7, W13, which goes round
/// in lms.case alone, and the memory's check, in which fir's last four taps count.
#[test]
fn the_joined_line_is_worked_out_from_the_parts() {
    let (fir, mut due) = (fields("fir"), fields("lms"));
    let number = |field: &str| field.parse::<u64>().unwrap();
    due[1] = (number(&fir[1]) + number(&due[1])).to_string();
    due[5] = (number(&fir[5]) + number(&due[5])).to_string();
    let w = |register: usize| 13 + register;
    assert_eq!((fir[w(7)].as_str(), due[w(7)].as_str()), ("0008", "0000"));
    due[w(7)] = fir[w(7)].clone();
    due[w(13)] = "180A".to_string();
    // Word 1,029 of 2,048 has 1,018 after it.
    let power = |n: u32| (0..n).fold(1, |p: u64, _| 31 * p % (1 << 32));
    let taps = FIR_TAPS[5..].iter().zip([1_018, 1_017, 1_016, 1_015]);
    let left: u64 = taps.map(|(&tap, after)| tap as u64 * power(after)).sum();
    let last = due.len() - 1;
    due[last] = ((number(&due[last]) + left) % (1 << 32)).to_string();
    assert_eq!(fields("fir_lms"), due);
    let said = [due[1].as_str(), due[5].as_str(), due[last].as_str()];
    assert_eq!(said, ["2264", "148", "301742673"]);
}

/// After fir's steps all is as fir alone leaves it, pc at lms's first operation.
#[test]
fn the_first_filter_is_whole_before_the_second() {
    let (fir, left) = run_whole(&plain_case("fir"));
    let (joined, memory) = plain_case("fir_lms").run(FIR_STEPS);
    assert_eq!((joined.ending, joined.steps), (Ending::Spent, FIR_STEPS));
    assert_eq!((joined.state, memory), (fir.state, left));
    let (before, _) = plain_case("fir_lms").run(FIR_STEPS - 1);
    assert_eq!((before.state.flow.pc, before.state.flow.repeat), (67, 1));
}

/// lms has its own words at the end, and fir's last four taps stand past them.
#[test]
fn the_second_filter_is_that_of_whole_numbers_too() {
    let case = plain_case("fir_lms");
    check_lms(&case);
    let (outcome, memory) = run_whole(&case);
    assert_eq!((outcome.steps, outcome.state.flow.pc), (BOTH_STEPS, 148));
    assert_eq!(words(&memory, 0x180A, 4), FIR_TAPS[5..]);
    let (_, mut alone) = run_whole(&plain_case("lms"));
    let first = (0x180A - 0x1000) / 2;
    alone[first..first + 4].copy_from_slice(&memory[first..first + 4]);
    assert_eq!(memory, alone);
}

/// The one word of fir's that lms reads: h[5] at 180A, by the last of the repeated
/// EDACs, twelve steps before the end. The difference 0 - 7,187 is not used.
#[test]
fn a_word_of_the_first_is_read_and_not_used() {
    let (joined, _) = plain_case("fir_lms").run(BOTH_STEPS - 12);
    assert_eq!(joined.state.flow.pc, 142);
    assert_eq!(joined.state.w[4] as i16, -7_187);
    let (alone, _) = plain_case("lms").run(BOTH_STEPS - FIR_STEPS - 12);
    assert_eq!((alone.state.flow.pc, alone.state.w[4]), (74, 0));
}

#[test]
fn the_wish_on_both_filters() {
    for budget in [0, 1, 816, 817, 818, 1_500, 2_263, 2_264, 2_265, 100_000] {
        let mut pair = Pair {
            first: plain_case("fir"),
            second: stored("lms", "bin"),
        };
        pair.first.budget = budget;
        assert_eq!(faults(&pair), [], "budget {budget}");
    }
}

// ---- the correlation

/// The stretches: the first i and the number of products.
const STRETCHES: [(i64, i64); 3] = [(0, 13), (13, 29), (42, 18)];
const WHOLE: (i64, i64) = (0, 60);
const LAG: i64 = 4;

fn x(i: i64) -> i64 {
    250 * (5 + i)
}

fn y(j: i64) -> i64 {
    300 * (45 - j)
}

/// The sum of the numbers in brackets for i below n, by the formula of the text.
fn brackets(n: i64) -> i64 {
    205 * n + 18 * n * (n - 1) - (n - 1) * n * (2 * n - 1) / 6
}

/// The sum of products from i on, one by one.
fn correlated((first, count): (i64, i64)) -> i64 {
    let products = (first..first + count).map(|i| 2 * x(i) * y(i + LAG));
    products.sum()
}

fn stretch_name(k: usize) -> String {
    format!("correlation_{}", k + 1)
}

/// The words, A and B of a stretch or of the whole.
fn check_correlation(case: &Case, (first, count): (i64, i64)) {
    let (outcome, memory) = run_whole(case);
    let row = |from: i64, count: i64, word: fn(i64) -> i64| -> Vec<i64> {
        (from..from + count).map(word).collect()
    };
    let xs = row(first, count, x);
    let ys = row(first, count + LAG, y);
    assert_eq!(words(&memory, 0x1100, xs.len()), xs);
    assert_eq!(words(&memory, 0x1800, ys.len()), ys);
    let past = 65_536 * y(first + count + LAG);
    let sum = correlated((first, count));
    assert_eq!(outcome.state.accumulators, [sum, past]);
    assert_eq!(i64::from(outcome.steps), 5 * count + 22);
}

#[test]
fn the_correlation_and_its_stretches() {
    check_correlation(&own_case("correlation"), WHOLE);
    for (k, stretch) in STRETCHES.into_iter().enumerate() {
        check_correlation(&own_case(&stretch_name(k)), stretch);
    }
    for name in NAMES.iter().filter(|name| name.starts_with("correlation")) {
        assert_eq!(own_case(name), plain_case(name));
    }
}

#[test]
fn the_figures_of_the_correlation_texts() {
    assert_eq!([13, 42, 60].map(brackets), [4_823, 15_785, 5_810]);
    let by_formula = |(first, count): (i64, i64)| brackets(first + count) - brackets(first);
    assert_eq!(STRETCHES.map(by_formula), [4_823, 10_962, -9_975]);
    for stretch in STRETCHES.into_iter().chain([WHOLE]) {
        assert_eq!(correlated(stretch), 150_000 * by_formula(stretch));
    }
    assert_eq!(
        STRETCHES.map(correlated),
        [723_450_000, 1_644_300_000, -1_496_250_000]
    );
    assert_eq!(correlated(WHOLE), 871_500_000);
}

/// The boards' runs under a mode word, each from its stored program file.
fn boards_under(mode: u16) -> Sum {
    let run = |k: usize| under(own_case(&stretch_name(k)), mode);
    Sum::of_runs(Mode(mode), (0..3).map(run).collect())
}

fn under(mut case: Case, mode: u16) -> Case {
    case.state.mode = Mode(mode);
    case
}

/// A, OA and SA of the boards combined.
fn combined(sum: &Sum) -> (i64, bool, bool) {
    assert_eq!((faults_of_sum(sum), broken(sum)), (vec![], vec![]));
    let (boards, count) = sum.boards();
    let Combined { a, oa, sa } = combine(&boards, count, sum.mode).expect("boards");
    (a, oa, sa)
}

fn whole_under(mode: u16) -> (i64, bool) {
    let case = under(own_case("correlation"), mode);
    let (outcome, _) = case.run(case.budget);
    (outcome.state.accumulators[0], outcome.state.saturated[0])
}

/// The stretches' products are the whole's, and the stored case has their A and SA.
#[test]
fn the_stored_sum_is_that_of_the_stretches() {
    let sum = boards_under(0x0020);
    assert_eq!(sum.pairs, watch(&own_case("correlation")).pairs);
    assert_eq!(sum.lengths, [13, 29, 18]);
    let lines: String = (0..3)
        .map(|k| String::from_utf8(stored(&stretch_name(k), "line")).unwrap())
        .collect();
    let case = sum_case(&lines).expect("three lines");
    let stored_case = stored(SUM, "case");
    assert!(stored_case == long_bytes(&case));
    assert_eq!(stored_case.len(), 320 + 27);
    assert_eq!(case.start.state.mode, Mode(0x0020));
    let (boards, count) = sum.boards();
    assert_eq!(
        (boards_of(&case.start.file), case.start.budget),
        (boards, count)
    );
    let line = String::from_utf8(stored(SUM, "line")).unwrap();
    assert_eq!(line, long_line(&case) + "\n");
    assert_eq!(line, "combined 871500000 0 0\n");
    assert_eq!(whole_under(0x0020), (871_500_000, false));
}

/// Lines that are none, and boards with two mode words.
#[test]
fn other_lines_are_no_sum() {
    let line = String::from_utf8(stored("correlation_1", "line")).unwrap();
    let other = line.replace(" 0020 ", " 0021 ");
    assert!(sum_case(&(line.clone() + &line)).is_some());
    assert!(sum_case(&(line + &other)).is_none());
    assert!(sum_case("").is_none());
    assert!(sum_case("refused1\n").is_none());
}

/// What the README says of other mode words.
#[test]
fn the_correlation_in_other_mode_words() {
    // 40 bits, saturation on or off: the same.
    for mode in [0x0020, 0x0030, 0x00B0] {
        assert_eq!(combined(&boards_under(mode)), (871_500_000, false, false));
        assert_eq!(whole_under(mode), (871_500_000, false));
    }
    // 32 bits: no board's SA is set, and the combined one is.
    let narrow = boards_under(0x00A0);
    assert!(narrow.boards().0.iter().all(|board| !board.sa));
    assert_eq!(combined(&narrow), (651_233_647, false, true));
    assert_eq!(2_147_483_647 - 1_496_250_000, 651_233_647);
    assert_eq!(whole_under(0x00A0), (651_233_647, true));
    // Integer mode: half of it all, within 32 bits.
    for mode in [0x0021, 0x00A1, 0x00B1] {
        assert_eq!(combined(&boards_under(mode)), (435_750_000, false, false));
        assert_eq!(whole_under(mode), (435_750_000, false));
    }
}

/// A stretch's program with other numbers: the literals and counts of operations 1, 4, 8,
/// 11 and 17.
fn stretch_program((first, count): (i64, i64)) -> Vec<u8> {
    let mut file = stored("correlation_1", "bin");
    let mut put = |operation: usize, value: i64| {
        let at = 8 + 8 * operation + 2;
        file[at..at + 2].copy_from_slice(&(value as u16).to_le_bytes());
    };
    put(1, x(first));
    put(4, count - 1);
    put(8, y(first));
    put(11, count + LAG - 1);
    put(17, count - 2);
    common::set_sum(&mut file);
    file
}

#[test]
fn the_stretches_are_one_program_with_other_numbers() {
    for (k, stretch) in STRETCHES.into_iter().enumerate() {
        assert_eq!(stretch_program(stretch), stored(&stretch_name(k), "bin"));
    }
    assert_eq!(stretch_program(WHOLE), stored("correlation", "bin"));
}

/// Cut in two after 30 products no sum leaves 32 bits, and the combined A is exact where
/// one board alone is not.
#[test]
fn another_cutting_of_the_correlation() {
    let run = |stretch| under(plain(&stretch_program(stretch)), 0x00A0);
    let sum = Sum::of_runs(Mode(0x00A0), [(0, 30), (30, 30)].map(run).to_vec());
    assert_eq!(
        sum.boards().0[..2]
            .iter()
            .map(|board| board.a)
            .collect::<Vec<_>>(),
        [1_988_250_000, -1_116_750_000]
    );
    assert_eq!(combined(&sum), (871_500_000, false, false));
}

fn plain(file: &[u8]) -> Case {
    tally_case(file)
}

// ---- the reorder

fn ramp() -> Vec<i64> {
    (0..16).map(|i| 3 * i - 7).collect()
}

/// The words with word i at place place(i).
fn placed(words: &[i64], place: impl Fn(usize) -> usize) -> Vec<i64> {
    let mut out = vec![0; words.len()];
    for (i, &word) in words.iter().enumerate() {
        out[place(i)] = word;
    }
    out
}

fn reversed(i: usize) -> usize {
    usize::from((i as u8).reverse_bits() >> 4)
}

fn check_reorder(case: &Case, place: impl Fn(usize) -> usize) {
    let (outcome, memory) = run_whole(case);
    let v = ramp();
    let truncated: Vec<i64> = v.iter().map(|v| v.div_euclid(2)).collect();
    let nearest: Vec<i64> = v.iter().map(|v| rounded(v * 32_768)).collect();
    let reordered = placed(&v, &place);
    let (truncated, nearest) = (placed(&truncated, &place), placed(&nearest, &place));
    assert_eq!(words(&memory, 0x1800, 16), v);
    assert_eq!(words(&memory, 0x1200, 16), reordered);
    assert_eq!(words(&memory, 0x1240, 16), truncated);
    assert_eq!(words(&memory, 0x1280, 16), nearest);
    let a = (0..16).map(|i| 2 * reordered[i] * v[i]).sum();
    let b = (0..16)
        .map(|i| 2 * (nearest[i] - truncated[i]) * v[i])
        .sum();
    assert_eq!(outcome.state.accumulators, [a, b]);
}

#[test]
fn the_reorder_is_the_bit_reversed_permutation() {
    check_reorder(&own_case("reorder"), reversed);
    check_reorder(&plain_case("reorder"), |i| i);
}

#[test]
fn the_figures_of_the_reorder_text() {
    let products = (0..16).map(|i| i * reversed(i));
    assert_eq!(products.sum::<usize>(), 1_028);
    let (outcome, _) = run_whole(&own_case("reorder"));
    assert_eq!(outcome.state.accumulators, [9_992, 76]);
    assert_eq!(outcome.state.w[2], 0x1280);
}

// ---- the ledger

/// Demand 3: no S flag, so the ledger is not marked "left", both end alike, and
/// each rounded store without limiting is within half a unit.
fn check_ledger(case: &Case) {
    let (outcome, memory) = case.run(case.budget);
    let ledger = ledger_of(case);
    assert_eq!(outcome.state.saturated, [false; 2]);
    assert_ne!(ledger.ending, LedgerEnding::Left);
    end_alike(&outcome, &memory, &ledger);
    assert!(!ledger.stores.is_empty());
    for store in &ledger.stores {
        let word = engine_word(case, store);
        assert_eq!(word, store.word);
        assert!(!store.limiting_needed);
        let distance = (65_536 * word - store.value).abs();
        assert!(!store.rounded || distance <= 32_768);
    }
}

#[test]
fn the_ledger_agrees_with_the_engine() {
    for name in NAMES {
        check_ledger(&plain_case(name));
        check_ledger(&own_case(name));
    }
}
