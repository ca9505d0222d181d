//! The proved demonstration program prints rows of document 01's table and, for each rule, a check over drawn cases. Every line is worked out here
//! from the simulator's functions and compared with the program's stored output.

use simulator::accumulator::{keep, product_by_mode, rounded, shift, store_word, truncated};
use simulator::address::{bit_reversed_next, circular_step, plain_step, ByteAddress, Region};
use simulator::mode::Mode;
use simulator::operation::Target;
use simulator::status::status_word;
use simulator::{Circular, State, Trap};

const CASES: u32 = 20_000;

// ---- drawn numbers

fn after(x: u64) -> u64 {
    x * 48_271 % 2_147_483_647
}

fn word(x: u64) -> u16 {
    (x / 4 % 65_536) as u16
}

fn mode(x: u64) -> Mode {
    Mode(word(x) & 0x10F3)
}

fn bit(x: u64) -> bool {
    x / 64 % 2 == 1
}

fn result(x: u64, y: u64) -> i64 {
    if (y / 4).is_multiple_of(2) {
        let limit: i64 = [1 << 31, -(1 << 31), 1 << 39, -(1 << 39)][(y % 4) as usize];
        limit + (x % 8) as i64 - 4
    } else {
        (x % (1 << 31) * 1_024 + y % 1_024) as i64 - (1 << 40)
    }
}

fn stored(x: u64, y: u64) -> i64 {
    let low = if y.is_multiple_of(4) {
        32_768
    } else {
        y % 65_536
    };
    (x % 131_072 * 65_536 + low) as i64 - (1 << 32)
}

fn step(x: u64) -> i16 {
    2 * (x / 8 % 7) as i16 - 6
}

// ---- the check of a list of numbers

struct Check(u64);

impl Check {
    fn number(&mut self, v: u64) {
        self.0 = (31 * self.0 + v % (1 << 32)) % (1 << 32);
    }

    fn flag(&mut self, b: bool) {
        self.number(u64::from(b));
    }

    fn signed(&mut self, v: i64) {
        self.flag(v < 0);
        self.number(if v < 0 { !v } else { v } as u64);
    }
}

type Case = fn(&mut Check, u64, u64);

fn check_of(case: Case) -> u64 {
    let mut check = Check(0);
    let mut x = 1;
    for _ in 0..CASES {
        let y = after(x);
        x = after(y);
        case(&mut check, y, x);
    }
    check.0
}

// ---- one case of each rule

fn product_case(check: &mut Check, x: u64, y: u64) {
    let mode = mode(x);
    check.signed(product_by_mode(word(x), word(y), mode));
    check.signed(product_by_mode(word(y), word(y), mode));
}

fn write_case(check: &mut Check, x: u64, y: u64) {
    let target = if bit(y) { Target::B } else { Target::A };
    let kept = keep(result(x, y), mode(y), target);
    check.signed(kept.value);
    check.flag(kept.overflow);
    check.flag(bit(x) || kept.left);
    check.flag(kept.left);
}

fn store_case(check: &mut Check, x: u64, y: u64) {
    let mode = mode(x);
    let v = stored(x, y);
    for result in [rounded(v, mode), truncated(v)] {
        check.number(u64::from(store_word(result, mode)));
        check.flag(!(-32_768..=32_767).contains(&result));
    }
}

fn shift_case(check: &mut Check, x: u64, y: u64) {
    let v = result(x, y);
    if (-(1 << 39)..1 << 39).contains(&v) {
        check.signed(shift(v, (x / 8 % 33) as i64 - 16));
    }
}

fn status_case(check: &mut Check, x: u64, y: u64) {
    let mut state = State::reset();
    state.overflow = [x % 2 == 1, x / 2 % 2 == 1];
    state.saturated = [x / 4 % 2 == 1, x / 8 % 2 == 1];
    state.flow.active = (y % 2) as u8;
    state.flow.repeat = (y / 2 % 2) as u32;
    check.number(u64::from(status_word(&state)));
}

fn mode_case(check: &mut Check, x: u64, _: u64) {
    check.flag(Mode(word(x)).is_good());
}

fn trap_case(check: &mut Check, x: u64, y: u64) {
    let address = ByteAddress((x / 4 % 256 + 0x0FF0) as u16);
    let part = (y % 30) as usize;
    let words = part + (y / 32 % 30) as usize;
    for (first, end) in [(0, part), (part, words), (0, words)] {
        let trap = address.locate(Region { first, end }).err();
        check.number(trap.map_or(0, Trap::number).into());
    }
}

fn step_case(check: &mut Check, x: u64, y: u64) {
    let base = if bit(x) { 0xFFD0 } else { 0x1000 };
    let start = base + x / 128 % 8 * 2;
    let buffer = Circular {
        register: 0,
        start: start as u16,
        end: (start + y / 8 % 15 * 2 + 5) as u16,
    };
    let old = ((start + y / 128 % 48 + 65_532) % 65_536) as u16;
    check.number(plain_step(old, step(x)).into());
    check.number(circular_step(old, step(x), &buffer).into());
}

fn reversal_case(check: &mut Check, x: u64, y: u64) {
    let n = 2 << (x / 8 % 10);
    check.number(bit_reversed_next(word(y), n).into());
}

// ---- the lines

fn flags(overflow: bool, saturation: bool) -> String {
    let o = if overflow { " O" } else { "" };
    let s = if saturation { " S" } else { "" };
    format!("{o}{s}")
}

fn written(mode: u16, r: i64) -> String {
    let kept = keep(r, Mode(mode), Target::A);
    format!(" {}{}", kept.value, flags(kept.overflow, kept.left))
}

fn stores(cases: &[(u16, i64)]) -> String {
    let word = |&(mode, v): &(u16, i64)| {
        format!(" {:04x}", store_word(rounded(v, Mode(mode)), Mode(mode)))
    };
    cases.iter().map(word).collect()
}

fn rows() -> Vec<String> {
    let circular = Circular {
        register: 0,
        start: 0x1100,
        end: 0x1107,
    };
    let second = bit_reversed_next(0x1200, 8);
    vec![
        format!("A {}", product_by_mode(3, 0xFFFE, Mode::RESET)),
        format!(
            "B {}{}{}",
            product_by_mode(0x8000, 0x8000, Mode(0)),
            written(0x0080, 1 << 31),
            written(0, 1 << 31)
        ),
        format!("C {}", product_by_mode(0xFFFF, 0xFFFF, Mode(0x1001))),
        format!(
            "D{}",
            stores(&[
                (0x20, 98_304),
                (0x20, 32_768),
                (0x20, -32_768),
                (0x22, 32_768)
            ])
        ),
        format!("E{}", stores(&[(0x20, 2_147_450_880), (0, 2_147_450_880)])),
        format!("F{}{}", written(0x0090, 1 << 39), written(0, 1 << 39)),
        format!("G {:04x}", circular_step(0x1106, 4, &circular)),
        format!("H {:04x} {:04x}", second, bit_reversed_next(second, 8)),
        format!("L {} trap{}", shift(-1, 16), Trap::ShiftTooFar.number()),
    ]
}

fn checks() -> Vec<String> {
    let rules: [(&str, Case); 9] = [
        ("product", product_case),
        ("write", write_case),
        ("store", store_case),
        ("shift", shift_case),
        ("status", status_case),
        ("mode", mode_case),
        ("trap", trap_case),
        ("step", step_case),
        ("reversal", reversal_case),
    ];
    let line = |&(name, case): &(&str, Case)| format!("{name} {CASES} {}", check_of(case));
    rules.iter().map(line).collect()
}

#[test]
fn the_demonstration_prints_what_the_simulator_works_out() {
    let path = concat!(
        env!("CARGO_MANIFEST_DIR"),
        "/../../../crates/demonstration/stdout"
    );
    let stored = std::fs::read_to_string(path).expect("the stored output is there");
    let expected: Vec<String> = rows().into_iter().chain(checks()).collect();
    assert_eq!(stored.lines().collect::<Vec<_>>(), expected);
}

#[test]
fn the_rows_are_those_of_the_table() {
    let table = [
        "A -12",
        "B 2147483648 2147483647 S 2147483648 O",
        "C 4294836225",
        "D 0002 0000 0000 0001",
        "E 7fff 8000",
        "F 549755813887 O S -549755813888 O S",
        "G 1102",
        "H 1208 1204",
        "L -1 trap3",
    ];
    assert_eq!(rows(), table);
}
