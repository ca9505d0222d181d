//! Requests of the stored stream, built and answered by hand from document 01:
//! each is in the stream, and its stored line is the one worked out here.

mod common;
use common::*;
use simulator::requests::{requests_of, Call, Request};

struct Stored {
    requests: Vec<Request>,
    lines: Vec<String>,
}

impl Stored {
    fn read() -> Stored {
        let lines = String::from_utf8(stored_requests("stdout")).expect("lines of text");
        Stored {
            requests: requests_of(&stored_requests("stdin")).expect("a request stream"),
            lines: lines.lines().map(str::to_string).collect(),
        }
    }

    /// The stored line of a request, which the simulator answers too.
    fn line(&self, call: Call, room: u16, input: &[u8]) -> &str {
        let input = input.to_vec();
        let request = Request { call, room, input };
        let place = self.requests.iter().position(|stored| *stored == request);
        let line = &self.lines[place.expect("the request is in the stream")];
        assert_eq!(*line, request.answer());
        line
    }

    /// Bytes at the start of the lent output and A5 past them, or a refusal
    /// and nothing but A5.
    fn gives(&self, call: Call, room: u16, input: &[u8], answer: Result<&[u8], u8>) {
        let (number, written) = match answer {
            Ok(bytes) => (0, bytes),
            Err(number) => (number, [].as_slice()),
        };
        let mut out = written.to_vec();
        out.resize(room.into(), 0xA5);
        let check = out
            .iter()
            .fold(0, |c, &byte| (31 * c + u32::from(byte)) % 65_536);
        let expected = format!("{number} {} {check}", written.len());
        assert_eq!(self.line(call, room, input), expected);
    }

    fn load(&self, room: usize, file: &[u8], answer: Result<&[u8], u8>) {
        self.gives(Call::Load, room as u16, file, answer);
    }

    fn write(&self, room: usize, operations: &[u8], answer: Result<&[u8], u8>) {
        self.gives(Call::Write, room as u16, operations, answer);
    }

    /// A load that is refused, lent as many bytes as the file has.
    fn load_refused(&self, file: &[u8], number: u8) {
        self.load(file.len(), file, Err(number));
    }

    /// A write of a few operations, lent one block.
    fn write_of(&self, ops: &[Op], number: u8) {
        let file = file_of(ops);
        let answer = if number == 0 {
            Ok(&file[..])
        } else {
            Err(number)
        };
        self.write(512, &ops.concat(), answer);
    }
}

/// Literal i to register i mod 14.
fn numbered(count: u16) -> Vec<Op> {
    (0..count).map(|i| lit((i % 14) as u8, i)).collect()
}

fn with(mut file: Vec<u8>, bytes: &[(usize, u8)]) -> Vec<u8> {
    for &(at, value) in bytes {
        file[at] = value;
    }
    file
}

fn with_sums(file: Vec<u8>, bytes: &[(usize, u8)]) -> Vec<u8> {
    let mut file = with(file, bytes);
    set_sum(&mut file);
    file
}

/// Idle operations but for those named.
fn program(count: usize, named: &[(usize, Op)]) -> Vec<Op> {
    let mut ops = vec![IDLE; count];
    for &(place, op) in named {
        ops[place] = op;
    }
    ops
}

#[test]
fn whole_lines_of_one_operation() {
    let stored = Stored::read();
    let (op, file) = (IDLE.to_vec(), file_of(&[IDLE]));
    let load = |room| stored.line(Call::Load, room, &file);
    let write = |room| stored.line(Call::Write, room, &op);
    // The operation is 16 and seven zeros; 31^7 = 11,487 modulo 65,536, and
    // 16 x 11,487 = 183,792 = 2 x 65,536 + 52,720.
    assert_eq!(load(8), "0 8 52720");
    // Seven times A5: 1 + 31 + .. + 31^6 = 41,889 modulo 65,536, and
    // 165 x 41,889 = 105 x 65,536 + 30,405.
    assert_eq!(load(7), "8 0 30405");
    assert_eq!(load(0), "8 0 0");
    // The block has 1 at byte 2, 17 at 4, 16 at 8: 31^509 + 17 x 31^507 + 16 x
    // 31^503. With 31^512 = 49,153, 31^-3 = 59,295, 31^-5 = 17,247 and 31^-9 =
    // 51,935 that is 49,153 x 3,806 = 36,574 modulo 65,536.
    assert_eq!(write(512), "0 512 36574");
    assert_eq!(write(0), "8 0 0");
}

#[test]
fn sizes_and_rooms() {
    let stored = Stored::read();
    for count in [1, 63, 64, 126] {
        let ops = numbered(count);
        let (bytes, file) = (ops.concat(), file_of(&ops));
        stored.load(bytes.len(), &file, Ok(&bytes));
        stored.load(bytes.len() - 1, &file, Err(8));
        stored.write(file.len(), &bytes, Ok(&file));
        stored.write(file.len() - 1, &bytes, Err(8));
    }
    for count in [1, 64] {
        let ops = numbered(count);
        let (bytes, file) = (ops.concat(), file_of(&ops));
        stored.load(bytes.len() + 37, &file, Ok(&bytes));
        stored.load(0, &file, Err(8));
        stored.write(file.len() + 37, &bytes, Ok(&file));
        stored.write(0, &bytes, Err(8));
    }
}

#[test]
fn the_largest_programs() {
    let stored = Stored::read();
    let ops = numbered(4_032);
    stored.load(32_256, &file_of(&ops), Ok(&ops.concat()));
    // DO i ends at 4,031 - i; the innermost is 2,014 with last 2,017.
    let mut nested = vec![IDLE; 4_032];
    for i in 0..=2_014 {
        nested[usize::from(i)] = do_lit(1, 4_031 - i);
    }
    stored.write(33_792, &nested.concat(), Ok(&file_of(&nested)));
    nested[2_014] = do_lit(1, 2_018);
    stored.write(32_768, &nested.concat(), Err(5));
}

#[test]
fn forms_of_some_kinds() {
    let stored = Stored::read();
    for ops in [
        vec![add_both(0), add_both(1)],
        vec![negate(0), negate(1)],
        vec![END_EARLY],
        vec![CLEAR_S],
        [0, 1, 255, 256, 32_767].map(|n| [repeat(n), IDLE]).concat(),
        (0..14).flat_map(|r| [repeat_w(r), IDLE]).collect(),
        (0..14)
            .flat_map(|r| [do_w(r, 3 * u16::from(r) + 2), IDLE, IDLE])
            .collect(),
        (0..14)
            .flat_map(|r| [shift_by(0, r), shift_by(1, r)])
            .collect(),
    ] {
        stored.write_of(&ops, 0);
        stored.load(512, &file_of(&ops), Ok(&ops.concat()));
    }
}

#[test]
fn refusal_1() {
    let stored = Stored::read();
    let one = file_of(&[IDLE]);
    stored.load_refused(&[], 1);
    stored.load_refused(&one[..511], 1);
    stored.load_refused(&[&one[..], &[0]].concat(), 1);
    stored.load_refused(&file_of(&numbered(65 * 63)), 1);
    stored.load_refused(&file_of(&numbered(66 * 63)), 1);
    stored.write(0, &[], Err(1));
    stored.write(512, &[16, 0, 0, 0, 0, 0, 0], Err(1));
    stored.write(512, &[16, 0, 0, 0, 0, 0, 0, 0, 16], Err(1));
    stored.write(33_280, &numbered(4_033).concat(), Err(1));
}

#[test]
fn refusal_2() {
    let stored = Stored::read();
    let (one, two) = (file_of(&numbered(2)), file_of(&numbered(64)));
    // Operation 0's kind in block 0, operation 63's in block 1.
    stored.load_refused(&with(one.clone(), &[(8, 17)]), 2);
    stored.load_refused(&with(two.clone(), &[(520, 17)]), 2);
    // 2 + 16 + 16 + 1 + 1 = 36: not 37, not 36 + 256.
    assert_eq!(one[4..6], [36, 0]);
    stored.load_refused(&with(one.clone(), &[(4, 37)]), 2);
    stored.load_refused(&with(one.clone(), &[(5, 1)]), 2);
    // 1 + 16 + 238 = 255; 256 is that with bytes 4 and 5 counted.
    stored.load_refused(&with(file_of(&[lit(0, 238)]), &[(4, 0), (5, 1)]), 2);
    // Byte 3 is not zero, and not in the sum: 2 before 3.
    stored.load_refused(&with(one.clone(), &[(3, 1)]), 2);
    // Block 0's sum before block 1's header.
    let header = with_sums(two.clone(), &[(515, 1)]);
    let sum = header[4] ^ 1;
    stored.load_refused(&with(header, &[(4, sum)]), 2);
    stored.load(0, &with(one, &[(3, 1)]), Err(2));
}

#[test]
fn refusal_3() {
    let stored = Stored::read();
    let (one, two) = (file_of(&[IDLE]), file_of(&numbered(64)));
    for at in [0, 1, 3, 6, 7, 16, 511] {
        stored.load_refused(&with_sums(one.clone(), &[(at, 1)]), 3);
    }
    for (at, value) in [(512, 0), (512, 2), (513, 1), (519, 1), (528, 1)] {
        stored.load_refused(&with_sums(two.clone(), &[(at, value)]), 3);
    }
    // Counts 0, 64, 255; 62 in a block before the last, with nothing past them.
    stored.load_refused(&[0; 512], 3);
    let full = file_of(&numbered(63));
    stored.load_refused(&with_sums(full.clone(), &[(2, 64)]), 3);
    stored.load_refused(&with_sums(full, &[(2, 255)]), 3);
    for (file, block) in [(two.clone(), 0), (file_of(&numbered(127)), 512)] {
        let mut short = file;
        short[block + 504..block + 512].fill(0);
        stored.load_refused(&with_sums(short, &[(block + 2, 62)]), 3);
    }
    // Block 0's header before block 1's sum, a header before an operation.
    let header = with_sums(two.clone(), &[(3, 1)]);
    let sum = header[516] ^ 1;
    stored.load_refused(&with(header, &[(516, sum)]), 3);
    stored.load_refused(&with_sums(two, &[(8, 0), (515, 1)]), 3);
}

#[test]
fn refusal_4_of_files() {
    let stored = Stored::read();
    // A count of 2 over one operation: the second is of kind 0.
    stored.load_refused(&with_sums(file_of(&[IDLE]), &[(2, 2)]), 4);
    // DO's last is past the program, but kind 0 stands there: 4 before 5.
    let ops = [do_lit(0, 9), do_lit(0, 9), with_kind_0(do_lit(0, 9))];
    stored.load_refused(&file_of(&ops), 4);
    // 504 bytes of 255 and 63: 128,583 = 65,536 + 63,047.
    let block = file_of(&[[255; 8]; 63]);
    assert_eq!(u16::from_le_bytes([block[4], block[5]]), 63_047);
    stored.load_refused(&block, 4);
    stored.load(0, &with_sums(file_of(&[IDLE]), &[(2, 2)]), Err(4));
}

fn with_kind_0(mut op: Op) -> Op {
    op[0] = 0;
    op
}

#[test]
fn refusal_4_of_kinds_1_to_7() {
    let stored = Stored::read();
    for op in [
        // Target 2, b2 in use, pointer 7, write-back 3.
        clr(2, 0x48, 0x4A, 0x54, 0),
        [1, 0, 1, 0x48, 0x4A, 0x54, 0, 0],
        clr(0, 0x47, 0x4A, 0x54, 0),
        clr(0, 0x48, 0x4A, 0x54, 3),
        // Factors 3 and 8, write-back in kind 2.
        mpy(0, 0x53, 0x48, 0x4A, 0x54),
        mpy(0, 0x84, 0x48, 0x4A, 0x54),
        [2, 0, 0x54, 0x48, 0x4A, 0x54, 1, 0],
        // X: a destination without a read, pointer 10, step 7, a stepped sum.
        mac(0, 0x54, 0x00, 0x4A, 0x54, 0),
        mac(0, 0x54, 0x4A, 0x4A, 0x54, 0),
        mac(0, 0x54, 0x78, 0x4A, 0x54, 0),
        mac(0, 0x54, 0x1C, 0x4A, 0x54, 0),
        // Y: the same, pointers 9 and 12.
        mac(0, 0x54, 0x48, 0x00, 0x54, 0),
        mac(0, 0x54, 0x48, 0x49, 0x54, 0),
        mac(0, 0x54, 0x48, 0x4C, 0x54, 0),
        mac(0, 0x54, 0x48, 0x7A, 0x54, 0),
        mac(0, 0x54, 0x48, 0x1D, 0x54, 0),
        // Reads without a destination, destinations 3, equal ones.
        mac(0, 0x54, 0x48, 0x4A, 0x50, 0),
        mac(0, 0x54, 0x48, 0x4A, 0x04, 0),
        mac(0, 0x54, 0x48, 0x4A, 0x53, 0),
        mac(0, 0x54, 0x48, 0x4A, 0x44, 0),
        // Squares: different factors, a high nibble in b5, one read, b6.
        ed(0, 0x54, 0x48, 0x4A, 0x04),
        ed(0, 0x44, 0x48, 0x4A, 0x54),
        edac(0, 0x44, 0x00, 0x4A, 0x04),
        [6, 0, 0x44, 0x48, 0x4A, 0x04, 1, 0],
        movsac(2, 0x48, 0x4A, 0x54, 0),
    ] {
        stored.write_of(&[op, IDLE, IDLE, IDLE], 4);
    }
}

#[test]
fn refusal_4_of_other_kinds() {
    let stored = Stored::read();
    for op in [
        [8, 0, 1, 0, 0, 0, 0, 0],
        shift_by(0, 14),
        lac(0, 8, 0, 0),
        lac(0, 0, 14, 0),
        sac(0, 0, 0, 4),
        lit(14, 0),
        load(0, 0, 0),
        load(14, 0, 1),
        store(0, 14, 1),
        store(0, 0, 4),
        repeat(32_768),
        repeat_w(14),
        do_lit(32_768, 2),
        do_w(14, 2),
        [23, 1, 0, 0, 0, 0, 0, 0],
        // US 2 and 3, bits 2 and 8.
        mode(0x2000),
        mode(0x3000),
        mode(0x0004),
        mode(0x0100),
        [25, 0, 0, 0, 0, 0, 1, 0],
        [0; 8],
        [255, 0, 0, 0, 0, 0, 0, 0],
    ] {
        stored.write_of(&[op, IDLE, IDLE, IDLE], 4);
    }
    // b7 in loads.
    for kind in [8, 14, 16, 23, 25] {
        let b2 = if kind == 14 { 8 } else { 0 };
        let file = file_of(&[[kind, 0, b2, 0, 0, 0, 0, 1], IDLE, IDLE, IDLE]);
        stored.load_refused(&file, 4);
    }
}

#[test]
fn refusal_5_of_loops() {
    let stored = Stored::read();
    let placed = |count, loops: &[(usize, u16)], good: bool| {
        let by = |op: fn(u16) -> Op| -> Vec<Op> {
            let named: Vec<_> = loops.iter().map(|&(at, last)| (at, op(last))).collect();
            program(count, &named)
        };
        let by_literal = by(|last| do_lit(1, last));
        let by_register = by(|last| do_w(1, last));
        if good {
            stored.write_of(&by_literal, 0);
            stored.write_of(&by_register, 0);
        } else {
            stored.write_of(&by_literal, 5);
            stored.load_refused(&file_of(&by_register), 5);
        }
    };
    placed(3, &[(0, 2)], true);
    // One after the other; five deep.
    placed(6, &[(0, 2), (3, 5)], true);
    placed(12, &[(0, 11), (1, 10), (2, 9), (3, 8), (4, 7)], true);
    // Last at DO, next to it, past the program.
    placed(8, &[(3, 3)], false);
    placed(8, &[(3, 4)], false);
    placed(8, &[(3, 8)], false);
    // Overlapping, sharing a last, in the outer's last place.
    placed(8, &[(0, 4), (2, 6)], false);
    placed(8, &[(0, 5), (2, 5)], false);
    placed(8, &[(0, 3), (3, 5)], false);
    // 5 before 8.
    let ops = program(8, &[(3, do_lit(1, 0))]);
    stored.write(0, &ops.concat(), Err(5));
    stored.load(0, &file_of(&ops), Err(5));
}

#[test]
fn refusal_5_of_repeats() {
    let stored = Stored::read();
    let r = repeat(1);
    let nest = [(0, do_lit(1, 6)), (1, do_lit(1, 4))];
    // Before the last operation of the program, of a loop.
    stored.write_of(&[r, IDLE], 0);
    stored.write_of(&[do_lit(1, 3), IDLE, r, IDLE, IDLE], 0);
    // Last in the program, of a loop, of the inner and of the outer one.
    stored.write_of(&[r], 5);
    stored.write_of(&[do_lit(1, 3), IDLE, IDLE, r, IDLE], 5);
    stored.write_of(&program(8, &[nest[0], nest[1], (4, r)]), 5);
    stored.write_of(&program(8, &[nest[0], nest[1], (6, r)]), 5);
    // Before kinds 19 to 22.
    for next in [repeat(1), repeat_w(1), do_lit(1, 3), do_w(1, 3)] {
        stored.write_of(&[r, next, IDLE, IDLE], 5);
        let file = file_of(&[repeat_w(1), next, IDLE, IDLE]);
        stored.load_refused(&file, 5);
    }
}
