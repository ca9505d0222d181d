//! The bit-reversed next address by a second way of working out, and the stored lines
//! of the parts about it.

use simulator::cases::Case;
use simulator::form::Form;
use simulator::generate::runs::parts;

use crate::common::stored_case_files;

/// Every N.
pub const SIZES: [u16; 10] = [2, 4, 8, 16, 32, 64, 128, 256, 512, 1_024];

/// The index written in binary digits, log2 N of them, read from the right.
pub fn turned(index: u16, n: u16) -> u16 {
    let digits = n.trailing_zeros() as usize;
    let text: String = format!("{index:0digits$b}").chars().rev().collect();
    u16::from_str_radix(&text, 2).expect("binary digits")
}

/// The next address by these digits: the block of 2 N bytes stays, the index changes.
pub fn next_by_digits(address: u16, n: u16) -> u16 {
    let block = address / (2 * n) * (2 * n);
    let visited = turned((address - block) / 2, n);
    block + 2 * turned((visited + 1) % n, n)
}

/// Every N with the address of every index in the first block.
pub fn places() -> Vec<(u16, u16)> {
    let of = |n: u16| (0..n).map(move |index| (n, 0x1000 + 2 * index));
    SIZES.into_iter().flat_map(of).collect()
}

/// The fields of a stored line that are looked at.
pub struct Line {
    pub text: String,
    pub ending: String,
    pub accumulators: [i64; 2],
    pub w: Vec<u16>,
    pub check: u32,
}

fn line_of(text: &str) -> Line {
    let fields: Vec<&str> = text.split(' ').collect();
    let word = |field: &&str| u16::from_str_radix(field, 16).expect("four digits");
    Line {
        text: text.to_string(),
        ending: fields[0].to_string(),
        accumulators: [2, 3].map(|at| fields[at].parse().expect("a number")),
        w: fields[13..27].iter().map(word).collect(),
        check: fields[27].parse().expect("a number"),
    }
}

/// The cases of a part, all short, with their stored lines.
pub fn stored_part(wanted: &str) -> Vec<(Case, Line)> {
    let stored = String::from_utf8(stored_case_files("stdout")).unwrap();
    let mut lines = stored.lines();
    for (name, forms) in parts() {
        if name == wanted {
            let case = |form| match form {
                Form::Short(case) => case,
                Form::Long(_) => panic!("a long case"),
            };
            let cases = forms.into_iter().map(case);
            return cases.zip(lines.map(line_of)).collect();
        }
        lines.nth(forms.len() - 1);
    }
    panic!("no part of that name")
}
