//! Refusal 4: operations with one byte just beside what is listed for it.

use super::forms::Bytes;

/// A good operation, and for its bytes b1 to b7 the values that miss.
type Row = (Bytes, [&'static [u8]; 7]);

/// A byte that is not used.
const UNUSED: &[u8] = &[1];
/// Any byte is good, or refusal 5 judges it.
const ANY: &[u8] = &[];
const TARGET: &[u8] = &[2];
const REGISTER: &[u8] = &[14];
/// Factors 3 and 8 beside 0x54.
const FACTORS: &[u8] = &[0x00, 0x53, 0x58, 0x34, 0x84];
/// Factors that differ, or are both off, beside 0x44.
const SQUARE: &[u8] = &[0x00, 0x54, 0x45, 0x33, 0x88];
/// No read for the destination, pointers 7 and 10, step 7, a stepped sum.
const X: &[u8] = &[0x00, 0x47, 0x4A, 0x78, 0x1C];
/// No read for the destination, pointers 9 and 12, step 7, a stepped sum.
const Y: &[u8] = &[0x00, 0x49, 0x4C, 0x7A, 0x1D];
/// Reads without a destination, destinations 3 and 8, equal destinations.
const DESTINATIONS: &[u8] = &[0x00, 0x50, 0x04, 0x53, 0x58, 0x34, 0x84, 0x44];
/// No destination, 3 and 8, a high nibble.
const DIFFERENCE: &[u8] = &[0x00, 0x03, 0x08, 0x54];
const WRITE_BACK: &[u8] = &[3];
const SHIFT: &[u8] = &[16];
const FORM: &[u8] = &[4];
const POINTER_FORM: &[u8] = &[0, 4];
/// The high byte of a count of 32,768.
const COUNT: &[u8] = &[0x80];
/// Mode bits 2 and 3.
const MODE_LOW: &[u8] = &[0x04, 0x08];
/// Mode bits 8 to 11, US 2 and 3, bits 14 and 15.
const MODE_HIGH: &[u8] = &[0x01, 0x02, 0x04, 0x08, 0x20, 0x30, 0x40, 0x80];

/// Kinds 3 and 6 have every miss, the kinds that share their fields some each.
#[rustfmt::skip]
const ROWS: [Row; 25] = [
    ([1, 0, 0, 0x48, 0x4A, 0x54, 0, 0], [TARGET, UNUSED, &[0x47], &[0x1D], &[0x50, 0x44], WRITE_BACK, UNUSED]),
    ([2, 0, 0x54, 0x48, 0x4A, 0x54, 0, 0], [TARGET, &[0x53, 0x84], &[0x4A], &[0x7A], &[0x04, 0x55], UNUSED, UNUSED]),
    ([3, 0, 0x54, 0x48, 0x4A, 0x54, 0, 0], [TARGET, FACTORS, X, Y, DESTINATIONS, WRITE_BACK, UNUSED]),
    ([4, 0, 0x54, 0x48, 0x4A, 0x54, 0, 0], [TARGET, &[0x58, 0x34], &[0x78], &[0x4C], &[0x53, 0x66], WRITE_BACK, UNUSED]),
    ([5, 0, 0x44, 0x48, 0x4A, 0x04, 0, 0], [TARGET, &[0x54], &[0x00], &[0x00], &[0x54], UNUSED, UNUSED]),
    ([6, 0, 0x44, 0x48, 0x4A, 0x04, 0, 0], [TARGET, SQUARE, X, Y, DIFFERENCE, UNUSED, UNUSED]),
    ([7, 0, 0, 0x48, 0x4A, 0x54, 0, 0], [TARGET, UNUSED, &[0x1C], &[0x49], &[0x84, 0x77], WRITE_BACK, UNUSED]),
    ([8, 0, 0, 0, 0, 0, 0, 0], [TARGET, UNUSED, UNUSED, UNUSED, UNUSED, UNUSED, UNUSED]),
    ([9, 0, 0, 0, 0, 0, 0, 0], [TARGET, UNUSED, UNUSED, UNUSED, UNUSED, UNUSED, UNUSED]),
    ([10, 0, 0, 0, 0, 0, 0, 0], [TARGET, UNUSED, UNUSED, UNUSED, UNUSED, UNUSED, UNUSED]),
    ([11, 0, 0, 0, 0, 0, 0, 0], [TARGET, UNUSED, REGISTER, UNUSED, UNUSED, UNUSED, UNUSED]),
    ([12, 0, 8, 0, 0, 0, 0, 0], [TARGET, SHIFT, REGISTER, FORM, UNUSED, UNUSED, UNUSED]),
    ([13, 0, 8, 0, 0, 0, 0, 0], [TARGET, SHIFT, REGISTER, FORM, UNUSED, UNUSED, UNUSED]),
    ([14, 0, 8, 0, 0, 0, 0, 0], [TARGET, SHIFT, REGISTER, FORM, UNUSED, UNUSED, UNUSED]),
    ([15, 0, 8, 0, 0, 0, 0, 0], [TARGET, SHIFT, REGISTER, FORM, UNUSED, UNUSED, UNUSED]),
    ([16, 0, 0, 0, 0, 0, 0, 0], [REGISTER, ANY, ANY, UNUSED, UNUSED, UNUSED, UNUSED]),
    ([17, 0, 0, 0, 1, 0, 0, 0], [REGISTER, UNUSED, REGISTER, POINTER_FORM, UNUSED, UNUSED, UNUSED]),
    ([18, 0, 0, 0, 1, 0, 0, 0], [REGISTER, UNUSED, REGISTER, POINTER_FORM, UNUSED, UNUSED, UNUSED]),
    ([19, 0, 0, 0, 0, 0, 0, 0], [UNUSED, ANY, COUNT, UNUSED, UNUSED, UNUSED, UNUSED]),
    ([20, 0, 0, 0, 0, 0, 0, 0], [REGISTER, UNUSED, UNUSED, UNUSED, UNUSED, UNUSED, UNUSED]),
    ([21, 0, 0, 0, 2, 0, 0, 0], [UNUSED, ANY, COUNT, ANY, ANY, UNUSED, UNUSED]),
    ([22, 0, 0, 0, 2, 0, 0, 0], [REGISTER, UNUSED, UNUSED, ANY, ANY, UNUSED, UNUSED]),
    ([23, 0, 0, 0, 0, 0, 0, 0], [UNUSED, UNUSED, UNUSED, UNUSED, UNUSED, UNUSED, UNUSED]),
    ([24, 0, 0, 0, 0, 0, 0, 0], [UNUSED, MODE_LOW, MODE_HIGH, UNUSED, UNUSED, UNUSED, UNUSED]),
    ([25, 0, 0, 0, 0, 0, 0, 0], [UNUSED, UNUSED, UNUSED, UNUSED, UNUSED, UNUSED, UNUSED]),
];

/// Kinds that are not listed, kind 0 with the fields of kinds 1 and 3 too.
const NO_KINDS: [Bytes; 5] = [
    [0, 0, 0, 0, 0, 0, 0, 0],
    [0, 0, 0, 0x48, 0x4A, 0x54, 0, 0],
    [0, 0, 0x54, 0x48, 0x4A, 0x54, 0, 0],
    [255, 0, 0, 0, 0, 0, 0, 0],
    [26, 0, 0, 0, 0, 0, 0, 0],
];

/// For each kind the operations that miss in one byte, b7 last; then those of
/// no kind.
pub fn misses() -> Vec<Vec<Bytes>> {
    let of_kinds = ROWS.iter().map(misses_of);
    of_kinds.chain([NO_KINDS.to_vec()]).collect()
}

fn misses_of((good, off): &Row) -> Vec<Bytes> {
    let mut misses = Vec::new();
    for (at, values) in (1..).zip(off) {
        for &value in *values {
            let mut bytes = *good;
            bytes[at] = value;
            misses.push(bytes);
        }
    }
    misses
}
