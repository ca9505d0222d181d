//! decode and encode: decode accepts only what encodes back to its bytes.

use simulator::decode::decode;
use simulator::encode::encode;
use simulator::generate::layout::Layout;
use simulator::generate::program::{program, Style};
use simulator::generate::random::Random;

fn agrees(bytes: [u8; 8]) -> bool {
    match decode(&bytes) {
        Some(operation) => {
            assert_eq!(encode(&operation), bytes);
            assert_eq!(operation.kind(), bytes[0]);
            true
        }
        None => false,
    }
}

#[test]
fn random_bytes() {
    let mut random = Random::new(21);
    let mut good = 0;
    for _ in 0..2_000_000 {
        let mut bytes = random.number().to_le_bytes();
        bytes[0] %= 27;
        // Mostly zeros and small nibbles, so that some are good.
        for byte in &mut bytes[1..] {
            *byte = match random.below(4) {
                0 | 1 => 0,
                2 => *byte & 15,
                _ => *byte,
            };
        }
        good += usize::from(agrees(bytes));
    }
    assert!(good > 10_000, "{good}");
}

#[test]
fn near_misses_of_good_operations() {
    let mut random = Random::new(22);
    let (mut good, mut bad) = ([0; 26], [0; 26]);
    for _ in 0..400 {
        let layout = Layout::random(&mut random);
        let style = Style::random(&mut random, true);
        for operation in program(&mut random, &layout, style, 60) {
            let bytes = encode(&operation);
            assert_eq!(decode(&bytes), Some(operation));
            let kind = usize::from(operation.kind());
            for at in 1..8 {
                for bit in 0..8 {
                    let mut near = bytes;
                    near[at] ^= 1 << bit;
                    if agrees(near) {
                        good[kind] += 1;
                    } else {
                        bad[kind] += 1;
                    }
                }
            }
        }
    }
    assert!(bad[1..].iter().all(|&count| count > 1_000), "{bad:?}");
    let free = [2, 3, 4, 11, 12, 13, 14, 15, 16, 17, 18, 19, 21, 22, 24];
    assert!(free.iter().all(|&kind| good[kind] > 300), "{good:?}");
}

#[test]
fn every_value_of_every_two_bytes_of_a_few_kinds() {
    for kind in [1, 5, 12, 17, 21, 24] {
        for word in 0..=u16::MAX {
            let [low, high] = word.to_le_bytes();
            agrees([kind, 0, low, high, 0, 0, 0, 0]);
            agrees([kind, low, 0, high, 1, 0, 0, 0]);
            agrees([kind, 0, 0, 0x38, low, high, 0, 0]);
        }
    }
}
