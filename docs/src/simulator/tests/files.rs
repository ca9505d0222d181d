//! Files there and back.

mod common;
use common::*;
use simulator::encode::encode_all;
use simulator::generate::layout::Layout;
use simulator::generate::program::{program, Style};
use simulator::generate::random::Random;
use simulator::{load as load_file, write as write_file};

fn there_and_back(bytes: &[u8]) {
    let blocks = (bytes.len() / 8).div_ceil(63);
    let mut file = vec![0xEE; 512 * blocks + 3];
    assert_eq!(write_file(bytes, &mut file), Ok(512 * blocks));
    assert_eq!(file[512 * blocks..], [0xEE; 3]);
    file.truncate(512 * blocks);
    let mut back = vec![0xEE; bytes.len() + 5];
    assert_eq!(load_file(&file, &mut back), Ok(bytes.len()));
    assert_eq!(&back[..bytes.len()], bytes);
    assert_eq!(back[bytes.len()..], [0xEE; 5]);
    let mut again = vec![0x11; file.len()];
    assert_eq!(write_file(&back[..bytes.len()], &mut again), Ok(file.len()));
    assert_eq!(again, file);
}

#[test]
fn random_programs_there_and_back() {
    let mut random = Random::new(11);
    let counts = (1..=130).chain([189, 190, 252, 253, 1_000, 4_031, 4_032]);
    for count in counts {
        let layout = Layout::random(&mut random);
        let style = Style::random(&mut random, true);
        let operations = program(&mut random, &layout, style, count);
        assert_eq!(operations.len(), count);
        there_and_back(&encode_all(&operations));
    }
    for _ in 0..300 {
        let count = random.range(1, 4_032) as usize;
        let layout = Layout::random(&mut random);
        let style = Style::random(&mut random, true);
        there_and_back(&encode_all(&program(&mut random, &layout, style, count)));
    }
}

#[test]
fn the_writer_fills_blocks_as_the_paper_lays_them_out() {
    let ops: Vec<Op> = (0..64).map(|n| lit((n % 14) as u8, n)).collect();
    let mut file = vec![0xEE; 1_024];
    assert_eq!(write_file(&ops.concat(), &mut file), Ok(1_024));
    assert_eq!(file, file_of(&ops));
    assert_eq!(file[..4], [0, 0, 63, 0]);
    assert_eq!(file[512..516], [1, 0, 1, 0]);
    assert_eq!(file[6..16], [0, 0, 16, 0, 0, 0, 0, 0, 0, 0]);
    assert_eq!(file[520..528], [16, 7, 63, 0, 0, 0, 0, 0]);
    // Block 1: 1 + 1 + 16 + 7 + 63.
    assert_eq!(file[516..518], [88, 0]);
    assert!(file[528..].iter().all(|&byte| byte == 0));
}
