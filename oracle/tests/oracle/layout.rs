//! The lay-out of a fresh area.

use oracle::{lay_out_on_bytes, Machine};

fn lay_out(area_length: usize, descriptions: &[u8]) -> (u64, Vec<u8>) {
    let mut area = vec![0xa5; area_length];
    let code = lay_out_on_bytes(&mut area, descriptions);
    (code, area)
}

/// Wholes, each of value 7.
fn descriptions(n: usize) -> Vec<u8> {
    [2, 0, 0, 0, 7].repeat(n)
}

#[test]
fn every_number_of_cells_has_its_length() {
    for n in 1..=64 {
        let (code, area) = lay_out(1590 + 14 * n, &descriptions(n));
        assert_eq!(code, 0);
        let machine = Machine::unpack(&area).expect("a well-formed area");
        assert!(machine.at_rest());
        assert_eq!((machine.cells().len(), machine.clock()), (n, 0));
        assert!(machine.cells().iter().all(|cell| cell.stamp == 0));
    }
}

#[test]
fn wrong_lengths_give_1_and_nothing_is_written() {
    let right = 1590 + 14 * 2;
    let mut cases = vec![(1590, 0), (1590 + 14 * 65, 65 * 5), (0, 10), (0, 0)];
    cases.extend([(right - 1, 10), (right + 1, 10), (right + 14, 10)]);
    cases.extend([(right, 9), (right, 11), (right, 14), (1590 + 14 * 13107, 65535)]);
    for (length, described) in cases {
        let (code, area) = lay_out(length, &descriptions(13108)[..described]);
        assert_eq!(code, 1, "{length} {described}");
        assert!(area.iter().all(|byte| *byte == 0xa5), "{length} {described}");
    }
}

#[test]
fn an_illegal_description_gives_6_and_nothing_is_written() {
    let illegal = [
        [0, 0, 0, 0, 0],
        [4, 0, 0, 0, 0],
        [255, 0, 0, 0, 0],
        [1, 0, 0, 0, 2],
        [1, 1, 0, 0, 0],
        [3, 0x7f, 0x80, 0, 0],
        [3, 0xff, 0x80, 0, 0],
        [3, 0x7f, 0xc0, 0, 1],
    ];
    for description in illegal {
        for place in 0..3 {
            let mut all = descriptions(3);
            all[5 * place..5 * place + 5].copy_from_slice(&description);
            let (code, area) = lay_out(1590 + 14 * 3, &all);
            assert_eq!(code, 6, "{description:?}");
            assert!(area.iter().all(|byte| *byte == 0xa5), "{description:?}");
        }
    }
}

#[test]
fn a_wrong_length_is_told_before_an_illegal_description() {
    assert_eq!(lay_out(1604, &[9, 9, 9, 9]).0, 1);
    assert_eq!(lay_out(1605, &[9, 0, 0, 0, 0]).0, 1);
    assert_eq!(lay_out(1604, &[9, 0, 0, 0, 0]).0, 6);
}
