//! Packing, unpacking, and what is well formed.

use oracle::{area_length, faults, step_on_bytes, well_formed, Machine, Random, Value};

use crate::bench::Bench;
use crate::peek;

#[test]
fn the_length_is_that_of_the_document() {
    assert_eq!(area_length(1), 1604);
    assert_eq!(area_length(64), 2486);
}

#[test]
fn a_fresh_area_byte_by_byte() {
    let bench = Bench::fresh(&[Value::Real(-2.5), Value::Truth(true)]);
    let mut expected = vec![1, 0, 0, 0x06, 0x52, 2, 0, 0, 0, 0, 0, 0, 0, 0];
    expected.extend([3, 0, 0xc0, 0x20, 0, 0, 0, 0, 0, 0, 0, 0, 0, 0]);
    expected.extend([1, 0, 0, 0, 0, 1, 0, 0, 0, 0, 0, 0, 0, 0]);
    expected.resize(1618, 0);
    assert_eq!(bench.bytes, expected);
}

/// Every number of a slot's record, at the place that the document gives.
#[test]
fn a_publishing_slot_byte_by_byte() {
    let mut bench = Bench::of_wholes(3).at_clock(0x0102_0304_0506_0708);
    bench.make_all(&["begin 2", "read 2 1", "read 2 0", "write 2 2 whole 0x11223344"]);
    bench.make_all(&["write 2 1 whole -2", "begin 1", "write 1 0 whole 0x55667788", "close 1"]);
    bench.make_all(&["lock 1", "enter 1", "finish 1", "publish 1"]);
    bench.make_all(&["close 2", "lock 2", "lock 2", "enter 2", "ignore 2", "finish 2"]);
    bench.make_all(&["publish 2"]);
    let mut expected = vec![4, 1, 1, 2, 2];
    expected.extend([1, 2, 3, 4, 5, 6, 7, 8]);
    expected.extend([1, 2, 3, 4, 5, 6, 7, 10]);
    expected.extend([1, 0, 0, 0, 0, 1]);
    expected.extend([0, 1, 0, 0, 0, 0]);
    expected.resize(21 + 6 * 16, 0);
    expected.extend([1, 0xff, 0xff, 0xff, 0xfe]);
    expected.extend([2, 0x11, 0x22, 0x33, 0x44]);
    expected.resize(197, 0);
    let at = 14 + 14 * 3 + 197;
    assert_eq!(bench.bytes[at..at + 197], expected);
    // Published with the commit stamp and free; not yet published and held.
    let cell_1 = [2, 0, 0xff, 0xff, 0xff, 0xfe, 1, 2, 3, 4, 5, 6, 7, 10];
    let cell_2 = [2, 2, 0, 0, 0, 2, 0, 0, 0, 0, 0, 0, 0, 0];
    assert_eq!(bench.bytes[28..42], cell_1);
    assert_eq!(bench.bytes[42..56], cell_2);
}

#[test]
fn every_machine_comes_back_from_its_bytes() {
    let mut slots = 0;
    for seed in 0..5000 {
        let machine = Random::new(seed).machine();
        let bytes = machine.pack();
        assert_eq!(bytes.len(), area_length(machine.cells().len()));
        assert_eq!(faults(&bytes), [""; 0]);
        assert!(peek::well_formed(&bytes));
        slots += machine.transactions().count();
        assert_eq!(Machine::unpack(&bytes), Some(machine));
    }
    assert!(slots > 10_000, "{slots}");
}

#[test]
fn bytes_that_are_no_area_are_refused_with_code_1_and_left_alone() {
    let mut random = Random::new(1);
    for length in (0..3000).step_by(7).chain([0, 1, 5, 6, 1590, 1604, 2486, 2500]) {
        let zeros = vec![0; length];
        let junk: Vec<u8> = (0..length).map(|_| random.byte()).collect();
        let mut headed = zeros.clone();
        let header = [1, 0, 0, (length >> 8) as u8, length as u8, random.byte()];
        for (byte, headed) in header.iter().zip(&mut headed) {
            *headed = *byte;
        }
        for bytes in [zeros, junk, headed] {
            let mut lent = bytes.clone();
            assert_eq!(step_on_bytes(&mut lent, 0, 9, 0, 0, 0), 1 << 40);
            assert_eq!(lent, bytes);
            assert!(!well_formed(&bytes) && !faults(&bytes).is_empty());
        }
    }
}

#[test]
fn a_well_formed_area_with_a_byte_more_or_less_is_not() {
    let bytes = Bench::of_wholes(2).bytes;
    let more: Vec<u8> = bytes.iter().copied().chain([0]).collect();
    for wrong in [&bytes[1..], &bytes[..bytes.len() - 1], &more] {
        assert_eq!(faults(wrong), ["the lent length, the length field and the formula agree"]);
        assert_eq!(Machine::unpack(wrong), None);
    }
}
