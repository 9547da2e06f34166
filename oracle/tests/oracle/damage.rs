//! Areas damaged one byte at a time: what is still well formed must be
//! unpacked without loss, and everything else must be refused.

use std::collections::BTreeMap;

use oracle::{faults, step_on_bytes, wellformed, Machine, Random};

use crate::bench::Bench;
use crate::peek;
use crate::sentences::NO_UPDATE_LOST;

#[derive(Default)]
struct Tally {
    still_well_formed: u64,
    /// How often each sentence was broken.
    broken: BTreeMap<&'static str, u64>,
    /// The damages after which an update is lost and nothing else is at fault:
    /// the place and the byte.
    lost_alone: Vec<(usize, u8)>,
}

/// Puts another byte in one place, checks, and puts the right one back.
fn damage(area: &mut [u8], place: usize, byte: u8, tally: &mut Tally) {
    let right = std::mem::replace(&mut area[place], byte);
    let broken = faults(area);
    assert_eq!(broken.is_empty(), peek::well_formed(area), "place {place}, {broken:?}");
    match Machine::unpack(area) {
        Some(machine) => {
            assert_eq!(machine.pack(), area, "place {place}");
            tally.still_well_formed += 1;
        }
        None => assert!(!broken.is_empty(), "place {place}"),
    }
    for sentence in &broken {
        *tally.broken.entry(sentence).or_default() += 1;
    }
    if broken == [NO_UPDATE_LOST] {
        tally.lost_alone.push((place, byte));
    }
    area[place] = right;
}

fn damage_everywhere(area: &mut [u8], random: &mut Random, tally: &mut Tally) {
    for place in 0..area.len() {
        let byte = area[place];
        let flipped = byte ^ (1 << random.up_to(7));
        let near = byte.wrapping_add(1 + 254 * random.up_to(1) as u8);
        // A byte that stands elsewhere in the area is likely to make sense.
        let other = area[random.place(area.len())];
        for new in [flipped, near, other] {
            if new != byte {
                damage(area, place, new, tally);
            }
        }
    }
}

fn check(tally: &Tally) {
    assert!(tally.still_well_formed >= 1000, "{}", tally.still_well_formed);
    // With n alone the lent length goes wrong, and then nothing else is asked.
    // Few areas have a slot that one byte makes lose an update: they are below.
    let elsewhere = ["n from 1 to 64", NO_UPDATE_LOST];
    for sentence in wellformed::sentences().filter(|words| !elsewhere.contains(words)) {
        let broken = tally.broken.get(sentence).copied().unwrap_or_default();
        assert!(broken >= 5, "{sentence}: {broken}");
    }
}

#[test]
fn reached_areas_damaged_one_byte_at_a_time() {
    let mut tally = Tally::default();
    for seed in 0..50 {
        let mut random = Random::new(seed);
        let machine = random.reached().expect("a machine");
        let mut area = machine.pack();
        damage_everywhere(&mut area, &mut random, &mut tally);
    }
    check(&tally);
}

#[test]
fn any_well_formed_areas_damaged_one_byte_at_a_time() {
    let mut tally = Tally::default();
    for seed in 0..50 {
        let mut random = Random::new(1000 + seed);
        let mut area = random.machine().pack();
        damage_everywhere(&mut area, &mut random, &mut tally);
    }
    check(&tally);
}

/// All 255 other bytes at every place of the header, the cells and the
/// numbers of the slots, of an area with a slot in each phase.
#[test]
fn every_damage_to_one_area() {
    let mut bench = Bench::of_wholes(4);
    bench.make_all(&["begin 1", "read 1 0", "write 1 3 whole 5", "begin 2", "write 2 0 whole 6"]);
    bench.make_all(&["write 2 1 whole 7", "close 2", "lock 2", "begin 3", "read 3 2", "close 3"]);
    bench.make_all(&["enter 3", "begin 4", "read 4 3", "write 4 2 whole 8", "write 4 3 whole 9"]);
    bench.make_all(&["close 4", "lock 4", "lock 4", "enter 4", "finish 4", "publish 4"]);
    let tally = damaged_with_every_byte(bench.bytes);
    assert!(tally.still_well_formed >= 1000, "{}", tally.still_well_formed);
}

/// The numbers are those of the first five slots and of a few of their entries.
fn damaged_with_every_byte(mut area: Vec<u8>) -> Tally {
    let slots_at = 14 + 14 * peek::Peek(&area).n();
    let numbers_of_slot = |slot: usize| (0..40).chain(117..130).map(move |at| 197 * slot + at);
    let of_slots = (0..5).flat_map(numbers_of_slot).map(|at| slots_at + at);
    let mut tally = Tally::default();
    for place in (0..slots_at).chain(of_slots) {
        for difference in 1..=255 {
            let byte = area[place] ^ difference;
            damage(&mut area, place, byte, &mut tally);
        }
    }
    tally
}

/// All have read cell 1, which is newer. Slot 1 is in twilight and writes cell 2,
/// which is newer, too. Slots 2 and 3 have the flag: slot 2 is in twilight and
/// writes cell 4, which it has read, and 9; slot 3 has published cell 6, which it
/// has read, and not yet 7, which it has read, and 8.
fn with_marks_and_flags() -> Bench {
    let mut bench = Bench::of_wholes(10);
    for (slot, reads) in [(1, [1, 2, 3]), (2, [1, 4, 5]), (3, [1, 6, 7])] {
        bench.make_all(&[&format!("begin {slot}")]);
        reads.iter().for_each(|cell| bench.make_all(&[&format!("read {slot} {cell}")]));
    }
    bench.make_all(&["write 1 2 whole 5", "write 2 4 whole 5", "write 2 9 whole 5"]);
    bench.make_all(&["write 3 6 whole 5", "write 3 7 whole 5", "write 3 8 whole 5"]);
    [1, 2].into_iter().for_each(|cell| bench.renew(4, cell));
    bench.make_all(&["close 1", "lock 1", "enter 1"]);
    bench.make_all(&["close 2", "lock 2", "lock 2", "enter 2", "ignore 2"]);
    bench.make_all(&["close 3", "lock 3", "lock 3", "lock 3", "enter 3", "ignore 3"]);
    bench.make_all(&["finish 3", "publish 3"]);
    assert_eq!([1, 2, 3].map(|slot| bench.peek().marks(slot)), [[1, 1, 0], [1, 0, 0], [1, 0, 0]]);
    bench
}

/// A read entry has its mark after its cell. No other byte will do: a cell that
/// is in the read log already would be there twice, a written cell that is not
/// yet published is held under its own number, and an entry more, all zero,
/// would be of cell 0, which is not marked.
#[test]
fn every_damage_to_an_area_with_marks() {
    let bench = with_marks_and_flags();
    let peek = bench.peek();
    let lost = [
        // The flag of slot 1.
        (peek.slot_at(1) + 1, 1),
        // In slot 2 cell 9 for the marked one, and a mark on cell 4.
        (peek.read_at(2, 0), 9),
        (peek.read_at(2, 1) + 1, 1),
        // In slot 3 cell 8 for the marked one, and a mark on cells 6 and 7.
        (peek.read_at(3, 0), 8),
        (peek.read_at(3, 1) + 1, 1),
        (peek.read_at(3, 2) + 1, 1),
        // There the marked cell for the published one, which no one holds.
        (peek.write_at(3, 0), 1),
    ];
    assert_eq!(damaged_with_every_byte(bench.bytes.clone()).lost_alone, lost);
}

#[test]
fn a_step_on_a_damaged_area_gives_1_and_changes_no_byte() {
    let mut refused = 0;
    for seed in 0..3000 {
        let mut random = Random::new(seed);
        let mut area = random.machine().pack();
        let place = random.place(area.len());
        area[place] ^= random.between(1, 255) as u8;
        if peek::well_formed(&area) {
            continue;
        }
        let before = area.clone();
        let call = random.junk_call();
        let (cell, kind, word) = (call.cell, call.kind, call.word);
        let number = step_on_bytes(&mut area, call.step, call.slot, cell, kind, word);
        assert_eq!(number, 1 << 40);
        assert_eq!(area, before);
        refused += 1;
    }
    assert!(refused >= 1000, "{refused}");
}
