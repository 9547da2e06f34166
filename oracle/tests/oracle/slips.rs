//! The wear task once more, as a list of calls on the bytes, and with slips
//! that look right.

use oracle::step_on_bytes;

use crate::peek::{self, Peek};

/// The operation, with a slip or without one.
pub type Wear = fn(&mut [u8], &[u8], u8) -> u64;

/// Makes the slips out of one listing, and out of each of its groups a list of
/// names and operations, so that no slip can be left untried.
macro_rules! slips {
    ($($(#[$about:meta])* $group:ident: $($slip:ident),*;)*) => {
        /// What is done wrong.
        #[derive(Clone, Copy, PartialEq)]
        pub enum Slip {
            Nothing,
            $($($slip,)*)*
        }

        $(
            $(#[$about])*
            pub const $group: &[(&str, Wear)] = &[
                $((stringify!($slip), |area, set, slot| wear(area, set, slot, Slip::$slip)),)*
            ];
        )*
    };
}

slips! {
    /// The operation with each of the slips that take no bad set.
    SLIPS:
        HighestOnATie,
        PicksTheLastCount,
        PicksUnusable,
        OnlyUsableCountsTested,
        CountPlusTwo,
        ErasesCellFirst,
        PlaceOneTooHigh,
        PlaceOfTheGroup,
        PassesTheCodeAlone,
        OwnSlotAsHolder,
        TenForAHeldCell,
        NegativeBeforeTheReads,
        SlotBeforeSet,
        LogsMayHaveEntries,
        DropsTheReads,
        WritesThoughNoneIsLeft;

    /// The operation with a set taken for good that is a bad one for one reason.
    BAD_SETS_TAKEN:
        TakesNoByte,
        TakesAnOddLength,
        TakesNineGroups,
        TakesACellNotBelowN,
        TakesACellTwice,
        TakesAWrongKind;
}

const LAST_COUNT: u32 = 0x7fff_ffff;

/// Makes the operation. Without a slip it is right.
pub fn wear(area: &mut [u8], set: &[u8], slot: u8, slip: Slip) -> u64 {
    if !peek::well_formed(area) {
        return 1 << 40;
    }
    let peek = Peek(area);
    let slot_is_wrong = slot == 0 || slot > 8;
    if slip == Slip::SlotBeforeSet && slot_is_wrong {
        return 3 << 40;
    }
    if !set_is_good(&peek, set, slip) {
        return 32 << 40;
    }
    if slot_is_wrong {
        return 3 << 40;
    }
    let some_entry = peek.reads(slot) + peek.writes(slot) > 0;
    if peek.phase(slot) != 1 || some_entry && slip != Slip::LogsMayHaveEntries {
        return 4 << 40;
    }
    if slip == Slip::NegativeBeforeTheReads {
        let words: Vec<u32> = set.iter().map(|cell| peek.word(usize::from(*cell))).collect();
        if let Some(number) = negative(&words, slip) {
            return number;
        }
    }
    level(area, set, slot, slip)
}

/// Each slip passes over one reason and over no other.
fn set_is_good(peek: &Peek, set: &[u8], slip: Slip) -> bool {
    let length = set.len();
    let fewest = if slip == Slip::TakesNoByte { 0 } else { 1 };
    let most = if slip == Slip::TakesNineGroups { 18 } else { 16 };
    let whole_groups = length.is_multiple_of(2) || slip == Slip::TakesAnOddLength;
    let right_length = whole_groups && length >= fewest && length <= most;
    right_length && (0..length).all(|place| cell_is_good(peek, set, place, slip))
}

fn cell_is_good(peek: &Peek, set: &[u8], place: usize, slip: Slip) -> bool {
    let cell = usize::from(set[place]);
    let below_n = cell < peek.n();
    let kind = if place.is_multiple_of(2) { 1 } else { 2 };
    let right_kind = !below_n || peek.kind(cell) == kind;
    let once = !set[..place].contains(&set[place]);
    (below_n || slip == Slip::TakesACellNotBelowN)
        && (once || slip == Slip::TakesACellTwice)
        && (right_kind || slip == Slip::TakesAWrongKind)
}

fn level(area: &mut [u8], set: &[u8], slot: u8, slip: Slip) -> u64 {
    let before = area.to_vec();
    let mut words = vec![0; set.len()];
    for turn in 0..set.len() {
        let place = if slip == Slip::ErasesCellFirst { turn ^ 1 } else { turn };
        let number = step_on_bytes(area, 2, slot, set[place], 0, 0);
        if number >> 40 != 0 {
            if slip == Slip::DropsTheReads {
                area.copy_from_slice(&before);
            }
            return passed_on(number, slot, slip) + told(place, slip);
        }
        words[place] = number as u32;
    }
    if let Some(number) = negative(&words, slip) {
        return number;
    }
    let Some(group) = pick(&words, slip) else {
        if slip == Slip::WritesThoughNoneIsLeft {
            step_on_bytes(area, 3, slot, set[1], 2, words[1]);
        }
        return 34 << 40;
    };
    let more = if slip == Slip::CountPlusTwo { 2 } else { 1 };
    let place = 2 * group + 1;
    step_on_bytes(area, 3, slot, set[place], 2, words[place].wrapping_add(more));
    (2 << 32) + group as u64
}

/// What the core has replied.
fn passed_on(number: u64, slot: u8, slip: Slip) -> u64 {
    let held = number >> 40 == 14;
    match slip {
        Slip::PassesTheCodeAlone => number >> 40 << 40,
        Slip::OwnSlotAsHolder if held => (number >> 8 << 8) + u64::from(slot),
        Slip::TenForAHeldCell if held => 10 << 40,
        _ => number,
    }
}

/// The part of the number that tells the place.
fn told(place: usize, slip: Slip) -> u64 {
    let place = match slip {
        Slip::PlaceOneTooHigh => place + 1,
        Slip::PlaceOfTheGroup => place / 2,
        _ => place,
    };
    (place as u64) << 48
}

fn negative(words: &[u32], slip: Slip) -> Option<u64> {
    let counts = |place: &usize| slip != Slip::OnlyUsableCountsTested || words[place - 1] == 1;
    let mut places = (1..words.len()).step_by(2).filter(counts);
    let place = places.find(|place| words[*place] > LAST_COUNT)?;
    Some(told(place, slip) + (33 << 40))
}

fn pick(words: &[u32], slip: Slip) -> Option<usize> {
    let mut picked: Option<usize> = None;
    for group in 0..words.len() / 2 {
        let (usable, erases) = (words[2 * group], words[2 * group + 1]);
        let fewest = picked.map_or(LAST_COUNT, |group| words[2 * group + 1]);
        let fewer = match slip {
            Slip::HighestOnATie => erases <= fewest && erases < LAST_COUNT,
            Slip::PicksTheLastCount if picked.is_none() => true,
            _ => erases < fewest,
        };
        if fewer && (usable == 1 || slip == Slip::PicksUnusable) {
            picked = Some(group);
        }
    }
    picked
}
