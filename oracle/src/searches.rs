//! Where the cells stand that are looked for in a write log, for the tallies of
//! what a comparison has reached. A search that ends too early or too late is
//! seen only at some of these places.

use crate::call::{Call, Step};
use crate::counts::{rarest, Count};
use crate::machine::{Machine, Transaction};

/// How many counts there are, and so how many least ones.
pub(crate) const COUNTED: usize = WITH_ROOM.len() + FULL.len() + LOOKED.len();

/// The steps that look for their cell in the write log. The last one has to do so
/// only where the log is full.
const SEEKING: [Step; 3] = [Step::Read, Step::Update, Step::Write];

/// What a place is called, and whether a cell is sought there.
type Place = (&'static str, fn(&Sought) -> bool);

/// What is counted of ignores, and whether one is such.
type Order = (&'static str, fn(&Looked) -> bool);

/// A write log's cells, and one that is looked for among them.
struct Sought<'a> {
    cells: &'a [u8],
    cell: u8,
}

impl Sought<'_> {
    fn is_below(&self) -> bool {
        self.cells.iter().all(|cell| self.cell < *cell)
    }

    fn is_above(&self) -> bool {
        self.cells.iter().all(|cell| self.cell > *cell)
    }

    fn is_entry(&self) -> bool {
        self.cells.contains(&self.cell)
    }

    fn is_in_a_gap(&self) -> bool {
        !self.is_entry() && !self.is_below() && !self.is_above()
    }

    fn is_first(&self) -> bool {
        self.cells.first() == Some(&self.cell)
    }

    fn is_last(&self) -> bool {
        self.cells.last() == Some(&self.cell)
    }

    fn is_full(&self) -> bool {
        self.cells.len() == Transaction::LOG_ROOM
    }
}

/// Where a cell may be sought in a log of several entries that is not full.
const WITH_ROOM: [Place; 6] = [
    ("below a log with room", |sought| sought.is_below()),
    ("in a gap of a log with room", |sought| sought.is_in_a_gap()),
    ("above a log with room", |sought| sought.is_above()),
    ("the first entry of a log with room", |sought| sought.is_first()),
    ("the last entry of a log with room", |sought| sought.is_last()),
    ("another entry of a log with room", |sought| {
        sought.is_entry() && !sought.is_first() && !sought.is_last()
    }),
];

/// Where it may be sought in a full one.
const FULL: [Place; 4] = [
    ("below a full log", |sought| sought.is_below()),
    ("in a gap of a full log", |sought| sought.is_in_a_gap()),
    ("above a full log", |sought| sought.is_above()),
    ("an entry of a full log", |sought| sought.is_entry()),
];

/// The marked cells and the written ones, and the code of the ignore.
struct Looked<'a> {
    marked: &'a [u8],
    written: &'a [u8],
    code: u8,
}

impl Looked<'_> {
    /// No cell from there on can be a marked one, so that the look may end.
    fn some_written_is_above(&self) -> bool {
        self.written.last() > self.marked.iter().max()
    }
}

/// How several marked and several written cells may lie.
const LOOKED: [Order; 3] = [
    ("ignores, done, a written cell above all of several marked ones", |looked| {
        looked.code == 0 && looked.some_written_is_above()
    }),
    ("code 15, a written cell above all of several marked ones", |looked| {
        looked.code == 15 && looked.some_written_is_above()
    }),
    ("ignores, all of several marked cells above all written ones", |looked| {
        looked.marked.iter().min() > looked.written.last()
    }),
];

/// The place of the step with this number among those that seek.
fn place_of(step: u8) -> Option<usize> {
    SEEKING.iter().position(|seeking| seeking.number() == step)
}

/// Counts of searches in logs of several entries. Those of places are by step,
/// too: a search may be wrong in one of them alone.
#[derive(Clone, Debug, Default)]
pub(crate) struct Searches {
    with_room: [[u64; SEEKING.len() - 1]; WITH_ROOM.len()],
    full: [[u64; SEEKING.len()]; FULL.len()],
    looked: [u64; LOOKED.len()],
}

impl Searches {
    /// Whether a call of this step is one to be noted.
    pub fn is_about(step: u8) -> bool {
        step == Step::Ignore.number() || place_of(step).is_some()
    }

    /// Notes a reply by its code, with the machine before the call. Codes 1 to 7
    /// are given before a log is looked at.
    pub fn note(&mut self, before: &Machine, call: Call, code: u8) {
        let looks = Searches::is_about(call.step) && !(1..=7).contains(&code);
        let Some(own) = before.slot(call.slot).filter(|own| looks && own.writes.len() > 1) else {
            return;
        };
        let written: Vec<u8> = own.writes.iter().map(|write| write.cell).collect();
        match place_of(call.step) {
            Some(step) => self.note_sought(step, Sought { cells: &written, cell: call.cell }),
            None => {
                let marked: Vec<u8> = own.marked().collect();
                self.note_looked(Looked { marked: &marked, written: &written, code });
            }
        }
    }

    fn note_sought(&mut self, step: usize, sought: Sought) {
        if sought.is_full() {
            note_place(&mut self.full, &FULL, step, &sought);
        } else {
            note_place(&mut self.with_room, &WITH_ROOM, step, &sought);
        }
    }

    fn note_looked(&mut self, looked: Looked) {
        if looked.marked.len() < 2 {
            return;
        }
        for (count, (_, is_such)) in self.looked.iter_mut().zip(LOOKED) {
            *count += u64::from(is_such(&looked));
        }
    }

    /// The counts with these least ones, in this order.
    pub fn counts(&self, least: [u64; COUNTED]) -> Vec<Count> {
        let with_room = of_places(&self.with_room, &WITH_ROOM);
        let full = of_places(&self.full, &FULL);
        let looked = LOOKED.iter().zip(self.looked);
        let looked = looked.map(|((name, _), count)| (name.to_string(), count));
        let all = with_room.chain(full).chain(looked);
        all.zip(least).map(|((name, count), least)| (name, count, least)).collect()
    }
}

/// Notes where a cell is sought by a step. One that does not have to seek in such
/// a log has no count.
fn note_place<const STEPS: usize>(
    counts: &mut [[u64; STEPS]],
    places: &[Place],
    step: usize,
    sought: &Sought,
) {
    for (counts, (_, is_there)) in counts.iter_mut().zip(places) {
        counts.get_mut(step).into_iter().for_each(|count| *count += u64::from(is_there(sought)));
    }
}

/// Of each place the count of the step that has been there least.
fn of_places<'a, const STEPS: usize>(
    counts: &'a [[u64; STEPS]],
    places: &'a [Place],
) -> impl Iterator<Item = (String, u64)> + 'a {
    places.iter().zip(counts).map(|((place, _), counts)| {
        (format!("sought {place}, by the step that does so least"), rarest(counts))
    })
}
