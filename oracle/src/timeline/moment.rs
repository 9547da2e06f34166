//! What happens in one step, in the words that are drawn.

use crate::call::{Call, Refusal, Reply, Step};
use crate::machine::{Machine, Phase, Transaction, SLOTS};
use crate::value::Value;

/// The lane of the steps whose slot is none.
pub(super) const NO_SLOT: u8 = 0;

/// So many marked cells are named; of more, the number is told.
const MARKS_NAMED: usize = 3;

/// So many lines are on the reasons for marks.
const REASON_LINES: usize = 2;

/// The cell's stamp is above the start.
const NEWER: &str = "is newer";

/// The marked cell is also in the write log.
const WRITTEN: &str = "is written";

/// The phase of a slot, as a lane shows it.
#[derive(Clone, Copy, Debug, PartialEq, Eq)]
pub(super) enum Shade {
    Idle,
    Open,
    Locking,
    Twilight,
    Publishing,
}

impl Shade {
    pub const ALL: [Shade; 5] =
        [Shade::Idle, Shade::Open, Shade::Locking, Shade::Twilight, Shade::Publishing];

    pub fn name(self) -> &'static str {
        match self {
            Shade::Idle => "idle",
            Shade::Open => "open",
            Shade::Locking => "locking",
            Shade::Twilight => "twilight",
            Shade::Publishing => "publishing",
        }
    }

    fn of(slot: Option<&Transaction>) -> Shade {
        match slot.map(|own| own.phase) {
            None => Shade::Idle,
            Some(Phase::Open) => Shade::Open,
            Some(Phase::Locking { .. }) => Shade::Locking,
            Some(Phase::Twilight(_)) => Shade::Twilight,
            Some(Phase::Publishing { .. }) => Shade::Publishing,
        }
    }
}

/// What makes a step worth a tag above its lane.
#[derive(Clone, Copy, Debug, PartialEq, Eq)]
pub(super) enum TagKind {
    Stamp,
    Mark,
    Commit,
    NoCommit,
    Refused,
}

#[derive(Clone, Debug)]
pub(super) struct Tag {
    pub kind: TagKind,
    pub words: String,
}

/// A cell that a step needs or has read, and the other slot that holds it.
#[derive(Clone, Copy, Debug)]
pub(super) struct Obstacle {
    pub cell: u8,
    pub holder: u8,
}

/// What a slot shows during a step.
#[derive(Clone, Debug)]
pub(super) struct Showing {
    /// The phase after the step, or before it if the step turns the slot idle:
    /// so the lane of a transaction has its last step on it too.
    pub shade: Shade,
    /// Whether the slot is not idle after the step.
    pub goes_on: bool,
    /// The cells that it holds before or after the step, in ascending order.
    pub held: Vec<u8>,
}

/// One step of a run.
pub(super) struct Moment {
    pub place: usize,
    pub lane: u8,
    pub code: u8,
    pub name: String,
    /// Below the name: the cell, the value, or what came of it.
    pub lines: Vec<String>,
    pub tags: Vec<Tag>,
    pub obstacles: Vec<Obstacle>,
    pub showings: Vec<Showing>,
    pub clock: u64,
}

impl Moment {
    /// Makes the step and tells of it.
    pub fn made(machine: &mut Machine, place: usize, call: Call) -> Moment {
        let before = machine.clone();
        let reply = machine.step(call);
        let view = View { before: &before, after: machine, call };
        let step = Step::numbered(call.step);
        let known_slot = (1..=SLOTS).contains(&usize::from(call.slot));
        let obstacles = view.obstacles(step, reply);
        let mut lines = view.lines(step, reply, obstacles.first());
        if !known_slot {
            lines.insert(0, format!("slot {}", call.slot));
        }
        Moment {
            place,
            lane: if known_slot { call.slot } else { NO_SLOT },
            code: reply.code(),
            name: step.map_or_else(|| format!("step {}", call.step), |step| step.name().into()),
            lines,
            tags: view.tags(step, reply),
            obstacles,
            showings: (1..=SLOTS as u8).map(|slot| view.showing(slot)).collect(),
            clock: machine.clock(),
        }
    }

    /// Whether nothing was changed: every code but 0 and 13 says so.
    pub fn is_refused(&self) -> bool {
        ![0, 13].contains(&self.code)
    }

    /// What a lane shows during the step.
    pub fn showing(&self, lane: u8) -> Option<&Showing> {
        self.showings.get(usize::from(lane).checked_sub(1)?)
    }
}

/// A step with the machine before and after it.
struct View<'a> {
    before: &'a Machine,
    after: &'a Machine,
    call: Call,
}

impl View<'_> {
    fn showing(&self, slot: u8) -> Showing {
        let (before, after) = (self.before.slot(slot), self.after.slot(slot));
        let shade = Shade::of(after.or(before));
        let mut held: Vec<u8> = Vec::new();
        for own in [before, after].into_iter().flatten() {
            held.extend(own.held().map(|write| write.cell));
        }
        held.sort_unstable();
        held.dedup();
        Showing { shade, goes_on: after.is_some(), held }
    }

    /// What is in the way of a refused step; after enter, those of its marks
    /// that are due to a holder. A reload may have more than one cell in its
    /// way: drawn is the one that its reply names, which is all that the task
    /// is told. The next one is drawn where a later reload meets it.
    fn obstacles(&self, step: Option<Step>, reply: Reply) -> Vec<Obstacle> {
        match (step, reply) {
            (_, Reply::Refused(Refusal::ReadHeld { holder })) => {
                vec![Obstacle { cell: self.call.cell, holder }]
            }
            (_, Reply::Refused(Refusal::HeldByAnother { cell, holder })) => {
                vec![Obstacle { cell, holder }]
            }
            (Some(Step::Enter), Reply::Answer(_)) => self.held_reads(),
            _ => Vec::new(),
        }
    }

    /// The cells that were read and that another slot holds.
    fn held_reads(&self) -> Vec<Obstacle> {
        let reads = self.before.slot(self.call.slot).map_or(&[][..], |own| &own.reads);
        let held = reads.iter().filter_map(|read| {
            let holder = self.before.other_holder(read.cell, self.call.slot)?;
            Some(Obstacle { cell: read.cell, holder })
        });
        held.collect()
    }

    /// The lowest cell of the write log that is not yet taken or published.
    fn next_lock(&self) -> Option<u8> {
        let own = self.before.slot(self.call.slot)?;
        let done = match own.phase {
            Phase::Locking { taken } => taken,
            Phase::Publishing { published, .. } => published,
            Phase::Open | Phase::Twilight(_) => return None,
        };
        own.writes.get(done).map(|write| write.cell)
    }

    /// Of the marked cells that are written, too, the first in read-log order.
    fn first_marked_written(&self) -> Option<u8> {
        self.before.slot(self.call.slot)?.marked_written().next()
    }

    fn lines(&self, step: Option<Step>, reply: Reply, obstacle: Option<&Obstacle>) -> Vec<String> {
        let Some(step) = step else {
            return Vec::new();
        };
        let mut lines = Vec::new();
        if let Some(cell) = self.cell_of(step, reply, obstacle) {
            lines.push(format!("cell {cell}"));
        }
        if step == Step::Enter && !reply.is_refused() {
            lines.extend(self.mark_reasons());
        }
        lines.extend(match reply {
            Reply::Ended => Some("code 13".to_string()),
            Reply::Refused(refusal) => self.refused_line(step, refusal, obstacle),
            Reply::Done | Reply::Answer(_) => self.result_line(step, reply),
        });
        lines
    }

    fn cell_of(&self, step: Step, reply: Reply, obstacle: Option<&Obstacle>) -> Option<u8> {
        match (step, reply) {
            _ if step.uses_cell() => Some(self.call.cell),
            (Step::Lock | Step::Publish, Reply::Done) => self.next_lock(),
            (Step::Lock | Step::Reload, Reply::Refused(_)) => obstacle.map(|found| found.cell),
            (Step::Ignore, Reply::Refused(Refusal::MarkedWritten)) => self.first_marked_written(),
            _ => None,
        }
    }

    fn refused_line(
        &self,
        step: Step,
        refusal: Refusal,
        obstacle: Option<&Obstacle>,
    ) -> Option<String> {
        match (refusal, obstacle) {
            (_, Some(Obstacle { holder, .. })) => Some(held_by(*holder)),
            (Refusal::ReadNewer, None) => Some(NEWER.to_string()),
            (Refusal::MarkedWritten, None) => Some(WRITTEN.to_string()),
            _ if step.uses_value() => Some(format!(":= {}", self.brought())),
            _ => None,
        }
    }

    /// What an accepted step has brought about.
    fn result_line(&self, step: Step, reply: Reply) -> Option<String> {
        let own = self.after.slot(self.call.slot);
        let marked = own.is_some_and(Transaction::some_mark);
        let line = match (step, reply) {
            (Step::Begin, _) => format!("start {}", own?.start),
            (Step::Ask, Reply::Answer(Value::Truth(true))) => "marked".to_string(),
            (Step::Ask, _) => "no mark".to_string(),
            (Step::Enter | Step::Reload | Step::Ignore, _) if !marked => "no marks".to_string(),
            (Step::Ignore, _) => "flag set".to_string(),
            (Step::Read | Step::Reread, Reply::Answer(value)) => format!("= {}", words(value)),
            (Step::Write | Step::Update, _) => format!(":= {}", self.brought()),
            (Step::Publish, _) => {
                let cell = self.after.cells().get(usize::from(self.next_lock()?))?;
                format!(":= {}", words(cell.value))
            }
            (Step::Finish, _) => format!("stamp {}", self.commit_stamp()?),
            _ => return None,
        };
        Some(line)
    }

    /// The value of a write or an update, which may be illegal.
    fn brought(&self) -> String {
        let Call { kind, word, .. } = self.call;
        let value = Value::described(kind, word);
        value.map_or_else(|| format!("{kind}/{word:08x}"), words)
    }

    fn commit_stamp(&self) -> Option<u64> {
        Some(self.before.slot(self.call.slot)?.commit()?.stamp)
    }

    fn tags(&self, step: Option<Step>, reply: Reply) -> Vec<Tag> {
        let tag = |kind, words: &str| vec![Tag { kind, words: words.to_string() }];
        match (step, reply) {
            (_, Reply::Refused(refusal)) => {
                tag(TagKind::Refused, &format!("code {}", refusal.code()))
            }
            (_, Reply::Ended) | (Some(Step::GiveUp), _) => tag(TagKind::NoCommit, "no commit"),
            (Some(Step::Finish), _) => tag(TagKind::Commit, "commit"),
            (Some(Step::Enter | Step::Reload), _) => {
                let mut tags = tag(TagKind::Stamp, &format!("stamp {}", self.after.clock()));
                tags.extend(self.mark_tag());
                tags
            }
            _ => Vec::new(),
        }
    }

    /// Why enter has marked: the cell and the reason, or if several are marked
    /// the reasons, each once. Two lines are enough, and pointers lead to all
    /// holders.
    fn mark_reasons(&self) -> Vec<String> {
        let reads = self.after.slot(self.call.slot).map_or(&[][..], |own| &own.reads);
        let marked: Vec<u8> =
            reads.iter().filter(|read| read.marked).map(|read| read.cell).collect();
        let mut lines = match marked[..] {
            [cell] => vec![format!("cell {cell}")],
            _ => Vec::new(),
        };
        for cell in marked {
            let holder = self.before.other_holder(cell, self.call.slot);
            let reason = holder.map_or_else(|| NEWER.to_string(), held_by);
            if !lines.contains(&reason) {
                lines.push(reason);
            }
        }
        lines.truncate(REASON_LINES);
        lines
    }

    fn mark_tag(&self) -> Option<Tag> {
        let reads = &self.after.slot(self.call.slot)?.reads;
        let marked = reads.iter().filter(|read| read.marked);
        let cells: Vec<String> = marked.map(|read| read.cell.to_string()).collect();
        let named = cells.iter().take(MARKS_NAMED).cloned().collect::<Vec<_>>().join(" ");
        let words = match cells.len() {
            0 => return None,
            1 => format!("mark {named}"),
            2..=MARKS_NAMED => format!("marks {named}"),
            more => format!("marks {named} +{}", more - MARKS_NAMED),
        };
        Some(Tag { kind: TagKind::Mark, words })
    }
}

/// A value without its kind.
pub(super) fn words(value: Value) -> String {
    match value {
        Value::Truth(truth) => truth.to_string(),
        Value::Whole(whole) => whole.to_string(),
        // As in the text form: both zeros are told apart.
        Value::Real(real) => format!("{real:?}"),
    }
}

/// Who is in the way, by the name of the lane.
fn held_by(holder: u8) -> String {
    format!("held by {}", lane_name(holder))
}

/// What stands at the left of a lane.
pub(super) fn lane_name(lane: u8) -> String {
    match lane {
        NO_SLOT => "no slot".to_string(),
        slot => format!("slot {slot}"),
    }
}
