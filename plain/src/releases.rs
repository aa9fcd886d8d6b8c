//! What is told for a request from its release to its collect, compared with
//! the partition reader's list at the release (document 02, P6): first come the
//! reads of the list, in its order, and all of them; what else is told is the
//! front job's. It goes by the calls, what was answered, and the model's state
//! after each, so that another implementation's answers can be compared, too.

use crate::calls::{Ask, Call, Outcome};
use crate::joined::joined;
use crate::reader::{Condition, condition, level_of, read_partition};
use crate::state::{Command, READ, State};
use std::collections::BTreeMap;

/// What may be met with a request that is collected.
#[derive(Clone, Copy, Debug, PartialEq, Eq, PartialOrd, Ord)]
pub enum Case {
    /// A read of an unmarked level: the block's own slot, or a dummy's.
    OwnUnmarked,
    Dummy,
    /// A read of a source: the block's own slot, another block's, a dummy's.
    OwnInSource,
    EarlyBlock,
    EarlyDummy,
    /// The job has read the block's slot, and another item of its level is
    /// read, or none as none is unread.
    OwnReadBefore,
    OwnSpent,
    /// A source has no unread slot.
    Spent,
    /// The list is empty.
    Nothing,
    /// The request was held before.
    Held,
    /// Its store was loaded.
    Loaded,
    /// Before the collect a call is refused; among them a turn, though a read
    /// is due, as too many commands are outstanding.
    Refused,
    TooMany,
    /// Before the collect a job's command is told: beside the request, or of
    /// another partition.
    JobBeside,
    JobElsewhere,
}

impl Case {
    pub const ALL: [Case; 15] = joined(&[&Case::READS, &Case::AROUND]);

    /// In the list.
    pub const READS: [Case; 9] = [
        Case::OwnUnmarked,
        Case::Dummy,
        Case::OwnInSource,
        Case::EarlyBlock,
        Case::EarlyDummy,
        Case::OwnReadBefore,
        Case::OwnSpent,
        Case::Spent,
        Case::Nothing,
    ];

    /// Before the release and after it.
    pub const AROUND: [Case; 6] = [
        Case::Held,
        Case::Loaded,
        Case::Refused,
        Case::TooMany,
        Case::JobBeside,
        Case::JobElsewhere,
    ];
}

/// Which list is compared. All but the first are wrong, so that the comparison
/// can be seen to fail.
#[derive(Clone, Copy, Debug, Default, PartialEq, Eq)]
pub enum Taken {
    #[default]
    AtRelease,
    /// When the request is accepted, though it may be held.
    AtAcceptance,
    /// After the first turn.
    TurnLater,
    /// At the release, but a level's condition is asked after its read.
    ConditionLater,
    /// As if no level were marked.
    Unmarked,
}

impl Taken {
    pub const WRONG: [Taken; 4] = [
        Taken::AtAcceptance,
        Taken::TurnLater,
        Taken::ConditionLater,
        Taken::Unmarked,
    ];
}

/// A released request.
struct InHand {
    block: usize,
    partition: usize,
    list: Vec<(usize, usize)>,
    /// How many commands were told since the release.
    told: usize,
    /// By level and slot of its partition, which were read.
    read: Vec<Vec<bool>>,
    met: Vec<Case>,
}

/// Follows the calls to one store after the other.
#[derive(Default)]
pub struct Releases {
    taken: Taken,
    in_hand: Option<InHand>,
    /// The list of the request accepted last, if it is held.
    held: Option<Vec<(usize, usize)>>,
    loaded: bool,
    /// With how many collected requests each case was met, and all of these.
    pub times: BTreeMap<Case, usize>,
    pub collected: usize,
}

impl Releases {
    pub fn new(taken: Taken) -> Releases {
        Releases {
            taken,
            ..Releases::default()
        }
    }

    /// The cases that were met more rarely than this.
    pub fn seldom(&self, fewest: usize) -> Vec<Case> {
        let of = |case: &Case| self.times.get(case).copied().unwrap_or(0);
        let all = Case::ALL.into_iter();
        all.filter(|case| of(case) < fewest).collect()
    }

    /// Takes note of a call, what it was answered, and the state after it, or
    /// none if the store is closed. Says what departs from the list.
    pub fn call(
        &mut self,
        call: &Call,
        outcome: &Outcome,
        state: Option<&State>,
    ) -> Result<(), String> {
        let Some(state) = state else {
            (self.in_hand, self.loaded) = (None, false);
            return Ok(());
        };
        match (&call.ask, outcome.number) {
            (Ask::Open(_), _) => (self.in_hand, self.loaded) = (None, false),
            (Ask::Load(_) | Ask::Reload, _) => (self.in_hand, self.loaded) = (None, true),
            (Ask::Request { block, .. }, 0) => self.accept(state, *block),
            (Ask::Turn, 0) => self.told(outcome.command, state)?,
            (Ask::Collect, 0) => self.collect()?,
            (_, 0) => {}
            (ask, number) => self.refused(ask, number)?,
        }
        self.release(state)
    }

    fn accept(&mut self, state: &State, block: usize) {
        let held = state.request.as_ref().is_some_and(|r| r.is_held());
        self.held = held.then(|| read_partition(state, block));
    }

    /// Takes the list once a request is released, which it then stays.
    fn release(&mut self, state: &State) -> Result<(), String> {
        let released = state.request.as_ref().filter(|r| !r.is_held());
        let request = match (released, &self.in_hand) {
            (None, Some(_)) => return Err("a released request is held again".into()),
            (Some(request), None) => request,
            _ => return Ok(()),
        };
        let (block, partition) = (request.block, state.partition[request.block]);
        let right = read_partition(state, block);
        let mut met = cases(state, block, &right);
        let held = self.held.take();
        met.extend(held.is_some().then_some(Case::Held));
        met.extend(self.loaded.then_some(Case::Loaded));
        let list = match (self.taken, held) {
            (Taken::AtAcceptance, Some(early)) => early,
            (Taken::Unmarked, _) => read_unmarked(state, block),
            _ => right,
        };
        let levels = state.levels[partition].iter();
        self.in_hand = Some(InHand {
            block,
            partition,
            list,
            told: 0,
            read: levels.map(|level| level.read.clone()).collect(),
            met,
        });
        Ok(())
    }

    fn told(&mut self, command: Command, state: &State) -> Result<(), String> {
        let taken = self.taken;
        let Some(in_hand) = &mut self.in_hand else {
            return Ok(());
        };
        match (taken, in_hand.due()) {
            (Taken::TurnLater, _) if in_hand.told == 0 => {
                in_hand.list = read_partition(state, in_hand.block);
            }
            (Taken::ConditionLater, Some((level, _)))
                if condition(state, in_hand.partition, level) == Condition::AllRead =>
            {
                in_hand.list.remove(in_hand.told);
            }
            _ => {}
        }
        in_hand.told(command, state)
    }

    fn refused(&mut self, ask: &Ask, number: u8) -> Result<(), String> {
        let Some(in_hand) = &mut self.in_hand else {
            return Ok(());
        };
        in_hand.met.push(Case::Refused);
        let due = in_hand.due();
        match (ask, number) {
            (Ask::Turn, 9) if due.is_some() => in_hand.met.push(Case::TooMany),
            (Ask::Turn, 10) if due.is_some() => return Err(format!("{due:?} is not sent")),
            _ => {}
        }
        Ok(())
    }

    fn collect(&mut self) -> Result<(), String> {
        let in_hand = self.in_hand.take().ok_or("no released request")?;
        if let Some(due) = in_hand.due() {
            return Err(format!("collected before {due:?} is sent"));
        }
        self.collected += 1;
        for case in Case::ALL {
            if in_hand.met.contains(&case) {
                *self.times.entry(case).or_default() += 1;
            }
        }
        Ok(())
    }
}

impl InHand {
    /// The next read of the list.
    fn due(&self) -> Option<(usize, usize)> {
        self.list.get(self.told).copied()
    }

    fn told(&mut self, command: Command, state: &State) -> Result<(), String> {
        let wanted = match self.due() {
            Some((level, slot)) => Some(Command {
                kind: READ,
                partition: self.partition,
                level,
                slot,
            }),
            None => self.job_command(command, state),
        };
        if wanted != Some(command) {
            let (list, at) = (&self.list, self.told);
            return Err(format!(
                "{command:?} at {at} after the release, by {list:?}"
            ));
        }
        if command.kind == READ && command.partition == self.partition {
            self.read[command.level][command.slot] = true;
        }
        self.told += 1;
        Ok(())
    }

    /// What the front job may send as this is told. Beside the request it reads
    /// the first unread slot of its sources; elsewhere it may be anything.
    fn job_command(&mut self, told: Command, state: &State) -> Option<Command> {
        let front = *state.queue.front()?;
        if front != self.partition {
            self.met.push(Case::JobElsewhere);
            return Some(Command {
                partition: front,
                ..told
            });
        }
        self.met.push(Case::JobBeside);
        let levels = 0..self.read.len();
        let mut marked = levels.filter(|level| condition(state, front, *level).is_marked());
        marked.find_map(|level| {
            let slot = self.read[level].iter().position(|read| !read)?;
            Some(Command {
                kind: READ,
                partition: front,
                level,
                slot,
            })
        })
    }
}

/// The cases of a list in the state in which it is taken.
fn cases(state: &State, block: usize, list: &[(usize, usize)]) -> Vec<Case> {
    let all = (0..state.shape.levels).flat_map(|level| {
        let read = list.iter().find(|(there, _)| *there == level);
        of_level(state, block, level, read.map(|(_, slot)| *slot))
    });
    let mut met: Vec<Case> = all.collect();
    met.extend(list.is_empty().then_some(Case::Nothing));
    met
}

fn of_level(state: &State, block: usize, level: usize, read: Option<usize>) -> Vec<Case> {
    let p = state.partition[block];
    let here = level_of(state, block) == Some(level);
    let stored = read.and_then(|slot| state.levels[p][level].block_at[slot]);
    let own = stored == Some(block);
    match condition(state, p, level) {
        Condition::Empty => Vec::new(),
        Condition::Unmarked if own => vec![Case::OwnUnmarked],
        Condition::Unmarked => vec![Case::Dummy],
        Condition::AllRead if here => vec![Case::Spent, Case::OwnSpent],
        Condition::AllRead => vec![Case::Spent],
        Condition::SomeUnread if own => vec![Case::OwnInSource],
        Condition::SomeUnread => {
            let early = match stored {
                Some(_) => Case::EarlyBlock,
                None => Case::EarlyDummy,
            };
            let before = here.then_some(Case::OwnReadBefore);
            before.into_iter().chain([early]).collect()
        }
    }
}

/// The list as if no level were marked.
fn read_unmarked(state: &State, block: usize) -> Vec<(usize, usize)> {
    let mut other = state.clone();
    other.queue.clear();
    read_partition(&other, block)
}
