//! Random sessions chosen among many seeds, so that together they tell the
//! planted mistakes from the right rules and have what may occur.

use crate::calls::{Call, Outcome};
use crate::marks::{Mark, marks};
use crate::mistakes::Mistake;
use crate::script::{Forms, Script, replay};
use crate::shape::Shape;

/// The shape of a session, the shape it is opened with anew in the middle or
/// whose forms it loads, and the number of its calls.
pub type Plan = (Shape, Option<Shape>, usize);

/// What a mistake or a mark counts that no chosen session has.
const UNMET: usize = 300;

/// What sessions are made of.
#[derive(Clone, Copy, Debug, PartialEq, Eq)]
pub enum Kind {
    Any,
    /// Requests are to be made while their partition is rebuilt.
    Beside,
    /// Jobs of one partition are to run together.
    Together,
    /// The store is to be saved and loaded.
    Saving,
}

/// Sessions to choose, and what they have to tell and to have among them.
pub struct Group {
    pub plans: &'static [Plan],
    pub kind: Kind,
    pub seeds: u64,
    pub mistakes: Vec<Mistake>,
    pub marks: Vec<Mark>,
}

pub struct Session {
    pub shape: Shape,
    pub calls: Vec<Call>,
    pub outcomes: Vec<Outcome>,
    pub told: Vec<Mistake>,
    pub marks: Vec<Mark>,
}

impl Session {
    /// That of a script, with which of these mistakes it tells.
    pub fn new(shape: Shape, script: Script, mistakes: &[Mistake]) -> Session {
        let Script {
            calls, outcomes, ..
        } = script;
        Session {
            shape,
            marks: marks(&calls, &outcomes),
            told: told(&calls, &outcomes, mistakes),
            calls,
            outcomes,
        }
    }
}

fn told(calls: &[Call], outcomes: &[Outcome], mistakes: &[Mistake]) -> Vec<Mistake> {
    let differs = |mistake: &&Mistake| replay(calls, **mistake) != outcomes;
    mistakes.iter().filter(differs).copied().collect()
}

fn has(sessions: &[Session], mark: Mark) -> bool {
    sessions.iter().any(|s| s.marks.contains(&mark))
}

fn tells(sessions: &[Session], mistake: Mistake) -> bool {
    sessions.iter().any(|s| s.told.contains(&mistake))
}

impl Group {
    /// The session of a seed, with which of the group's mistakes it tells.
    fn session(&self, (shape, second, length): &Plan, seed: u64) -> Session {
        let forms = second.map_or(Forms::Own, Forms::Any);
        let script = match self.kind {
            Kind::Any => Script::new(*shape, *second, seed, *length),
            Kind::Beside => Script::beside(*shape, seed, *length),
            Kind::Together => Script::together(*shape, seed, *length),
            Kind::Saving => Script::saving(*shape, forms, seed, *length),
        };
        Session::new(*shape, script, &self.mistakes)
    }

    /// What a session adds: the less a mistake or a mark has been met, the
    /// more it counts.
    fn worth(&self, session: &Session, chosen: &[Session]) -> usize {
        let told = self.mistakes.iter().filter(|m| session.told.contains(m));
        let mistakes = told.map(|mistake| {
            let times = chosen.iter().filter(|s| s.told.contains(mistake)).count();
            if times == 0 { UNMET } else { 60 / (1 + times) }
        });
        let marked = self.marks.iter().filter(|m| session.marks.contains(m));
        let marks = marked.map(|mark| if has(chosen, *mark) { 1 } else { UNMET });
        mistakes.chain(marks).sum()
    }

    /// Sessions that go with those that are chosen already, and these.
    pub fn choose(&self, mut chosen: Vec<Session>) -> Vec<Session> {
        for plan in self.plans {
            let seeds = (0..self.seeds).map(|seed| self.session(plan, seed));
            if let Some(mut best) = seeds.max_by_key(|s| self.worth(s, &chosen)) {
                best.told = told(&best.calls, &best.outcomes, &Mistake::ALL);
                chosen.push(best);
            }
        }
        chosen
    }

    /// The chosen sessions tell each mistake, and each mark occurs in them.
    pub fn complete(&self, chosen: &[Session]) -> Result<(), String> {
        let missed = self.mistakes.iter().filter(|m| !tells(chosen, **m));
        let absent = self.marks.iter().filter(|m| !has(chosen, **m));
        let (missed, absent): (Vec<_>, Vec<_>) = (missed.collect(), absent.collect());
        if missed.is_empty() && absent.is_empty() {
            return Ok(());
        }
        Err(format!("not told: {missed:?}; absent: {absent:?}"))
    }
}
