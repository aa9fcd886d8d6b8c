//! Runs pairs of compared lists with every tape of words, for words of few
//! bits, and compares the transcripts: with the right rules each occurs equally
//! often in both lists, look-ups while a partition is rebuilt and runs of joined
//! jobs among them. With each of some planted mistakes some pair differs, and so it does for a caller
//! who lends words again. Then pairs in which the client is saved and loaded are
//! compared so, each run with its own forms.

use plain::lists::{Pair, pair};
use plain::lists::{above_sources, source_read, source_spent, source_unread};
use plain::lists::{drawn_again, layered, lent_again, two_stored};
use plain::lists::{released_by_run, several_levels, waiting_or_not};
use plain::lists::{reloaded_marks, reloaded_queue, reloading};
use plain::mistakes::Mistake;
use plain::shape::Shape;
use plain::situations::Situation;
use plain::transcripts::Transcripts;
use plain::walk::transcripts;
use plain::words::{Caller, Words};
use std::collections::BTreeMap;
use std::process::ExitCode;

const SHAPES: [Shape; 12] = [
    Shape::new(2, 2, 1, 1, 2, 1),
    Shape::new(2, 2, 2, 1, 2, 1),
    Shape::new(1, 1, 1, 1, 1, 1),
    Shape::new(2, 1, 2, 1, 2, 2),
    Shape::new(2, 2, 1, 1, 2, 2),
    Shape::new(1, 2, 1, 1, 1, 1),
    Shape::new(3, 2, 2, 1, 3, 2),
    Shape::new(2, 1, 2, 1, 2, 1),
    Shape::new(2, 2, 2, 1, 2, 2),
    Shape::new(1, 1, 2, 1, 1, 2),
    Shape::new(2, 1, 3, 1, 2, 3),
    Shape::new(2, 1, 2, 1, 2, 3),
];

const PAIRS: usize = 600;
/// Those in which the client is saved and loaded.
const RELOADING: usize = 264;
/// The bits of the largest words.
const WIDEST: u32 = 3;
/// In so many pairs at least a word has to be passed over, and in so many a
/// turn lent as many words as it makes draws has to be answered 3.
const FEWEST: usize = 100;
/// In so many a request has to be released while its partition is rebuilt.
const FEWEST_BESIDE: usize = 300;
/// In so many jobs have to run together, and in so many of these write several
/// levels.
const FEWEST_TOGETHER: usize = 200;
const FEWEST_LEVELS: usize = 30;
/// In so many the client has to be loaded and then send a read.
const FEWEST_RELOADED: usize = 100;

/// The mistakes that demand 3 itself has to shut out. With words of few bits
/// draws are far from even if words that should be passed over are taken: the
/// slot of the third item of an order of four is then told from the others'. A
/// word passed over that does not count is followed by words that were drawn
/// from and are lent again, as the caller goes by the count. Of the mistakes in
/// look-ups while a partition is rebuilt and in jobs that run together, these
/// depend on what the host must not learn, or draw too little.
const TOLD: [Mistake; 18] = [
    Mistake::LowestDummySlot,
    Mistake::WaitingSendsNothing,
    Mistake::FinishedEarly,
    Mistake::EvictionAmongWaiting,
    Mistake::OrderDrawnOnce,
    Mistake::KeepsPartition,
    Mistake::DrawBelowI,
    Mistake::LimitTaken,
    Mistake::PassedNotCounted,
    Mistake::NothingPassed,
    Mistake::LowestUnreadSlot,
    Mistake::SourceReadsDummy,
    Mistake::SlotReadTwice,
    Mistake::WaitingSkipsRebuild,
    Mistake::FinishedByOwnRead,
    Mistake::OwnJobReadAwaited,
    Mistake::JoinsIfWaiting,
    Mistake::OrderShared,
];

/// The mistakes that make a load change what the host sees by what it must not
/// learn.
const TOLD_BY_RELOADS: [Mistake; 2] = [Mistake::LoadClearsMarks, Mistake::LoadPrefersWaiting];

/// What need not be met in jobs that run together. An order of eight slots, which
/// a source above a level that is not filled would need, has too many tapes. To
/// have more blocks than the highest level holds, or too many for the partition,
/// lists would have to be longer.
const TOO_LONG: [Situation; 3] = [
    Situation::SourceAbove,
    Situation::SeveralStored,
    Situation::RoomEnds,
];

/// A pair, and at how many different runs its lists end.
type Limited = (Pair, usize);

/// Pairs made for some of these, those with few runs first, then random ones of
/// all shapes in turn, with words of all widths in which the largest bound can
/// be drawn. An order of four slots makes many runs, so lists for two levels
/// have more of them.
fn pairs() -> impl Iterator<Item = Limited> {
    let made = [
        layered(2),
        source_read(2),
        source_spent(2),
        source_unread(2),
        waiting_or_not(2),
        released_by_run(2),
        above_sources(2),
        above_sources(3),
        layered(3),
        drawn_again(),
        lent_again(),
        several_levels(2),
        two_stored(2),
        several_levels(3),
        two_stored(3),
    ];
    let made = made.map(|pair| (pair, usize::MAX));
    made.into_iter().chain(random(pair))
}

/// Random pairs that this makes from a shape, a width and a seed.
fn random(make: fn(Shape, u32, u64) -> Pair) -> impl Iterator<Item = Limited> {
    (0..).map(move |seed: usize| {
        let (shape, round) = (SHAPES[seed % SHAPES.len()], seed / SHAPES.len());
        let least = shape.levels as u32;
        let width = least + round as u32 % (WIDEST + 1 - least);
        let most = if shape.levels == 1 { 1_000 } else { 8_000 };
        (make(shape, width, seed as u64), most)
    })
}

/// The same with pairs in which the client is saved and loaded.
fn reloading_pairs() -> impl Iterator<Item = Limited> {
    let made = [reloaded_marks(2), reloaded_queue(2)];
    let made = made.map(|pair| (pair, usize::MAX));
    made.into_iter().chain(random(reloading))
}

/// Goes over the tapes of pairs. The words of each width are gone over once
/// for all of them.
struct Tapes {
    words: [Words; WIDEST as usize],
}

impl Tapes {
    fn new(mistake: Mistake, caller: Caller) -> Tapes {
        let words = |index: usize| Words::new(index as u32 + 1, mistake, caller);
        Tapes {
            words: std::array::from_fn(words),
        }
    }

    fn transcripts(&mut self, (pair, most): &Limited) -> Transcripts {
        transcripts(pair, &mut self.words[pair.width as usize - 1], *most)
    }

    /// The first of the pairs whose lists are told apart.
    fn first_told(&mut self, pairs: &[Limited]) -> Option<usize> {
        let mut pairs = pairs.iter();
        pairs.position(|pair| !self.transcripts(pair).equal())
    }
}

/// What was met in pairs with the right rules.
#[derive(Default)]
struct Met {
    pairs: Vec<Limited>,
    widths: [usize; WIDEST as usize],
    calls: usize,
    transcripts: usize,
    tapes: f64,
    longest: usize,
    passed: usize,
    unsettled: usize,
    /// The pairs with a release beside a rebuild, and with what is met there.
    beside: usize,
    collected: usize,
    situations: BTreeMap<Situation, usize>,
    /// The pairs in which the client is loaded, and in which it then reads.
    reloaded: usize,
    read_after: usize,
}

impl Met {
    fn add(&mut self, pair: Limited, found: &Transcripts) {
        let (tapes, longest) = found.tapes();
        self.widths[pair.0.width as usize - 1] += 1;
        self.calls += found.places;
        self.transcripts += found.count();
        self.tapes += tapes;
        self.longest = self.longest.max(longest);
        self.passed += usize::from(found.passed);
        self.unsettled += usize::from(found.unsettled);
        let beside = |met: &Situation| Situation::BESIDE.contains(met);
        self.beside += usize::from(found.met.iter().any(beside));
        self.collected += usize::from(found.collected);
        self.reloaded += usize::from(found.reloaded);
        self.read_after += usize::from(found.read_after);
        for situation in &found.met {
            *self.situations.entry(*situation).or_default() += 1;
        }
        self.pairs.push(pair);
    }

    fn print(&self) {
        let (pairs, calls) = (self.pairs.len(), self.calls / self.pairs.len());
        let [one, two, three] = self.widths;
        println!("None: {pairs} pairs of lists of {calls} calls on average are equal");
        println!("None: words of 1 bit in {one} pairs, 2 in {two}, 3 in {three}");
        println!(
            "None: {} transcripts in all, of {:.1e} tapes of at most {} words",
            self.transcripts, self.tapes, self.longest
        );
        println!("None: a word is passed over in {} pairs", self.passed);
        println!(
            "None: a turn with a word for each draw is answered 3 in {} pairs",
            self.unsettled
        );
        let Met {
            beside, collected, ..
        } = self;
        println!("None: a request is released beside a rebuild in {beside} pairs");
        println!("None: such a request is collected in {collected} pairs");
        for (situation, pairs) in &self.situations {
            let where_ = match Situation::BESIDE.contains(situation) {
                true => "beside a rebuild",
                false => "jobs together",
            };
            println!("None: {where_}, {situation:?} in {pairs} pairs");
        }
        let Met {
            reloaded,
            read_after,
            ..
        } = self;
        if *reloaded > 0 {
            println!("None: loaded in {reloaded} pairs, with reads after it in {read_after}");
        }
    }

    /// There are enough pairs of each kind.
    fn suffices(&self) -> Result<(), String> {
        if self.passed.min(self.unsettled) < FEWEST {
            return Err(format!("None: fewer than {FEWEST} pairs of either kind"));
        }
        if self.beside.min(self.collected) < FEWEST_BESIDE {
            return Err(format!("None: fewer than {FEWEST_BESIDE} beside a rebuild"));
        }
        let times = |situation| self.situations.get(&situation).copied().unwrap_or(0);
        let (two, several) = (times(Situation::Two), times(Situation::SeveralWritten));
        if two < FEWEST_TOGETHER || several < FEWEST_LEVELS {
            return Err(format!("None: jobs together only in {two} and {several}"));
        }
        let together = Situation::TOGETHER.into_iter();
        let together = together.filter(|situation| !TOO_LONG.contains(situation));
        let wanted = Situation::AT_RELEASE.into_iter().chain(together);
        let missing = wanted.filter(|situation| times(*situation) == 0);
        match missing.collect::<Vec<_>>()[..] {
            [] => Ok(()),
            ref missing => Err(format!("None: no pair has {missing:?}")),
        }
    }
}

/// Compares the lists with the right rules.
fn honest(pairs: impl Iterator<Item = Limited>) -> Result<Met, String> {
    let mut tapes = Tapes::new(Mistake::None, Caller::MovesOn);
    let mut met = Met::default();
    for (index, pair) in pairs.enumerate() {
        if !pair.0.is_compared() {
            return Err(format!("pair {index} has no compared lists"));
        }
        let found = tapes.transcripts(&pair);
        if !found.equal() || !found.equally_long {
            return Err(format!("None: pair {index} of {:?} differs", pair.0.shape));
        }
        met.add(pair, &found);
    }
    met.print();
    Ok(met)
}

/// Says by which pair lists are told apart, and whether there is one.
fn print_told(mistake: Mistake, caller: Caller, pairs: &[Limited]) -> bool {
    let told = Tapes::new(mistake, caller).first_told(pairs);
    match told {
        Some(index) => {
            let Pair { shape, width, .. } = &pairs[index].0;
            println!(
                "{mistake:?}, {caller:?}: told apart by pair {index}, width {width}, {shape:?}"
            );
        }
        None => println!("{mistake:?}, {caller:?}: not told apart"),
    }
    told.is_some()
}

/// Whether some wrong rule, or words lent again, are not told apart.
fn untold(mistakes: &[Mistake], callers: &[Caller], pairs: &[Limited]) -> bool {
    let mistakes = mistakes.iter().map(|mistake| (*mistake, Caller::MovesOn));
    // With the right rules too, if words are lent again.
    let callers = callers.iter().map(|caller| (Mistake::None, *caller));
    let told: Vec<bool> = mistakes
        .chain(callers)
        .map(|(mistake, caller)| print_told(mistake, caller, pairs))
        .collect();
    told.contains(&false)
}

fn run() -> Result<bool, String> {
    let met = honest(pairs().take(PAIRS))?;
    met.suffices()?;
    let untold_here = untold(&TOLD, &[Caller::LendsAgain], &met.pairs);
    println!("pairs in which the client is saved and loaded:");
    let met = honest(reloading_pairs().take(RELOADING))?;
    if met.read_after < FEWEST_RELOADED {
        return Err(format!(
            "None: fewer than {FEWEST_RELOADED} read after a load"
        ));
    }
    Ok(untold_here || untold(&TOLD_BY_RELOADS, &[], &met.pairs))
}

fn main() -> ExitCode {
    match run() {
        Ok(false) => ExitCode::SUCCESS,
        Ok(true) => ExitCode::FAILURE,
        Err(error) => {
            eprintln!("{error}");
            ExitCode::FAILURE
        }
    }
}
