//! The partition reader (document 02, P6) beside the turns of random calls,
//! saves, loads and refusals among them: what is told for a request from its
//! release to its collect is the reader's list at the release.

use plain::calls::Store;
use plain::mistakes::Mistake;
use plain::releases::{Releases, Taken};
use plain::script::{Forms, Script};
use plain::shape::Shape;

/// With few commands outstanding, so that turns are refused between the reads.
const SHAPES: [Shape; 7] = [
    Shape::new(2, 2, 2, 1, 2, 1),
    Shape::new(4, 2, 3, 1, 3, 2),
    Shape::new(4, 2, 3, 1, 4, 4),
    Shape::new(8, 2, 4, 1, 8, 3),
    Shape::new(16, 2, 4, 1, 16, 1),
    Shape::new(8, 4, 2, 1, 8, 2),
    Shape::new(8, 1, 4, 1, 8, 2),
];

/// The planted mistakes in what a request reads, and when it has read all.
const WRONG: [Mistake; 12] = [
    Mistake::LowestDummySlot,
    Mistake::WaitingSendsNothing,
    Mistake::FinishedEarly,
    Mistake::HeldAgain,
    Mistake::LowestUnreadSlot,
    Mistake::SourceReadsDummy,
    Mistake::SlotReadTwice,
    Mistake::SpentSourceCostsRead,
    Mistake::SourceReadUnmarked,
    Mistake::WaitingSkipsRebuild,
    Mistake::FinishedByOwnRead,
    Mistake::DrawsWithRequest,
];

/// Random calls of all kinds, some of them with saves and loads.
fn scripts(seeds: u64, length: usize) -> impl Iterator<Item = Script> {
    SHAPES.into_iter().flat_map(move |shape| {
        (0..seeds).flat_map(move |seed| {
            [
                Script::new(shape, None, seed, length),
                Script::beside(shape, seed, length),
                Script::amid(shape, seed, length),
                Script::saving(shape, Forms::Own, seed, length),
            ]
        })
    })
}

/// Makes the calls with a mistake and says where they depart from the list.
fn follow(script: &Script, mistake: Mistake, releases: &mut Releases) -> Result<(), String> {
    let mut store = Store::new(mistake);
    script.calls.iter().enumerate().try_for_each(|(at, call)| {
        let outcome = store.call(call);
        let told = releases.call(call, &outcome, store.state.as_ref());
        told.map_err(|told| format!("call {at} of {:?}: {told}", script.shape()))
    })
}

/// In how many of these scripts a list that is so taken departs.
fn departs(scripts: &[Script], mistake: Mistake, taken: Taken) -> usize {
    let differs = |script: &&Script| follow(script, mistake, &mut Releases::new(taken)).is_err();
    scripts.iter().filter(differs).count()
}

#[test]
fn a_request_sends_the_readers_list() {
    let mut releases = Releases::default();
    for script in scripts(100, 300).chain(scripts(2, 10_000)) {
        follow(&script, Mistake::None, &mut releases).expect("it is the list");
    }
    let Releases {
        collected, times, ..
    } = &releases;
    println!("of {collected} requests: {times:?}");
    assert_eq!(releases.seldom(50), []);
}

/// The comparison tells stores that read something else.
#[test]
fn wrong_reads_are_told() {
    let scripts: Vec<Script> = scripts(20, 300).collect();
    let told = WRONG.map(|mistake| (mistake, departs(&scripts, mistake, Taken::AtRelease)));
    println!("of {} scripts: {told:?}", scripts.len());
    assert!(told.iter().all(|(_, times)| *times >= 5), "{told:?}");
}

/// It tells lists that are taken at another time or read sources as others.
#[test]
fn wrong_lists_are_told() {
    let scripts: Vec<Script> = scripts(20, 300).collect();
    let told = Taken::WRONG.map(|taken| (taken, departs(&scripts, Mistake::None, taken)));
    println!("of {} scripts: {told:?}", scripts.len());
    assert!(told.iter().all(|(_, times)| *times >= 50), "{told:?}");
}
