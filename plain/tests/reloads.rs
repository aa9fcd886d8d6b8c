//! Lists in which each run loads the form that it saved itself (document 02,
//! P5): the hiding goes on through it, for a smaller cache too, and a load that
//! changes what the host sees is told.

use plain::calls::{Ask, Call};
use plain::lists::{Pair, reloaded_marks, reloaded_queue, reloading};
use plain::mistakes::Mistake;
use plain::script::{Forms, Script, replay};
use plain::shape::Shape;
use plain::transcripts::Transcripts;
use plain::walk::transcripts;
use plain::words::{Caller, Words};

fn walked(pair: &Pair, mistake: Mistake, most: usize) -> Transcripts {
    let mut words = Words::new(pair.width, mistake, Caller::MovesOn);
    transcripts(pair, &mut words, most)
}

#[test]
fn made_pairs_tell_loads_that_the_host_sees() {
    let all = [
        (reloaded_marks(2), Mistake::LoadClearsMarks),
        (reloaded_queue(2), Mistake::LoadPrefersWaiting),
    ];
    for (pair, mistake) in &all {
        let found = walked(pair, Mistake::None, usize::MAX);
        assert!(pair.is_compared() && found.equal() && found.equally_long);
        assert!(found.reloaded);
        assert_eq!(found.places, pair.sides[0].len());
        assert!(!walked(pair, *mistake, usize::MAX).equal(), "{mistake:?}");
    }
    assert!(walked(&all[0].0, Mistake::None, usize::MAX).read_after);
}

#[test]
fn random_pairs_are_equal_through_loads() {
    let shapes = [
        Shape::new(1, 1, 1, 1, 1, 1),
        Shape::new(2, 2, 1, 1, 2, 1),
        Shape::new(2, 1, 2, 1, 2, 2),
    ];
    let mut reloaded = 0;
    for seed in 0..18 {
        let shape = shapes[seed % shapes.len()];
        let pair = reloading(shape, shape.levels as u32, seed as u64);
        let found = walked(&pair, Mistake::None, 400);
        assert!(pair.is_compared() && found.equal() && found.equally_long);
        reloaded += usize::from(found.reloaded);
    }
    assert!(reloaded > 6, "{reloaded}");
}

/// The calls, with loads of what the run itself has saved.
fn with_own_forms(mut calls: Vec<Call>, places: Option<usize>) -> Vec<Call> {
    for call in &mut calls {
        match &mut call.ask {
            Ask::Load(_) => call.ask = Ask::Reload,
            Ask::Open(shape) => shape.places = places.unwrap_or(shape.places),
            _ => {}
        }
    }
    calls
}

/// The forms differ in E, but not in length.
#[test]
fn a_smaller_cache_differs_only_from_its_first_8() {
    let (mut eights, mut loads) = (0, 0);
    for seed in 0..400 {
        let shape = Shape::new(4, 2, 2, 1, 4, 2);
        let script = Script::saving(shape, Forms::Own, seed, 90);
        let large = with_own_forms(script.calls.clone(), None);
        let large = replay(&large, Mistake::None);
        assert_eq!(large, script.outcomes);
        let calls = with_own_forms(script.calls, Some(1 + seed as usize % 3));
        let small = replay(&calls, Mistake::None);
        let told = |outcome: &plain::calls::Outcome| {
            (
                outcome.number,
                outcome.taken,
                outcome.command,
                outcome.length,
            )
        };
        for (index, call) in calls.iter().enumerate() {
            if small[index].number == 8 {
                eights += 1;
                break;
            }
            assert_eq!(told(&large[index]), told(&small[index]));
            loads += usize::from(call.ask == Ask::Reload);
        }
    }
    assert!(eights > 100 && loads > 300, "{eights} {loads}");
}
