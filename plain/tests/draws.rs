//! Draws (document 01, "Draws", with document 02, P3): limits, words passed
//! over, orders, and calls whose words end too soon.

#[path = "common/run.rs"]
mod run;

use plain::calls::{Ask, Call, Draws, Outcome, Store};
use plain::draws::{WIDTH, limit};
use plain::mistakes::Mistake;
use plain::random_session;
use plain::rng::Rng;
use plain::script::{Script, replay};
use plain::session::{self, Session};
use plain::shape::Shape;
use plain::turn::{order, order_bounds};
use run::{Run, read, write};

#[test]
fn limits() {
    let sixteen_bits = [
        (1, 65_536),
        (2, 65_536),
        (3, 65_535),
        (5, 65_535),
        (6, 65_532),
        (7, 65_534),
        (64, 65_536),
        (255, 65_535),
        (511, 65_408),
        (512, 65_536),
    ];
    for (m, wanted) in sixteen_bits {
        assert_eq!(limit(m, WIDTH), wanted, "{m}");
    }
    let fewer_bits = [
        (1, 1, 2),
        (2, 1, 2),
        (3, 2, 3),
        (4, 2, 4),
        (3, 3, 6),
        (5, 3, 5),
        (8, 3, 8),
        // A bound above all words has no limit below which to draw.
        (3, 1, 0),
    ];
    for (m, width, wanted) in fewer_bits {
        assert_eq!(limit(m, width), wanted, "{m}, {width} bits");
    }
}

/// The number drawn below m, with the words taken, if the words settle it.
fn drawn(m: usize, words: &[u16], mistake: Mistake) -> Option<(usize, usize)> {
    let mut bounds = Vec::new();
    let mut draws = Draws::of_width(WIDTH, mistake, words, &mut bounds);
    draws.settle([m]).then(|| (draws.below(m), draws.taken()))
}

#[test]
fn a_draw_passes_over_words_at_or_above_its_limit() {
    let right = |m, words| drawn(m, words, Mistake::None);
    assert_eq!(right(3, &[65_535, 65_534]), Some((2, 2)));
    assert_eq!(right(3, &[65_535, 65_535, 65_535, 7, 0]), Some((1, 4)));
    assert_eq!(right(3, &[65_534, 65_535]), Some((2, 1)));
    assert_eq!(right(3, &[65_535, 65_535]), None);
    assert_eq!(right(3, &[]), None);
    assert_eq!(
        right(6, &[65_532, 65_533, 65_534, 65_535, 65_531]),
        Some((5, 5))
    );
    assert_eq!(right(511, &[65_408, 65_407]), Some((510, 2)));
    for power in 0..=9 {
        let m = 1 << power;
        assert_eq!(right(m, &[65_535]), Some((m - 1, 1)));
    }
}

#[test]
fn wrong_draws_differ() {
    let limit_taken = |words| drawn(6, words, Mistake::LimitTaken);
    assert_eq!(limit_taken(&[65_532, 5]), Some((0, 1)));
    assert_eq!(limit_taken(&[65_533, 5]), Some((5, 2)));
    let not_counted = drawn(6, &[65_532, 65_533, 5], Mistake::PassedNotCounted);
    assert_eq!(not_counted, Some((5, 1)));
    let nothing_passed = drawn(6, &[65_533, 5], Mistake::NothingPassed);
    assert_eq!(nothing_passed, Some((1, 1)));
}

/// Over all words: each number below m has as many, and the rest is passed
/// over.
#[test]
fn every_number_has_equally_many_words() {
    let mut bounds = Vec::new();
    for m in 1..=512 {
        let mut counts = vec![0; m];
        let mut passed = 0;
        for word in 0..=u16::MAX {
            bounds.clear();
            let words = [word];
            let mut draws = Draws::new(&words, &mut bounds);
            match draws.settle([m]) {
                true => counts[draws.below(m)] += 1,
                false => passed += 1,
            }
        }
        assert!(counts.iter().all(|count| *count == 65_536 / m), "{m}");
        assert_eq!(passed, 65_536 % m, "{m}");
    }
}

/// To find out whether words settle draws takes none of them.
#[test]
fn settling_takes_nothing() {
    let (words, mut bounds) = ([1, 65_535, 2, 65_535], Vec::new());
    let mut draws = Draws::new(&words, &mut bounds);
    assert!(draws.settle([3, 3]) && !draws.settle([3, 3, 3]));
    assert!(draws.settle([3, 3, 2]) && !draws.settle([2, 2, 2, 2, 2]));
    assert_eq!((draws.left(), draws.taken()), (4, 0));
    assert_eq!((draws.below(3), draws.left()), (1, 3));
    assert_eq!((draws.below(3), draws.left()), (2, 1));
    assert!(draws.settle([2]) && !draws.settle([3]));
    assert_eq!(draws.taken(), 3);
    assert_eq!(bounds, [3, 3]);
}

/// The slots of items, with the words taken.
fn ordered(n: usize, words: &[u16]) -> (Vec<usize>, usize) {
    let mut bounds = Vec::new();
    let mut draws = Draws::new(words, &mut bounds);
    assert!(draws.settle(order_bounds(n, Mistake::None)));
    let slots = order(n, Mistake::None, &mut draws);
    let taken = draws.taken();
    assert_eq!(bounds, (2..=n).rev().collect::<Vec<_>>());
    (slots, taken)
}

/// Document 01's words 5, 1, 2, with others among them that are passed over,
/// and an order worked out by hand: it draws 7, 1, 4, 1, 1, 1 and 0.
#[test]
fn orders_pass_words_over() {
    assert_eq!(ordered(4, &[5, 1, 2]), (vec![2, 0, 3, 1], 3));
    assert_eq!(ordered(4, &[5, 65_535, 1, 2]), (vec![2, 0, 3, 1], 4));
    // 65,535 is 3 below 4 and 1 below 2, but no number below 3.
    let last = [65_535, 65_535, 0, 65_535];
    assert_eq!(ordered(4, &last), (ordered(4, &[3, 0, 1]).0, 4));
    let eight = [
        39_911, 65_534, 7_729, 65_532, 8_668, 65_535, 18_116, 20_777, 65_535, 65_535, 45_256,
        64_604, 1,
    ];
    assert_eq!(ordered(8, &eight), (vec![2, 0, 3, 5, 6, 4, 1, 7], 12));
}

/// A store of one block whose next turn draws an order of four slots, for two
/// jobs together.
fn before_an_order() -> Run {
    let mut run = Run::new(Shape::new(1, 1, 2, 1, 1, 1), &[0]);
    run.serve(write(0, &[7]), [0, 0]);
    assert_eq!(
        (run.queued(), run.state().turn_bounds()),
        (2, vec![4, 3, 2])
    );
    run
}

#[test]
fn the_last_word_settles_a_turn() {
    for words in [
        &[0, 0, 0][..],
        &[65_535, 65_535, 0, 65_535],
        &[65_535, 65_535, 65_535, 65_535, 65_535, 65_534, 65_535],
    ] {
        let mut run = before_an_order();
        let mut more = before_an_order();
        let outcome = run.call(Ask::Turn, words);
        assert_eq!((outcome.number, outcome.taken), (0, words.len()));
        // What comes after the words taken changes nothing.
        assert_eq!(
            more.call(Ask::Turn, &[words, &[65_535; 9]].concat()),
            outcome
        );
        assert_eq!(more.store, run.store);
    }
}

#[test]
fn words_that_end_too_soon_are_not_taken() {
    let refusal = Outcome {
        number: 3,
        ..Outcome::default()
    };
    for words in [
        &[][..],
        &[0, 0],
        &[0, 65_535, 0],
        &[0, 65_535, 65_535, 65_535, 65_535],
        &[65_535, 65_535, 65_535, 65_535, 65_535, 65_534],
    ] {
        let mut run = before_an_order();
        let before = run.state().clone();
        for _ in 0..2 {
            assert_eq!(run.call(Ask::Turn, words), refusal);
            assert_eq!(*run.state(), before);
        }
        // With more words it goes on as if it had not been refused.
        let enough = [words, &[2, 1, 0]].concat();
        let outcome = run.call(Ask::Turn, &enough);
        assert_eq!(outcome, before_an_order().call(Ask::Turn, &enough));
        assert_eq!(outcome.number, 0);
    }
}

/// The question comes after the others: 9, 10 and 15 are answered first.
#[test]
fn three_is_the_last_question() {
    let mut run = before_an_order();
    run.bytes = 2;
    assert_eq!(run.number(Ask::Turn, &[0, 65_535, 0]), 15);
    run.bytes = 1;
    assert_eq!(run.number(Ask::Turn, &[0, 65_535, 0]), 3);
    assert_eq!(run.number(Ask::Turn, &[0, 0, 0]), 0);
    assert_eq!(run.number(Ask::Turn, &[]), 9);
}

/// P divides 65,536: the number of words alone decides.
#[test]
fn opens_and_requests_pass_nothing() {
    for power in 0..=6 {
        let p = 1 << power;
        let shape = Shape::new(p, p, 1, 1, p, 1);
        let mut run = Run::new(shape, &vec![65_535; p]);
        assert_eq!(run.state().partition, vec![p - 1; p]);
        assert_eq!(run.number(read(0), &[65_535]), 3);
        assert_eq!(run.call(read(0), &[65_535, 65_534, 0]).taken, 2);
        let request = run.state().request.as_ref().expect("is in hand");
        assert_eq!([request.next, request.evict], [p - 1, (p - 1) & !1]);
        assert_eq!(run.number(Ask::Open(shape), &vec![65_535; p - 1]), 3);
    }
}

/// With words of two bits, 3 is passed over by the draw below 3 alone.
#[test]
fn words_may_have_fewer_bits() {
    let mut run = before_an_order();
    run.store.width = 2;
    assert_eq!(run.number(Ask::Turn, &[3, 3, 3, 2]), 3);
    let outcome = run.call(Ask::Turn, &[3, 3, 3, 2, 3]);
    assert_eq!((outcome.number, outcome.taken), (0, 5));
    let slots = &run.state().levels[0][1].slot_of;
    assert_eq!(*slots, ordered(4, &[3, 2, 1]).0);
    let mut closed = Store::of_width(2, Mistake::None);
    let open = Call {
        ask: Ask::Open(Shape::new(2, 4, 1, 1, 2, 1)),
        memory: 10_000,
        words: vec![3, 2],
        buffer: 0,
    };
    assert_eq!(closed.call(&open).taken, 2);
    assert_eq!(closed.state.expect("is open").partition, [3, 2]);
}

/// Random calls with other words after those taken, or more of them, have the
/// same outcomes.
#[test]
fn words_that_are_not_taken_change_nothing() {
    let mut rng = Rng::new(1);
    let (mut passed, mut unsettled) = (0, 0);
    for seed in 0..400 {
        let Script {
            mut calls,
            outcomes,
            ..
        } = Script::new(Shape::new(4, 1, 3, 1, 4, 3), None, seed, 120);
        let mut store = Store::new(Mistake::None);
        for (call, outcome) in calls.iter_mut().zip(&outcomes) {
            let bounds = store.state.as_ref().map(|s| s.turn_bounds());
            let draws = bounds.map_or(0, |bounds| bounds.len());
            store.call(call);
            if call.ask == Ask::Turn && outcome.number == 0 {
                passed += usize::from(outcome.taken > draws);
            }
            unsettled += usize::from(outcome.number == 3 && call.words.len() >= draws);
            if outcome.number == 0 {
                call.words.truncate(outcome.taken);
                let more = rng.below(4);
                call.words.extend(rng.tape(more));
            }
        }
        assert_eq!(replay(&calls, Mistake::None), outcomes);
    }
    assert!(passed > 300 && unsettled > 100, "{passed} {unsettled}");
}

/// Words made to settle draws do, the last draw by the last word.
#[test]
fn made_words_settle() {
    let mut rng = Rng::new(2);
    for n in [2, 3, 4, 7, 8, 64, 256].repeat(20) {
        let bounds = || order_bounds(n, Mistake::None);
        let words = rng.settling(bounds());
        let mut noted = Vec::new();
        assert!(Draws::new(&words, &mut noted).settle(bounds()));
        let shorter = &words[..words.len() - 1];
        assert!(!Draws::new(shorter, &mut noted).settle(bounds()));
    }
}

/// Random sessions have such words, too.
#[test]
fn random_sessions_tell_wrong_draws() {
    let printed = |lines: &[u8], mistake| {
        let mut output = Vec::new();
        session::run(&mut Session::new(mistake), lines, &mut output).map(|()| output)
    };
    let told = |mistake, length| {
        let lines = (1..=100).map(|seed| random_session::text(seed, length));
        let differs = |lines: &Vec<u8>| {
            let right = printed(lines, Mistake::None).expect("is printed");
            printed(lines, mistake).expect("is printed") != right
        };
        lines.filter(differs).count()
    };
    for mistake in Mistake::DRAWS {
        let sessions = told(mistake, 100);
        println!("{mistake:?}: told by {sessions} of 100 random sessions");
        assert!(sessions > 5, "{mistake:?}: {sessions}");
    }
}
