//! The page on the state of the store: pages written out by hand, the width
//! of their lines, and figures that add up after every call.

use plain::calls::Store;
use plain::mistakes::Mistake;
use plain::page::page;
use plain::random_session;
use plain::script::Script;
use plain::session::{Session, run};
use plain::shape::Shape;
use plain::state::State;
use std::io::sink;

/// The session that these lines leave.
fn session(lines: &[u8]) -> Session {
    let mut session = Session::new(Mistake::None);
    run(&mut session, lines, sink()).unwrap();
    session
}

fn page_after(lines: &str) -> String {
    session(lines.as_bytes()).page()
}

/// A page written out line by line.
fn written(lines: &[&str]) -> String {
    lines.iter().map(|line| format!("{line}\n")).collect()
}

/// The name in a line's first four columns and the figures after it, each
/// right-aligned in six columns or, for blanks, none.
fn figures(line: &str) -> (&str, Vec<usize>) {
    let columns = (0..4).map(|column| &line[4 + 6 * column..10 + 6 * column]);
    let read = |column: &str| {
        let figure: usize = column.trim().parse().ok()?;
        assert_eq!(column, format!("{figure:6}"));
        Some(figure)
    };
    (&line[..4], columns.filter_map(read).collect())
}

/// Each line has its 28 characters and a newline, the rows say what the state
/// has, counted by its tables instead of by places, and the last line's
/// figures are the sums of the columns and add up to N.
fn check(state: &State) {
    let page = page(state);
    let mut lines = page.split_inclusive('\n');
    assert!(lines.all(|line| line.len() == 29 && line.ends_with('\n')));
    let mut lines: Vec<(&str, Vec<usize>)> = page.lines().map(figures).collect();
    let (all, last) = lines.pop().unwrap();
    let [nowhere, stored, waiting] = last[..] else {
        panic!("{page}");
    };
    assert_eq!(lines.len(), state.shape.partitions);
    let mut sums = [0; 3];
    for (partition, (name, row)) in lines.into_iter().enumerate() {
        let in_levels = state.stored(partition).len();
        let queued = state.queue.iter().filter(|q| **q == partition).count();
        assert_eq!(name, format!("{partition:4}"));
        assert_eq!(row.len(), 4);
        assert_eq!(
            [row[0], row[1], row[3]],
            [state.counter[partition], in_levels, queued]
        );
        sums = [sums[0] + row[1], sums[1] + row[2], sums[2] + row[3]];
    }
    assert_eq!(all, "all ");
    assert_eq!(sums, [stored, waiting, state.queue.len()]);
    assert_eq!(waiting, state.waiting());
    assert_eq!(nowhere + stored + waiting, state.shape.blocks);
}

#[test]
fn no_page_without_an_accepted_open() {
    for lines in [
        "",
        "T 0 0 0\n",
        "C\n",
        "O 1 1 1 1 1 1\nO 1 3 1 1 1 1\n",
        "T 0\nO 65 64 2 1 65 1\n",
        "T 0\nO 1 1 1 1 1 1",
        "T 0\nt \nO 1 1 1 1 1 1\n",
    ] {
        assert_eq!(page_after(lines), "", "{lines:?}");
    }
}

/// Document 01's worked session, ended after each of its lines.
#[test]
fn pages_of_the_worked_session() {
    let lines = "T 0 0 0 1 0 0 0\nO 1 1 1 1 1 1\nW 0 07\nC\nt\nt\nt\nt\nt\nt\nR 0\nt\nC\n";
    let fresh = "   0     0     0     0     0\nall      1     0     0      \n";
    let collected = "   0     0     0     1     2\nall      0     0     1      \n";
    let first_write = "   0     0     1     0     2\nall      0     1     0      \n";
    let one_job_done = "   0     1     1     0     1\nall      0     1     0      \n";
    let both_done = "   0     1     1     0     0\nall      0     1     0      \n";
    let collected_again = "   0     1     0     1     2\nall      0     0     1      \n";
    let pages = [
        (2..=3, fresh),
        (4..=4, collected),
        (5..=5, first_write),
        (6..=9, one_job_done),
        (10..=12, both_done),
        (13..=13, collected_again),
    ];
    for (counts, wanted) in pages {
        for count in counts {
            let part: String = lines.split_inclusive('\n').take(count).collect();
            assert_eq!(page_after(&part), wanted, "{count} lines");
        }
    }
}

/// Partition 0 stores a block in level 0 and another waits for it. Its next job
/// gathers the first and, with the turn that draws the order, takes the other.
#[test]
fn pages_of_a_rebuild() {
    let first = format!("O 2 4 2 1 2 1\nW 0 0a\nC\n{}", "t\n".repeat(4));
    let second = format!("W 1 0b\nC\n{}", "t\n".repeat(4));
    let lines = format!("T 1 2 0 0 1 1 0 0 1 3 2 1\n{first}{second}");
    let before = [
        "   0     1     1     1     1",
        "   1     1     0     0     0",
        "   2     1     0     0     0",
        "   3     0     0     0     0",
        "all      0     1     1      ",
    ];
    assert_eq!(page_after(&lines), written(&before));
    let after = [
        "   0     1     2     0     1",
        "   1     1     0     0     0",
        "   2     1     0     0     0",
        "   3     0     0     0     0",
        "all      0     2     0      ",
    ];
    assert_eq!(page_after(&(lines + "t\n")), written(&after));
}

/// 50 look-ups of the only block, both jobs of each run to their end. The
/// turns are more than enough: with nothing to send they are refused.
#[test]
fn a_counter_of_three_digits() {
    let look_up = format!("R 0\n{}C\n{}", "t\n".repeat(7), "t\n".repeat(300));
    let tape = " 0".repeat(8192);
    let lines = format!("T{tape}\nO 1 1 8 1 1 1\n{}", look_up.repeat(50));
    let wanted = "   0   100     1     0     0\nall      0     1     0      \n";
    assert_eq!(page_after(&lines), wanted);
}

/// Look-ups of 64 blocks, each at first in a partition of its own. The four
/// commands of its two jobs, which run together, go before the next look-up.
fn sixty_four_look_ups(next: fn(usize) -> usize) -> String {
    let opening = (0..64).map(|block| format!(" {block}"));
    let later = (0..64).map(|block| format!(" {} {block} 0 0 0", next(block)));
    let tape: String = opening.chain(later).collect();
    let look_ups: Vec<String> = (0..64).map(|block| format!("R {block}\nC\n")).collect();
    let look_ups = look_ups.join(&"t\n".repeat(4));
    format!("T{tape}\nO 64 64 2 1 64 1\n{look_ups}")
}

#[test]
fn sixty_four_blocks_stored() {
    let lines = sixty_four_look_ups(|block| block) + &"t\n".repeat(4);
    let rows: String = (0..64)
        .map(|q| format!("{q:4}     2     1     0     0\n"))
        .collect();
    assert_eq!(page_after(&lines), rows + "all      0    64     0      \n");
}

#[test]
fn sixty_four_blocks_waiting() {
    let lines = sixty_four_look_ups(|_| 63);
    let rows: String = (0..63)
        .map(|q| format!("{q:4}     2     0     0     0\n"))
        .collect();
    let last = "  63     0     0    64     2\nall      0     0    64      \n";
    assert_eq!(page_after(&lines), rows + last);
}

#[test]
fn the_page_is_that_of_the_last_accepted_open() {
    let store = "T 0 1 2 0 0\nO 1 4 1 1 1 1\nW 0 07\nC\n";
    let first = written(&[
        "   0     0     0     0     1",
        "   1     0     0     1     0",
        "   2     0     0     0     1",
        "   3     0     0     0     0",
        "all      0     0     1      ",
    ]);
    let second = written(&[
        "   0     0     0     0     0",
        "   1     0     0     0     0",
        "all      2     0     0      ",
    ]);
    for refused in ["O 0 1 1 1 1 1\n", "O 65 64 2 1 1 1\n", "O 4 4 1 1 4 1\n"] {
        assert_eq!(page_after(&format!("{store}{refused}")), first);
    }
    assert_eq!(page_after(&format!("{store}O 2 2 1 1 1 1\n")), second);
    // A malformed line before the second O, or one that is not ended.
    assert_eq!(page_after(&format!("{store}R\nO 2 2 1 1 1 1\n")), first);
    assert_eq!(page_after(&format!("{store}O 2 2 1 1 1 1")), first);
}

#[test]
fn pages_of_random_sessions_add_up() {
    let lengths = [100; 200].into_iter().chain([2000; 20]);
    let mut pages = 0;
    for (seed, length) in lengths.enumerate() {
        let session = session(&random_session::text(seed as u64, length));
        match session.state() {
            Some(state) => {
                check(state);
                assert_eq!(session.page(), page(state));
                pages += 1;
            }
            None => assert_eq!(session.page(), ""),
        }
    }
    assert!(pages > 150);
}

/// Here commands stay outstanding and complete in any order, as in no session.
#[test]
fn pages_add_up_after_every_call() {
    let shapes = [
        Shape::new(4, 2, 2, 1, 2, 2),
        Shape::new(4, 1, 3, 1, 3, 3),
        Shape::new(8, 4, 2, 1, 8, 3),
    ];
    for shape in shapes {
        for seed in 0..100 {
            let mut store = Store::new(Mistake::None);
            for call in Script::new(shape, None, seed, 80).calls {
                store.call(&call);
                if let Some(state) = &store.state {
                    check(state);
                }
            }
        }
    }
}
