//! Saves that are asked of slots, or with a journal, that something else has
//! changed: what is not as a save left it is refused, and never read.

use super::crashes::{LAYOUT, STEPS, Session, Step, contents, journal_path, opened, slots_path};
use super::simulated::{Fault, Loss, Simulated};
use crate::disk::{Bytes, Disk};
use crate::saves::{NotResumed, Resumed, SaveId};
use std::io;
use std::path::Path;

fn resume(disk: &Simulated, id: SaveId) -> io::Result<(Vec<u8>, Resumed)> {
    let mut kept = opened(disk)?;
    let resumed = kept.resume(id)?;
    Ok((contents(&kept), resumed))
}

fn why(error: &io::Error) -> &NotResumed {
    let inside = error.get_ref().and_then(|inside| inside.downcast_ref());
    inside.unwrap_or_else(|| panic!("{error}"))
}

/// Whether this save is refused, with nothing changed. Else the slots are as it
/// left them.
fn refuses(disk: &Simulated, id: SaveId, slots: &[u8], what: &str) -> bool {
    let done = disk.done();
    match resume(disk, id) {
        Ok((found, _)) => {
            assert_eq!(found, slots, "{what}");
            false
        }
        Err(error) => {
            assert_ne!(why(&error), &NotResumed::NeverSaved, "{what}");
            assert_eq!(disk.done(), done, "{what}: refused and changed");
            true
        }
    }
}

/// The disk with other bytes in a file.
fn with(disk: &Simulated, path: &Path, bytes: &[u8]) -> Simulated {
    let other = disk.crash(Loss::Nothing);
    other.create(path).unwrap().write(0, bytes).unwrap();
    other
}

/// The saves that are refused of all that have a way back, when each byte of a
/// file is changed in turn.
fn changed(session: &Session, path: &Path) -> Vec<(usize, SaveId)> {
    let bytes = session.disk.bytes(path).unwrap();
    let mut refused = Vec::new();
    for at in 0..8 * bytes.len() {
        let mut other = bytes.clone();
        other[at / 8] ^= 1 << (at % 8);
        let disk = with(&session.disk, path, &other);
        let each = session.saved.iter().filter(|(id, (slots, _))| {
            let copy = disk.crash(Loss::Nothing);
            refuses(&copy, **id, slots, &format!("{path:?} at {at}"))
        });
        refused.extend(each.map(|(id, _)| (at / 8, *id)));
    }
    refused
}

fn session(steps: &[Step]) -> (Session, Vec<SaveId>) {
    let mut session = Session::new();
    session.run(steps).unwrap();
    let ids = session.saved.keys().copied().collect();
    (session, ids)
}

/// The slots' file is of save 1; two saves were prepared since.
#[test]
fn each_byte_of_the_slots_counts() {
    let (session, ids) = session(&STEPS[..7]);
    let refused = changed(&session, &slots_path());
    let base = refused.iter().filter(|(_, id)| *id == ids[0]).count();
    assert_eq!(base, 8 * LAYOUT.length as usize, "every change is seen");
    // save 3 has slots 1, 2 and 3 from the journal, so that theirs do not matter
    let third = refused.iter().filter(|(_, id)| *id == ids[2]).count();
    assert_eq!(third, 8 * 9);
}

#[test]
fn each_byte_of_the_journal_counts() {
    let (session, ids) = session(&STEPS[..7]);
    let refused = changed(&session, &journal_path());
    let of = |id| refused.iter().filter(move |(_, other)| *other == id);
    // of the header all but the mark and what fills it up
    assert_eq!(of(ids[0]).count(), 8 * 64);
    assert!(of(ids[0]).all(|(at, _)| *at < 64));
    // records 0 and 1 lead to save 2 at 2, which is written over by none; 3 and 4 to save 3
    let length = 16 + 24;
    assert_eq!(of(ids[1]).count(), 8 * (64 + 3 * length));
    assert_eq!(of(ids[2]).count(), 8 * (64 + 6 * length));
}

#[test]
fn a_journal_that_was_cut() {
    let (session, ids) = session(&STEPS[..7]);
    let bytes = session.disk.bytes(&journal_path()).unwrap();
    for length in 0..bytes.len() {
        let disk = with(&session.disk, &journal_path(), &bytes[..length]);
        let refused = ids.iter().filter(|id| {
            let slots = &session.saved[id].0;
            let copy = disk.crash(Loss::Nothing);
            refuses(&copy, **id, slots, &format!("cut at {length}"))
        });
        let wanted = match length {
            0..128 => 3,
            128..248 => 2,
            248..368 => 1,
            _ => 0,
        };
        assert_eq!(refused.count(), wanted, "cut at {length}");
    }
}

/// The middle of what leads to a save, with good records after it.
#[test]
fn a_damaged_record_is_named() {
    let (session, ids) = session(&STEPS[..7]);
    let mut bytes = session.disk.bytes(&journal_path()).unwrap();
    bytes[128 + 40 + 20] ^= 1;
    let disk = with(&session.disk, &journal_path(), &bytes);
    for id in &ids[1..] {
        let error = resume(&disk, *id).unwrap_err();
        assert_eq!(error.kind(), io::ErrorKind::InvalidData);
        let told = "record 1 of the journal is damaged: there is no way back to the save";
        assert_eq!(error.to_string(), told);
    }
    assert_eq!(resume(&disk, ids[0]).unwrap().0, session.saved[&ids[0]].0);
}

/// Records are good in their own place alone.
#[test]
fn records_that_change_places() {
    let (session, ids) = session(&STEPS[..7]);
    let mut bytes = session.disk.bytes(&journal_path()).unwrap();
    let (first, second) = bytes[128..].split_at_mut(40);
    first.swap_with_slice(&mut second[..40]);
    let disk = with(&session.disk, &journal_path(), &bytes);
    for id in &ids[1..] {
        let error = resume(&disk, *id).unwrap_err();
        let told = "record 0 of the journal is damaged";
        assert_eq!(why(&error), &NotResumed::Damaged(told.into()));
    }
}

/// A commit that ends with one slot in the file, and whose mark is gone then. The
/// save before is refused for its slots, the new one is complete.
#[test]
fn a_mark_that_is_gone() {
    let (mut session, ids) = session(&STEPS[..6]);
    // two operations of prepare, five of the client's file, two of the mark, a slot
    session.disk.fault(10, Fault::Crash);
    assert!(session.step(Step::Save).is_err());
    let found = session.disk.crash(Loss::Nothing);
    let (base, new) = (ids[0], *session.saved.keys().last().unwrap());
    let stale = resume(&found, base).unwrap_err();
    let (asked, last) = (base, new);
    assert_eq!(why(&stale), &NotResumed::OtherSave { asked, last });

    let mut bytes = found.bytes(&journal_path()).unwrap();
    bytes[64..88].fill(0);
    let found = with(&found, &journal_path(), &bytes);
    let told = format!("the slots are not as the save {base} left them");
    let error = resume(&found, base).unwrap_err();
    assert_eq!(why(&error), &NotResumed::Damaged(told));
    let (slots, lost) = resume(&found, new).unwrap();
    assert_eq!((slots, lost), (session.slots, Resumed::AsSaved));
}

/// A mark without the save that it names.
#[test]
fn a_save_that_is_gone() {
    let (mut session, _) = session(&STEPS[..6]);
    session.disk.fault(10, Fault::Crash);
    assert!(session.step(Step::Save).is_err());
    let found = session.disk.crash(Loss::Nothing);
    let bytes = found.bytes(&journal_path()).unwrap();
    let found = with(&found, &journal_path(), &bytes[..bytes.len() - 1]);
    for id in session.saved.keys() {
        assert!(resume(&found, *id).is_err());
    }
    let last = *session.saved.keys().last().unwrap();
    let told = "the journal lacks the save that was being committed";
    let error = resume(&found, last).unwrap_err();
    assert_eq!(why(&error), &NotResumed::Damaged(told.into()));
}

/// Each slot is counted once, from the save that is asked for; what was written
/// first is told also after a power cut.
#[test]
fn what_is_lost_is_told() {
    let (session, ids) = session(&STEPS[..7]);
    let told = |id| {
        let found = session.disk.crash(Loss::Nothing);
        resume(&found, id).unwrap().1
    };
    assert_eq!(told(ids[0]), Resumed::RolledBack { slots: 3 });
    assert_eq!(told(ids[1]), Resumed::RolledBack { slots: 3 });
    assert_eq!(told(ids[2]), Resumed::RolledBack { slots: 2 });
    for (steps, lost) in [
        (2, Resumed::AsSaved),
        (3, Resumed::RolledBack { slots: 1 }),
        (10, Resumed::AsSaved),
        (11, Resumed::AsSaved),
        (12, Resumed::RolledBack { slots: 1 }),
    ] {
        let (session, ids) = self::session(&STEPS[..steps]);
        let found = session.disk.crash(Loss::All);
        assert_eq!(resume(&found, *ids.last().unwrap()).unwrap().1, lost);
    }
}
