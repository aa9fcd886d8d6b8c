//! Saves that end at each of their operations, on a disk that loses what was not
//! synced: the saved client that is found always goes on with its own slots.

use super::simulated::{Fault, Loss, Simulated};
use super::{Kept, beside};
use crate::client_file::ClientFile;
use crate::disk::{Bytes, Disk};
use crate::journal::Layout;
use crate::saves::{NotResumed, SaveId};
use std::collections::BTreeMap;
use std::io;
use std::path::{Path, PathBuf};

pub(super) const LAYOUT: Layout = Layout {
    partitions: 1,
    levels: 2,
    bytes: 3,
    length: 18,
};

/// What a session does.
#[derive(Clone, Copy, Debug, PartialEq, Eq)]
pub(super) enum Step {
    /// Writes these slots, each with bytes that were never there.
    Write(&'static [u64]),
    Save,
    /// A save whose client's file is not written.
    Unwritten,
    /// A save whose client's file is written, and which is not committed.
    Uncommitted,
}

use Step::{Save, Uncommitted, Unwritten, Write};

/// Slots are written once and again, since the last save and since prepared
/// ones; some are not written at all.
pub(super) const STEPS: [Step; 14] = [
    Write(&[0, 1, 5]),
    Save,
    Write(&[1, 2, 1]),
    Unwritten,
    Write(&[2, 3]),
    Uncommitted,
    Write(&[3, 1, 3]),
    Save,
    Write(&[0, 4]),
    Save,
    Save,
    Write(&[4]),
    Uncommitted,
    Write(&[5, 4]),
];

/// A shorter session, of one that came back.
const LATER: [Step; 5] = [Write(&[1, 4]), Save, Write(&[4, 0]), Save, Write(&[2])];

pub(super) fn slots_path() -> PathBuf {
    "store/slots".into()
}

pub(super) fn journal_path() -> PathBuf {
    beside(&slots_path())
}

/// In a folder of its own: nobody syncs both at once.
fn client_path() -> &'static Path {
    Path::new("clients/client")
}

/// What the slots were at each save, and whether it was prepared: no client's
/// file has one that was not.
pub(super) type Saved = BTreeMap<SaveId, (Vec<u8>, bool)>;

/// A client with its slots.
pub(super) struct Session {
    pub disk: Simulated,
    pub kept: Kept<Simulated>,
    /// What the slots should be.
    pub slots: Vec<u8>,
    pub saved: Saved,
    written: u8,
}

impl Session {
    /// One with a new file of zeros, which is on the disk.
    pub(super) fn new() -> Session {
        let disk = Simulated::new();
        let file = disk.create(&slots_path()).unwrap();
        file.write(0, &[0; LAYOUT.length as usize]).unwrap();
        file.sync().unwrap();
        disk.sync_folder(&slots_path()).unwrap();
        let kept = Kept::unsaved(disk.clone(), file, LAYOUT, Some(journal_path()));
        Session {
            disk,
            kept,
            slots: vec![0; LAYOUT.length as usize],
            saved: Saved::new(),
            written: 0,
        }
    }

    /// One that goes back to a save. Where its client's file has the name but may
    /// not have it after a power cut, the folder is synced first.
    fn resumed(disk: &Simulated, id: SaveId, saved: &Saved) -> io::Result<Session> {
        if client(disk) == Some(id) {
            ClientFile::read(disk, client_path())?;
        }
        let mut kept = opened(disk)?;
        let _ = kept.resume(id)?;
        Ok(Session {
            disk: disk.clone(),
            kept,
            slots: saved[&id].0.clone(),
            saved: saved.clone(),
            written: 100,
        })
    }

    pub(super) fn run(&mut self, steps: &[Step]) -> io::Result<()> {
        steps.iter().try_for_each(|step| self.step(*step))
    }

    pub(super) fn step(&mut self, step: Step) -> io::Result<()> {
        let id = SaveId::new([1 + self.saved.len() as u8; 16]);
        match step {
            Write(slots) => return slots.iter().try_for_each(|slot| self.write(*slot)),
            Save | Unwritten | Uncommitted => {
                self.saved.insert(id, (self.slots.clone(), false));
                self.kept.prepare(id)?;
                self.saved.insert(id, (self.slots.clone(), true));
            }
        }
        if matches!(step, Save | Uncommitted) {
            self.write_client(id)?;
        }
        if step == Save {
            self.kept.commit(id)?;
        }
        Ok(())
    }

    fn write(&mut self, slot: u64) -> io::Result<()> {
        self.written += 1;
        let (at, bytes) = (3 * slot as usize, [self.written, slot as u8, 7]);
        self.slots[at..at + 3].copy_from_slice(&bytes);
        self.kept.write(at as u64, &bytes)
    }

    /// Here a client's form is what its slots should be.
    fn write_client(&mut self, id: SaveId) -> io::Result<()> {
        let client = ClientFile {
            first: SaveId::new([1; 16]),
            id,
            form: self.slots.clone(),
        };
        client.write(&self.disk, client_path())
    }
}

pub(super) fn opened(disk: &Simulated) -> io::Result<Kept<Simulated>> {
    let file = disk.open(&slots_path())?;
    Kept::saved(disk.clone(), file, LAYOUT, journal_path())
}

/// All slots as they are.
pub(super) fn contents(kept: &Kept<Simulated>) -> Vec<u8> {
    let mut all = vec![0; LAYOUT.length as usize];
    for (slot, buffer) in all.chunks_mut(3).enumerate() {
        kept.read(3 * slot as u64, buffer).unwrap();
    }
    all
}

/// The client's file on this disk.
fn client_file(disk: &Simulated) -> Option<ClientFile> {
    let bytes = disk.bytes(client_path())?;
    Some(ClientFile::of(&bytes).expect("it is whole"))
}

/// The save of which it is.
pub(super) fn client(disk: &Simulated) -> Option<SaveId> {
    client_file(disk).map(|client| client.id)
}

/// The saves to which these slots go back: each gives what the slots were, and
/// the others are refused without an operation.
fn goes_back(disk: &Simulated, saved: &Saved, what: &str) -> Vec<SaveId> {
    let mut good = Vec::new();
    for (id, (slots, prepared)) in saved {
        let found = disk.crash(Loss::Nothing);
        let resumed = opened(&found).and_then(|mut kept| kept.resume(*id).map(|_| kept));
        match resumed {
            Ok(kept) => {
                assert_eq!(&contents(&kept), slots, "{what}: {id}");
                good.push(*id);
            }
            Err(error) => {
                assert_eq!(found.done(), 0, "{what}: {id} was refused and changed it");
                let why = error.get_ref().and_then(|e| e.downcast_ref());
                let expected = match why {
                    Some(NotResumed::OtherSave { .. } | NotResumed::NeverSaved) => true,
                    Some(NotResumed::Damaged(_)) => !prepared,
                    None => false,
                };
                assert!(expected, "{what}: {id}: {error}");
            }
        }
    }
    good
}

/// Of these saves the client's is one.
pub(super) fn client_goes_on(disk: &Simulated, saved: &Saved, what: &str) -> Vec<SaveId> {
    let good = goes_back(disk, saved, what);
    if let Some(client) = client_file(disk) {
        assert!(good.contains(&client.id), "{what}: lost");
        assert_eq!(client.form, saved[&client.id].0, "{what}: another's slots");
    }
    good
}

pub(super) fn losses(seeds: u64) -> impl Iterator<Item = Loss> {
    [Loss::Nothing, Loss::All]
        .into_iter()
        .chain((0..seeds).map(Loss::Some))
}

/// A session that ends at this operation, or none if it is over before.
fn ended(at: usize) -> Option<Session> {
    let mut session = Session::new();
    session.disk.fault(at, Fault::Crash);
    let ran = session.run(&STEPS);
    assert_eq!(ran.is_err(), session.disk.faulted());
    ran.is_err().then_some(session)
}

#[test]
fn a_session_without_a_crash() {
    let mut session = Session::new();
    session.run(&STEPS).unwrap();
    assert_eq!(contents(&session.kept), session.slots);
    let ids: Vec<SaveId> = session.saved.keys().copied().collect();
    let good = goes_back(&session.disk, &session.saved, "no crash");
    assert_eq!(
        good,
        ids[ids.len() - 2..],
        "the last save and the prepared one"
    );
}

/// The loss of everything else at each operation leaves the client that is found
/// with its slots, and no other client with wrong ones.
#[test]
fn a_crash_at_each_operation() {
    let (mut crashes, mut both) = (0, 0);
    for at in 0.. {
        let Some(session) = ended(at) else { break };
        for loss in losses(30) {
            let found = session.disk.crash(loss);
            let what = format!("operation {at}, {loss:?}");
            both += usize::from(client_goes_on(&found, &session.saved, &what).len() > 1);
            crashes += 1;
        }
    }
    println!("{crashes} crashes, after {both} there is more than one way back");
    assert!(crashes > 3000 && both > 1000);
}

/// Until a commit begins, there is a way back to the save before and to the new
/// one: whichever client's file is found can be loaded.
#[test]
fn both_clients_are_good_until_the_commit() {
    for steps in [&STEPS[..6], &STEPS[..7], &STEPS[..13], &STEPS] {
        let mut session = Session::new();
        session.run(steps).unwrap();
        let saves = steps.iter().filter(|step| !matches!(step, Write(_)));
        let last = saves.collect::<Vec<_>>();
        let last = last.iter().rposition(|step| **step == Save).unwrap();
        let wanted: Vec<SaveId> = session.saved.keys().skip(last).copied().collect();
        for loss in losses(10) {
            let found = session.disk.crash(loss);
            let good = goes_back(&found, &session.saved, "uncommitted");
            assert_eq!(good, wanted, "{loss:?}");
        }
    }
}

/// Going back ends at each of its operations too, and is asked for again.
#[test]
fn a_crash_while_going_back() {
    let mut again = 0;
    for at in 0.. {
        let Some(session) = ended(at) else { break };
        for loss in losses(3) {
            let found = session.disk.crash(loss);
            let mut good = goes_back(&found, &session.saved, "first");
            good.retain(|id| session.saved[id].1);
            again += good.iter().fold(0, |sum, id| {
                sum + goes_back_again(&found, *id, &session.saved)
            });
        }
    }
    println!("{again} crashes while going back");
    assert!(again > 5000);
}

fn goes_back_again(disk: &Simulated, id: SaveId, saved: &Saved) -> usize {
    let mut crashes = 0;
    for at in 0.. {
        let found = disk.crash(Loss::Nothing);
        found.fault(at, Fault::Crash);
        if Session::resumed(&found, id, saved).is_ok() {
            break;
        }
        for loss in losses(3) {
            let twice = found.crash(loss);
            let good = goes_back(&twice, saved, "again");
            assert!(good.contains(&id), "operation {at} of going back, {loss:?}");
            let is_client = client(disk) == Some(id);
            assert!(!is_client || client(&twice) == Some(id) || at == 0);
            crashes += 1;
        }
    }
    crashes
}

/// Whoever came back goes on and saves, and crashes once more: what the first
/// program had not synced counts for the second.
#[test]
fn a_crash_after_going_back() {
    let mut crashes = 0;
    for at in 0.. {
        let Some(session) = ended(at) else { break };
        for loss in [Loss::Nothing, Loss::Some(at as u64)] {
            let found = session.disk.crash(loss);
            if let Some(id) = client(&found) {
                crashes += goes_on(&found, id, &session.saved);
            }
        }
    }
    println!("{crashes} crashes after going back");
    assert!(crashes > 5000);
}

fn goes_on(disk: &Simulated, id: SaveId, saved: &Saved) -> usize {
    let mut crashes = 0;
    for at in 0.. {
        let found = disk.crash(Loss::Nothing);
        let mut session = Session::resumed(&found, id, saved).unwrap();
        found.fault(at, Fault::Crash);
        if session.run(&LATER).is_ok() {
            break;
        }
        for loss in [Loss::Nothing, Loss::All, Loss::Some(at as u64)] {
            let twice = found.crash(loss);
            client_goes_on(&twice, &session.saved, &format!("later {at}, {loss:?}"));
            crashes += 1;
        }
    }
    crashes
}
