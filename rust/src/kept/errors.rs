//! An operation that fails while the program goes on: what the host then says is
//! true, and the next saves are good.

use super::crashes::{STEPS, Session, Step, client, client_goes_on, contents, losses};
use super::simulated::Fault;

/// How a session went on after its error.
#[derive(Debug, Default)]
struct Went {
    /// As if nothing had been.
    on: usize,
    /// From the last save.
    back: usize,
    /// Not at all: there was no save yet.
    lost: usize,
}

impl Session {
    /// After an error of this step: a client whose command failed ends, and so
    /// does one whose host takes no more commands; it is loaded again. Whether
    /// the session goes on.
    fn recover(&mut self, step: Step, went: &mut Went) -> bool {
        let ended = matches!(step, Step::Write(_)) || self.kept.ready().is_err();
        if !ended {
            went.on += 1;
            return true;
        }
        let Some(id) = client(&self.disk) else {
            went.lost += 1;
            return false;
        };
        let _ = self.kept.resume(id).unwrap();
        self.slots = self.saved[&id].0.clone();
        went.back += 1;
        true
    }

    fn run_on(&mut self, went: &mut Went) {
        for step in STEPS {
            if self.step(step).is_err() && !self.recover(step, went) {
                return;
            }
        }
        assert_eq!(contents(&self.kept), self.slots);
    }
}

#[test]
fn an_error_at_each_operation() {
    let mut went = Went::default();
    for at in 0.. {
        let mut session = Session::new();
        session.disk.fault(at, Fault::Error);
        session.run_on(&mut went);
        if !session.disk.faulted() {
            break;
        }
        for loss in losses(10) {
            let found = session.disk.crash(loss);
            client_goes_on(&found, &session.saved, &format!("error {at}, {loss:?}"));
        }
    }
    println!("{went:?}");
    assert!(went.on > 10 && went.back > 40 && (1..15).contains(&went.lost));
}

/// A sync that failed is not made good by the next one: the slots go back.
#[test]
fn a_sync_that_failed_is_remembered() {
    let mut session = Session::new();
    session.run(&STEPS[..3]).unwrap();
    session.disk.fault(0, Fault::Error);
    assert!(session.kept.sync().is_err());
    assert!(session.kept.sync().is_ok(), "the disk says so");
    assert!(session.step(Step::Save).is_err());
    assert!(session.step(Step::Write(&[1])).is_err());
    let id = client(&session.disk).unwrap();
    let _ = session.kept.resume(id).unwrap();
    assert_eq!(contents(&session.kept), session.saved[&id].0);
    session.slots = session.saved[&id].0.clone();
    session.run(&STEPS[6..10]).unwrap();
}
