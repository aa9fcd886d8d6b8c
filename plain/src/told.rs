//! The reads that turns told for the requests of a session, each from its
//! release to its collect. They are the commands of turns that had a request's
//! read to send, so that the partition reader can be compared with them.

use crate::calls::{Ask, Call, Store};
use crate::mistakes::Mistake;
use crate::situations::is_released;
use crate::state::{State, Step};

/// The level and slot of each read of one request.
pub type Reads = Vec<(usize, usize)>;

/// Those of each release in turn, or nothing if a released request has a read
/// that is never sent.
pub fn reads(calls: &[Call]) -> Option<Vec<Reads>> {
    let mut store = Store::new(Mistake::None);
    let mut all: Vec<Reads> = Vec::new();
    for call in calls {
        let released = is_released(&store);
        let step = store.state.as_ref().and_then(State::step);
        let due = matches!(step, Some(Step::RequestRead(_)));
        let outcome = store.call(call);
        match (&call.ask, outcome.number, all.last_mut()) {
            (Ask::Turn, 0, Some(reads)) if due => {
                reads.push((outcome.command.level, outcome.command.slot));
            }
            (Ask::Open(_) | Ask::Load(_) | Ask::Reload, _, _) if due => return None,
            _ => {}
        }
        if is_released(&store) && !released {
            all.push(Reads::new());
        }
    }
    let left = store.state.as_ref().and_then(State::request_read);
    left.is_none().then_some(all)
}
