//! Sessions made for what random ones hardly have: forms that break each rule,
//! forms after which a step is answered 2, and a form of two blocks.

use super::Script;
use crate::calls::Ask;
use crate::form::broken::Broken;
use crate::form::{BLOCK, BODY, Form, Written, bad, longest, sums};
use crate::rng::Rng;
use crate::saves::{Saved, met};
use crate::shape::Shape;
use crate::state::{READ, WRITE};

/// The broken forms of the session of refusals.
const REFUSED: [Broken; 23] = [
    Broken::NumberTwo,
    Broken::ThreePartitions,
    Broken::ManyPlaces,
    Broken::CounterAbove,
    Broken::ManyJobs,
    Broken::JobAbove,
    Broken::PartitionAbove,
    Broken::LevelAbove,
    Broken::SlotAbove,
    Broken::Unfilled,
    Broken::InReadSlot,
    Broken::TwoInSlot,
    Broken::OverLimit,
    Broken::OrderTwice,
    Broken::MarkTwo,
    Broken::OverPlaces,
    Broken::RecordElsewhere,
    Broken::RecordTwice,
    Broken::AgeGap,
    Broken::AgeTwice,
    Broken::SpareRecord,
    Broken::RestEnded,
    Broken::SpareBlock,
];

/// The shape of the forms that are broken, and those of forms after which a
/// step is answered 2.
const BROKEN: Shape = Shape::new(4, 2, 2, 1, 2, 2);
const LATER: [Shape; 2] = [Shape::new(2, 1, 2, 1, 2, 2), Shape::new(4, 2, 2, 1, 4, 2)];
const FORMS: u64 = 4000;

impl Script {
    /// Loads that are refused, some of them for the first of two reasons, and a
    /// call to the closed store now and then.
    pub fn refusals() -> Script {
        let form = breakable();
        let mut script = Script::fresh(BROKEN, 0);
        script.saves = true;
        script.load(form.bytes());
        script.save();
        for broken in REFUSED {
            let bytes = broken.bytes(&form).unwrap_or_default();
            match broken {
                Broken::PartitionAbove => script.load_short(bytes),
                Broken::LevelAbove => script.load_summed_wrong(bytes),
                _ => script.load(bytes),
            }
            match broken {
                Broken::ManyPlaces => script.save(),
                Broken::JobAbove => script.make(Ask::Collect, 0, BROKEN.bytes),
                Broken::OrderTwice => script.request(),
                _ => {}
            }
        }
        script.load_short(form.bytes());
        script.load(form.bytes());
        script
    }

    fn load_summed_wrong(&mut self, mut form: Vec<u8>) {
        form[BODY] ^= 1;
        self.load(form);
    }

    /// Two forms that no save made, and after each of them some calls up to a
    /// turn that is answered 2 and one more.
    pub fn later() -> Script {
        let [first, second] = [(Saved::NoDummy, LATER[0]), (Saved::TooMany, LATER[1])];
        let mut script = answered_2(first.0, first.1);
        let next = answered_2(second.0, second.1);
        script.calls.extend(next.calls);
        script.outcomes.extend(next.outcomes);
        script
    }

    /// Two blocks of 240 bytes wait, so that the form has two blocks. It is
    /// loaded, and then without its second block, with the two exchanged and
    /// with one byte of the second turned.
    pub fn two_blocks() -> Script {
        let shape = Shape::new(2, 2, 1, 240, 2, 1);
        let mut script = Script::fresh(shape, 1);
        script.saves = true;
        script.make(Ask::Open(shape), 2, 0);
        script.wait(0, 7);
        script.wait(1, 9);
        script.lend(Ask::Save, Vec::new(), longest(&shape));
        let form = script.outcomes.last().map(|outcome| outcome.bytes.clone());
        let form = form.unwrap_or_default();
        script.load(form.clone());
        script.lend(Ask::Save, Vec::new(), longest(&shape));
        let mut exchanged = form.clone();
        exchanged.rotate_left(BLOCK);
        let mut turned = form.clone();
        turned[BLOCK] ^= 1;
        let mut other = turned.clone();
        sums::make_right(&mut other);
        for bytes in [form[..BLOCK].to_vec(), exchanged, turned, other] {
            script.load(bytes);
        }
        script.load(form);
        script.read(0);
        script
    }

    fn read(&mut self, block: usize) {
        let ask = Ask::Request {
            kind: READ,
            block,
            contents: Vec::new(),
        };
        self.make(ask, 2, 0);
    }

    /// Writes a block that is nowhere, which takes no command.
    fn wait(&mut self, block: usize, byte: u8) {
        let mut contents = vec![0; self.shape.bytes];
        contents[usize::from(byte)] = byte;
        let ask = Ask::Request {
            kind: WRITE,
            block,
            contents,
        };
        self.make(ask, 2, 0);
        self.make(Ask::Collect, 0, self.shape.bytes);
    }
}

/// Of many forms that load the shortest to write of which all of these can be
/// broken. It has an order that is told from its inverse.
fn breakable() -> Form {
    let forms = (0..FORMS).map(|seed| bad::passable(&mut Rng::new(seed), BROKEN));
    let breaks = |form: &Form| REFUSED.iter().all(|broken| broken.bytes(form).is_some());
    let one_way = |form: &Form| form.levels.iter().any(is_one_way);
    let some = forms.filter(|form| breaks(form) && one_way(form));
    let shortest = some.min_by_key(|form| form.payload().len());
    shortest.expect("some form can be broken in all ways")
}

/// Whether an order of items is another one if it is read as one of slots.
fn is_one_way(written: &Written) -> bool {
    let order = &written.order;
    let there_and_back = |(item, slot): (usize, &usize)| order[*slot] == item;
    !order.iter().enumerate().all(there_and_back)
}

/// Of many sessions that load a form, the one in which this is met first,
/// though not before some commands.
fn answered_2(wanted: Saved, shape: Shape) -> Script {
    let sessions = (0..FORMS).filter_map(|seed| {
        let form = bad::passable(&mut Rng::new(seed), shape);
        let script = Script::loading(&form, seed, 30);
        cut_after(script, wanted)
    });
    let shortest = sessions.min_by_key(|script| script.calls.len());
    shortest.expect("some form leads to a 2")
}

/// The session up to the call by which this is met, and one more.
fn cut_after(mut script: Script, wanted: Saved) -> Option<Script> {
    let first = (8..script.calls.len()).find(|length| {
        let (calls, outcomes) = (&script.calls[..*length], &script.outcomes[..*length]);
        met(calls, outcomes).contains(&wanted)
    });
    let length = first.filter(|length| *length > 8)? + 1;
    script.calls.truncate(length);
    script.outcomes.truncate(length);
    Some(script)
}
