//! What the types promise a program at large: they go to other threads, and
//! the errors may grow.

use rinwolfedd::calls::Answer;
use rinwolfedd::{Command, Error, Figures, FileHost, Found, Host, Kind, LookedUp, MemoryHost};
use rinwolfedd::{NotResumed, Progress, Reader, Recorded, Refusal, Request, Resumed, SaveId};
use rinwolfedd::{Saves, Shape, Slots, Store};
use rinwolfedd::{Summary, Tally, Tape, UnknownNumber, Wait, Waits, calls};
use std::fs::File;
use std::io::{self, Write};

/// Each is a compile error for a type that is not.
const fn send<T: Send>() {}
const fn sync<T: Sync>() {}
const fn both<T: Send + Sync>() {}

const _: () = {
    both::<Shape>();
    both::<Slots>();
    both::<UnknownNumber>();
    both::<Command>();
    both::<Kind>();
    both::<Answer>();
    both::<Refusal>();
    both::<Error>();
    both::<Request<'_>>();
    both::<Tape<'_>>();
    both::<Store>();
    both::<Summary>();
    both::<Figures>();
    both::<Found>();
    both::<LookedUp>();
    both::<Tally>();
    both::<Wait>();
    both::<Waits>();
    both::<MemoryHost>();
    both::<FileHost>();
    both::<SaveId>();
    both::<Resumed>();
    both::<NotResumed>();
    both::<Progress>();
    both::<Reader<FileHost>>();
    // a boxed host may be one for this thread alone; then so is its reader
    send::<Reader<Box<dyn Host + Send>, File>>();
    send::<Reader<Box<dyn Saves + Send>, File>>();
};

/// What holds of the parts holds of the whole, whatever they are.
#[allow(dead_code)] // to compile is enough
fn as_their_parts<S: Send, Y: Sync>() {
    send::<Reader<S, S>>();
    sync::<Reader<Y, Y>>();
    send::<Recorded<S>>();
    sync::<Recorded<Y>>();
}

#[allow(dead_code)] // to compile is enough
fn as_its_output<S: Send + Write, Y: Sync + Write>() {
    send::<Progress<S>>();
    sync::<Progress<Y>>();
}

#[test]
fn a_reader_works_in_another_thread() {
    let shape = Shape::hiding(16, 4).unwrap();
    let host: Box<dyn Host + Send> = Box::new(MemoryHost::new(shape, 1).unwrap());
    let mut reader = Reader::open(shape, host).unwrap();
    let mut reader = std::thread::spawn(move || {
        reader.write(3, b"fish").unwrap();
        reader
    })
    .join()
    .unwrap();
    assert_eq!(reader.read(3).unwrap().contents, b"fish");
    assert_eq!(reader.tally().total(), 2);
}

/// A match that names every variant needs one more arm: another version may
/// have more. Were an enum exhaustive, that arm would be an error here.
#[deny(unreachable_patterns)]
#[test]
fn errors_may_grow() {
    let at_fault = |error: &Error| match error {
        Error::Refused(_) => "caller",
        Error::Host(_) | Error::Unfinished => "host",
        Error::Words(_) | Error::NotRandom => "words",
        Error::NotSaved(_) | Error::NotLoaded(_) => "file",
        _ => "new",
    };
    assert_eq!(at_fault(&Error::Unfinished), "host");
    let asked_of = |refusal: Refusal| match refusal {
        Refusal::NotReady | Refusal::TooFewWords | Refusal::BufferLength => "several",
        Refusal::ShapeOutOfBounds => "open",
        Refusal::RequestInHand | Refusal::NoSuchBlock | Refusal::ContentsLength => "request",
        Refusal::QueueFull | Refusal::CacheFull => "request",
        Refusal::WindowFull | Refusal::NothingToSend => "turn",
        Refusal::NotOutstanding | Refusal::CompletionLength => "completion",
        Refusal::NoRequest | Refusal::NotFinished => "collect",
        Refusal::NotAtRest => "save",
        Refusal::FormDamaged | Refusal::NotAForm => "load",
        _ => "new",
    };
    assert_eq!(Refusal::ALL.len(), 18);
    assert!(
        Refusal::ALL
            .iter()
            .all(|refusal| asked_of(*refusal) != "new")
    );
}

/// An error says what failed and its source why: what prints both, one after
/// the other, says nothing twice.
#[test]
fn errors_have_sources() {
    use std::error::Error as _;
    let refused = Error::from(Refusal::NoSuchBlock);
    assert_eq!(refused.to_string(), "the store refused");
    let source = refused.source().unwrap().downcast_ref::<Refusal>();
    assert_eq!(source, Some(&Refusal::NoSuchBlock));
    let cut = || io::Error::other("the wire is cut");
    for error in [Error::Host, Error::Words, Error::NotSaved, Error::NotLoaded] {
        let error = error(cut());
        assert!(!error.to_string().contains("wire"), "{error}");
        let source = error.source().unwrap();
        assert!(source.is::<io::Error>() && source.to_string() == "the wire is cut");
    }
    assert!(Error::Unfinished.source().is_none());
    let never = Error::Host(NotResumed::NeverSaved.into());
    assert_eq!(never.not_resumed(), Some(&NotResumed::NeverSaved));
    assert_eq!(Error::NotSaved(cut()).not_resumed(), None);
}

/// A number without a name is an error like any other.
#[test]
fn numbers_without_a_name() {
    let kind: Result<Kind, Box<dyn std::error::Error>> = Kind::try_from(3).map_err(Into::into);
    assert_eq!(kind.unwrap_err().to_string(), "nothing has the number 3");
    assert_eq!(
        Refusal::try_from(19).map_err(UnknownNumber::number),
        Err(19)
    );
    assert_eq!(Found::try_from(10).map_err(UnknownNumber::number), Err(10));
    assert_eq!([calls::READ, calls::WRITE], [1, 2]);
}

/// What is printed for a log has neither blocks nor contents nor words, nor where
/// a block was found, nor how many blocks are where.
#[test]
fn nothing_secret_is_printed() {
    let contents = &[222, 223];
    let write = Request::Write {
        block: 4011,
        contents,
    };
    assert_eq!(format!("{write:?}"), "Write { .. }");
    assert_eq!(
        format!("{:?}", Request::Read { block: 4011 }),
        "Read { .. }"
    );
    let tape = format!("{:?}", Tape::new(&[222; 6]));
    assert_eq!(tape, "Tape { taken: 0, left: 3, .. }");
    let shape = Shape::new(4, 2, 2, 2);
    let mut reader = Reader::open(shape, MemoryHost::new(shape, 1).unwrap()).unwrap();
    reader.write_all([contents; 4]).unwrap();
    let looked_up = reader.read(3).unwrap();
    assert_eq!(looked_up.contents, contents);
    assert_eq!(format!("{looked_up:?}"), "LookedUp { .. }");
    assert_eq!(format!("{:?}", reader.tally()), "Tally { levels: 2, .. }");
    let text = format!("{reader:?}");
    let secret = text.contains("222") || text.contains("Tally");
    assert!(text.contains("MemoryHost") && !secret, "{text}");
    let summary = reader.summary();
    let text = format!("{summary:?} {:?}", summary.partitions());
    assert_eq!(
        text,
        "Summary { partitions: 2, .. } [Figures { .. }, Figures { .. }]"
    );
}

/// The host below one that notes commands, as it is and given back.
#[test]
fn a_recorded_host_is_reached_and_given_back() {
    let shape = Shape::hiding(4, 2).unwrap();
    let host = Recorded::new(MemoryHost::new(shape, 1).unwrap());
    let mut reader = Reader::open(shape, host).unwrap();
    reader.write(1, &[1, 2]).unwrap();
    assert!(reader.host().host().fits(shape.into()).is_ok());
    let mut below = reader.into_host().into_host();
    assert!(below.next_completed(&mut [0; 2]).is_err(), "all completed");
}
