//! The five calls, saving and loading, and the page of a store, over lent bytes.
//! Slices carry their lengths, so nothing is asked of the caller: each value of
//! each number is answered.
//!
//! ```
//! use rinwolfedd::calls::{self, STATE, WRITE};
//!
//! let numbers = [1; 6]; // N P L B E W; only E = N hides the block
//! let mut state = [0; STATE];
//! let mut memory = vec![0; 416]; // as the shape needs (docs/MEMORY.md)
//! let mut tape = &[0; 6][..]; // three words; a tape that hides is random
//!
//! let answer = calls::open(&mut state, &mut memory, numbers, tape);
//! assert_eq!((answer.number(), answer.taken()), (0, 1));
//! tape = &tape[2 * answer.taken()..];
//!
//! let answer = calls::request(&mut state, &mut memory, WRITE, 0, &[7], tape);
//! assert_eq!((answer.number(), answer.taken()), (0, 2));
//! let answer = calls::request(&mut state, &mut memory, WRITE, 0, &[7], tape);
//! assert_eq!(answer.number(), 4); // a request is in hand
//!
//! let mut page = [0; calls::PAGE]; // long enough for every store
//! let answer = calls::page(&state, &memory, &mut page);
//! assert_eq!((answer.number(), answer.length()), (0, 58));
//!
//! let mut contents = [1];
//! let answer = calls::collect(&mut state, &mut memory, &mut contents);
//! assert_eq!((answer.number(), contents), (0, [0])); // those before the write
//! assert_eq!(answer.found(), rinwolfedd::Found::Nowhere); // nobody asked before
//!
//! let mut form = [0; 512]; // as the shape's longest (docs/MEMORY.md)
//! let answer = calls::save(&state, &memory, &mut form);
//! assert_eq!((answer.number(), answer.length()), (0, 512));
//! let answer = calls::load(&mut state, &mut memory, &form);
//! assert_eq!(answer.number(), 0); // and the store goes on as it was
//! ```

pub use crate::answer::Answer;

use crate::command::Kind;

/// The bytes of a client's state.
pub const STATE: usize = 76;

/// The bytes of a line of a page: 28 characters and a newline.
pub const LINE: usize = 29;
/// The bytes of the longest page: a line for each of 64 partitions, and one for
/// all ([`Shape::page_bytes`](crate::Shape::page_bytes) has those of a shape).
pub const PAGE: usize = 65 * LINE;

/// The bytes of a block of a saved form, its sum among them.
pub const BLOCK: usize = 512;

/// The kind of a read.
pub const READ: usize = Kind::Read.number() as usize;
/// The kind of a write.
pub const WRITE: usize = Kind::Write.number() as usize;

mod raw {
    unsafe extern "C" {
        pub fn rinwolfedd_open(
            state: *mut u8,
            state_len: usize,
            memory: *mut u8,
            memory_len: usize,
            n: usize,
            p: usize,
            l: usize,
            b: usize,
            e: usize,
            w: usize,
            tape: *const u8,
            tape_len: usize,
        ) -> u64;
        pub fn rinwolfedd_request(
            state: *mut u8,
            state_len: usize,
            memory: *mut u8,
            memory_len: usize,
            kind: usize,
            block: usize,
            contents: *const u8,
            contents_len: usize,
            tape: *const u8,
            tape_len: usize,
        ) -> u64;
        pub fn rinwolfedd_turn(
            state: *mut u8,
            state_len: usize,
            memory: *mut u8,
            memory_len: usize,
            tape: *const u8,
            tape_len: usize,
            buffer: *mut u8,
            buffer_len: usize,
        ) -> u64;
        pub fn rinwolfedd_completion(
            state: *mut u8,
            state_len: usize,
            memory: *mut u8,
            memory_len: usize,
            kind: usize,
            partition: usize,
            level: usize,
            slot: usize,
            bytes: *const u8,
            bytes_len: usize,
        ) -> u64;
        pub fn rinwolfedd_collect(
            state: *mut u8,
            state_len: usize,
            memory: *mut u8,
            memory_len: usize,
            buffer: *mut u8,
            buffer_len: usize,
        ) -> u64;
        pub fn rinwolfedd_save(
            state: *const u8,
            state_len: usize,
            memory: *const u8,
            memory_len: usize,
            buffer: *mut u8,
            buffer_len: usize,
        ) -> u64;
        pub fn rinwolfedd_load(
            state: *mut u8,
            state_len: usize,
            memory: *mut u8,
            memory_len: usize,
            form: *const u8,
            form_len: usize,
        ) -> u64;
        pub fn rinwolfedd_page(
            state: *const u8,
            state_len: usize,
            memory: *const u8,
            memory_len: usize,
            buffer: *mut u8,
            buffer_len: usize,
        ) -> u64;
    }
}

/// Opens a store of six numbers in the document's order, N P L B E W
/// ([`Shape::numbers`](crate::Shape::numbers)). The tape is pairs of bytes, low
/// byte first; N words are taken.
#[inline]
pub fn open(state: &mut [u8], memory: &mut [u8], numbers: [usize; 6], tape: &[u8]) -> Answer {
    let [n, p, l, b, e, w] = numbers;
    // Safety: the linked library is taken to be the proved one. Each pointer
    // comes from a slice, with its length, and is not null even for an empty
    // one. Slices that the call changes come from `&mut`, so they overlap no
    // other; those that are shared it only reads. It touches nothing outside of
    // them, keeps no pointer after it returns, and does not unwind.
    Answer::new(unsafe {
        raw::rinwolfedd_open(
            state.as_mut_ptr(),
            state.len(),
            memory.as_mut_ptr(),
            memory.len(),
            n,
            p,
            l,
            b,
            e,
            w,
            tape.as_ptr(),
            tape.len(),
        )
    })
}

/// Asks for a block: kind 1 reads, kind 2 writes the contents. Two words are
/// taken.
#[inline]
pub fn request(
    state: &mut [u8],
    memory: &mut [u8],
    kind: usize,
    block: usize,
    contents: &[u8],
    tape: &[u8],
) -> Answer {
    // Safety: as in `open`.
    Answer::new(unsafe {
        raw::rinwolfedd_request(
            state.as_mut_ptr(),
            state.len(),
            memory.as_mut_ptr(),
            memory.len(),
            kind,
            block,
            contents.as_ptr(),
            contents.len(),
            tape.as_ptr(),
            tape.len(),
        )
    })
}

/// Sends one command; a write's bytes go into the buffer. Words are taken by a
/// turn that draws orders, with those that it passes over: lend some to spare.
/// **For a store that hides, the words lent to a turn that answers 3 are not
/// lent again**, nor any that was taken. A [`Store`](crate::Store) with a
/// [`Tape`](crate::Tape) sees to it; here it is the caller's part. At most
/// 2^32 - 1 words are looked at.
#[inline]
pub fn turn(state: &mut [u8], memory: &mut [u8], tape: &[u8], buffer: &mut [u8]) -> Answer {
    // Safety: as in `open`.
    Answer::new(unsafe {
        raw::rinwolfedd_turn(
            state.as_mut_ptr(),
            state.len(),
            memory.as_mut_ptr(),
            memory.len(),
            tape.as_ptr(),
            tape.len(),
            buffer.as_mut_ptr(),
            buffer.len(),
        )
    })
}

/// Completes a command: kind, partition, level, slot.
#[inline]
pub fn completion(
    state: &mut [u8],
    memory: &mut [u8],
    kind: usize,
    slot: [usize; 3],
    bytes: &[u8],
) -> Answer {
    // Safety: as in `open`.
    Answer::new(unsafe {
        raw::rinwolfedd_completion(
            state.as_mut_ptr(),
            state.len(),
            memory.as_mut_ptr(),
            memory.len(),
            kind,
            slot[0],
            slot[1],
            slot[2],
            bytes.as_ptr(),
            bytes.len(),
        )
    })
}

/// Hands out the contents before the request; the answer tells where the block
/// was [found](Answer::found).
#[inline]
pub fn collect(state: &mut [u8], memory: &mut [u8], buffer: &mut [u8]) -> Answer {
    // Safety: as in `open`.
    Answer::new(unsafe {
        raw::rinwolfedd_collect(
            state.as_mut_ptr(),
            state.len(),
            memory.as_mut_ptr(),
            memory.len(),
            buffer.as_mut_ptr(),
            buffer.len(),
        )
    })
}

/// Writes the saved form of the client to the start of the buffer, whose other
/// bytes stay, and answers its [length](Answer::length), a multiple of [`BLOCK`].
/// Number 2 is answered for a closed state too, and for a buffer that is shorter
/// than the [longest form](crate::Shape::longest_form) of the shape; then 16
/// while a request is in hand, a command outstanding or a job begun.
///
/// It takes no words and only reads state and memory.
///
/// **A form is for the owner of the store, not for its host**: it has where each
/// block is, and the contents of those that wait. It is good only with the slots
/// as they are now: see [`Saves`](crate::Saves).
#[inline]
pub fn save(state: &[u8], memory: &[u8], buffer: &mut [u8]) -> Answer {
    // Safety: as in `open`.
    Answer::new(unsafe {
        raw::rinwolfedd_save(
            state.as_ptr(),
            state.len(),
            memory.as_ptr(),
            memory.len(),
            buffer.as_mut_ptr(),
            buffer.len(),
        )
    })
}

/// Brings the client of a saved form back; whatever state and memory held before
/// is of no account. Number 17 is answered for a length that is no multiple of
/// [`BLOCK`], or 0, and for a wrong sum, then 18 for what is no form, then 2 for
/// memory that is too short for its shape. A refused load leaves zeros in the
/// state, so that it is closed, and the memory as it was.
///
/// A form that no save made may load; a later turn may then answer 2.
#[inline]
pub fn load(state: &mut [u8], memory: &mut [u8], form: &[u8]) -> Answer {
    // Safety: as in `open`.
    Answer::new(unsafe {
        raw::rinwolfedd_load(
            state.as_mut_ptr(),
            state.len(),
            memory.as_mut_ptr(),
            memory.len(),
            form.as_ptr(),
            form.len(),
        )
    })
}

/// Writes the page of the store to the start of the buffer, whose other bytes
/// stay, and answers its [length](Answer::length). [`Store::page`] says what it
/// has. Number 2 is answered for a closed state too, 15 for a buffer that is
/// shorter than the page; a longer one, such as of [`PAGE`] bytes, will do.
///
/// It takes no words and only reads state and memory, so it may be asked for
/// between any two calls.
///
/// **A page is for the owner of the store, not for its host**: it tells what
/// the commands hide.
///
/// [`Store::page`]: crate::Store::page
#[inline]
pub fn page(state: &[u8], memory: &[u8], buffer: &mut [u8]) -> Answer {
    // Safety: as in `open`.
    Answer::new(unsafe {
        raw::rinwolfedd_page(
            state.as_ptr(),
            state.len(),
            memory.as_ptr(),
            memory.len(),
            buffer.as_mut_ptr(),
            buffer.len(),
        )
    })
}
