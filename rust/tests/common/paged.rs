//! The linked page, asked for between canaries, with what it must leave
//! watched.

use crate::lent::Lent;
use crate::linked::Linked;
use rinwolfedd::calls::{self, Answer};

/// What the buffer lent for a page holds before it.
const BEFORE: u8 = 7;

/// Asks for the page with the first bytes of memory and a buffer of so many
/// bytes, and answers what was reported with the buffer after it. State, memory
/// and canaries must be as they were.
pub fn page(linked: &Linked, memory: usize, buffer: usize) -> (Answer, Vec<u8>) {
    let (state, all) = (linked.state.bytes(), linked.memory.bytes());
    let before = (state.to_vec(), all.to_vec());
    let mut buffer = Lent::new(&vec![BEFORE; buffer]);
    let answer = calls::page(state, &all[..memory], buffer.lend());
    assert!(linked.state.is_sound() && linked.memory.is_sound() && buffer.is_sound());
    let after = (state.to_vec(), all.to_vec());
    assert!(after == before, "a page only reads");
    (answer, buffer.bytes().to_vec())
}

/// Asks for the page and says where it departs from the one that is wanted:
/// none of a state that is out of range or lacks memory, which is answered 2,
/// and a longer buffer keeps its tail. Hands back the number.
pub fn compare(
    linked: &Linked,
    memory: usize,
    buffer: usize,
    wanted: Option<&str>,
) -> Result<u8, String> {
    let (number, text) = match wanted {
        None => (2, ""),
        Some(text) if text.len() > buffer => (15, ""),
        Some(text) => (0, text),
    };
    let mut filled = vec![BEFORE; buffer];
    filled[..text.len()].copy_from_slice(text.as_bytes());
    let bits = u64::from(number) | (text.len() as u64) << 32;
    let (answer, after) = page(linked, memory, buffer);
    let said = (answer.number(), answer.length()) == (number, text.len());
    if answer.bits() == bits && said && after == filled {
        return Ok(number);
    }
    let after = String::from_utf8_lossy(&after);
    Err(format!(
        "the page departs: {answer:?} and\n{after}\nfor {number} and\n{text}"
    ))
}
