//! A store as bytes, for the time between two programs.

use super::Store;
use crate::calls::{self, STATE};
use crate::refusal::Refusal;
use crate::shape::Shape;

/// Where a form has its shape, in the first block: behind the form's number.
const SHAPE: std::ops::Range<usize> = 1..13;

/// The shape that a form names, in bounds or not; none of bytes that are too
/// short for one.
fn shape_of(form: &[u8]) -> Option<Shape> {
    let bytes = form.get(SHAPE)?;
    let number = |k: usize| usize::from(u16::from_le_bytes([bytes[2 * k], bytes[2 * k + 1]]));
    Some(Shape::of_numbers([0, 1, 2, 3, 4, 5].map(number)))
}

impl Store {
    /// The saved form of the client: [`load`](Store::load) brings it back. It
    /// takes no words, changes nothing, and nothing is sent.
    ///
    /// ```
    /// use rinwolfedd::{Refusal, Request, Shape, Store, Tape};
    ///
    /// let mut tape = Tape::new(&[0; 10]); // one that hides anything is random
    /// let mut store = Store::open(Shape::new(3, 2, 2, 1), &mut tape)?;
    /// store.request(Request::Write { block: 1, contents: &[7] }, &mut tape)?;
    /// assert_eq!(store.save(), Err(Refusal::NotAtRest)); // a request is in hand
    /// store.collect()?;
    ///
    /// let form = store.save()?;
    /// drop(store); // .. and another day
    /// let store = Store::load(&form)?;
    /// assert_eq!((store.queued(), store.summary().waiting()), (2, 1));
    /// assert_eq!(store.save()?, form);
    /// # Ok::<(), Refusal>(())
    /// ```
    ///
    /// **A form is for the owner of the store, not for its host.** It has what the
    /// commands hide: where each block is, and the contents of those that wait,
    /// which nobody seals.
    ///
    /// **It is good only with the slots as they are at its save.** With later ones
    /// a loaded client would hand out old contents and not know it. That no form
    /// is loaded beside other slots is up to the caller here;
    /// [`Reader::save`](crate::Reader::save) and a host that
    /// [`Saves`](crate::Saves) see to it.
    ///
    /// # Errors
    ///
    /// [`Refusal::NotAtRest`] while a request is in hand, a command outstanding or
    /// a job begun. Jobs that are queued and have not begun are saved.
    pub fn save(&self) -> Result<Vec<u8>, Refusal> {
        let longest = self.shape.longest_form();
        let mut form = vec![0; longest.expect("an open store has its shape in bounds")];
        let length = self.save_into(&mut form)?;
        form.truncate(length);
        Ok(form)
    }

    /// As [`save`](Store::save), to the start of a buffer, whose other bytes stay;
    /// hands back the form's length. The buffer has at least as many bytes as the
    /// shape's [longest form](Shape::longest_form), however short this one is.
    ///
    /// # Errors
    ///
    /// [`Refusal::NotReady`] for a shorter buffer, and then
    /// [`Refusal::NotAtRest`].
    pub fn save_into(&self, buffer: &mut [u8]) -> Result<usize, Refusal> {
        let answer = calls::save(&self.state, &self.memory, buffer);
        answer.accepted()?;
        Ok(answer.length())
    }

    /// The client of a saved form, as it was at its save: every call gives what it
    /// would have given there. Its [shape](Store::shape) is that of the form. For
    /// the words of a store that hides: those that were taken since the save are
    /// not lent again either.
    ///
    /// A form that no save made may load, if nothing in it tells; a
    /// [`turn`](Store::turn) may then answer [`Refusal::NotReady`].
    ///
    /// # Errors
    ///
    /// [`Refusal::FormDamaged`] for bytes that are cut or have a wrong sum,
    /// [`Refusal::NotAForm`] for others that are no form.
    pub fn load(form: &[u8]) -> Result<Store, Refusal> {
        // with as much memory as its shape needs no good form is refused; if the
        // shape is none, the load says so without any
        let shape = shape_of(form).filter(Shape::is_within_bounds);
        let memory = shape.and_then(|shape| shape.needed());
        let (mut state, mut memory) = ([0; STATE], vec![0; memory.unwrap_or(0)]);
        calls::load(&mut state, &mut memory, form).accepted()?;
        let shape = shape.ok_or(Refusal::NotAForm)?;
        Ok(Store {
            shape,
            state,
            memory,
            buffer: vec![0; shape.bytes()],
        })
    }
}
