//! Saving and loading (document 02, P5) in every state that is in range: the form
//! of a state whose tables may say anything, and the state that a form brings.
//! What a form is, and which load, is the independent implementation's.

use super::{View, cells, slots};
use plain::calls::ask;
use plain::form::{Form, Record, Spot, Written, longest, sums};
use plain::mistakes::Mistake;

impl View {
    fn is_at_rest(&self) -> bool {
        self.request.is_none() && self.outstanding.is_empty() && self.begun == 0
    }

    /// The form's bytes. Where a block is listed twice among those that wait, as no
    /// call leaves it, the form may be longer than the buffer.
    pub fn save(&self, buffer: usize) -> Result<Vec<u8>, u8> {
        ask(buffer >= longest(&self.shape), 2)?;
        ask(self.is_at_rest(), 16)?;
        let form = self.form().bytes();
        ask(form.len() <= buffer, 2)?;
        Ok(form)
    }

    /// A block that is listed waits, whatever its place says; there is a record for
    /// each entry of the list.
    fn form(&self) -> Form {
        let block = |b: usize| {
            let spot = match self.place[b] {
                _ if self.waiting.contains(&b) => Spot::Waiting,
                None => Spot::Nowhere,
                Some((level, slot)) => Spot::Slot { level, slot },
            };
            (self.partition[b], spot)
        };
        let record = |(age, b): (usize, &usize)| Record {
            block: *b,
            age,
            contents: self.bytes[*b].clone(),
        };
        Form {
            number: 1,
            shape: self.shape,
            counters: self.counter.clone(),
            queue: self.queue.clone(),
            blocks: (0..self.shape.blocks).map(block).collect(),
            levels: self.written(),
            records: self.waiting.iter().enumerate().map(record).collect(),
        }
    }

    fn written(&self) -> Vec<Written> {
        let mut written = Vec::new();
        for q in 0..self.shape.partitions {
            for level in (0..self.shape.levels).filter(|level| self.is_filled(q, *level)) {
                let all = self.cell(q, level, 0)..self.cell(q, level, slots(level));
                written.push(Written {
                    partition: q,
                    level,
                    order: self.order[all.clone()].to_vec(),
                    marks: self.mark[all].iter().map(|unread| 1 - unread).collect(),
                });
            }
        }
        written
    }

    /// The state that these bytes bring. What a form leaves out is zeros.
    pub fn load(bytes: &[u8], memory: usize) -> Result<View, u8> {
        ask(sums::are_blocks(bytes, Mistake::None), 17)?;
        let form = Form::of_payload(&sums::out_of_blocks(bytes), Mistake::None).ok_or(18)?;
        ask(memory >= form.shape.needed(), 2)?;
        let (shape, n) = (form.shape, form.shape.blocks);
        let mut view = View {
            shape,
            partition: form.blocks.iter().map(|(p, _)| *p).collect(),
            place: vec![None; n],
            bytes: vec![vec![0; shape.bytes]; n],
            waiting: vec![0; form.records.len()],
            counter: form.counters.clone(),
            order: vec![0; cells(shape)],
            holds: vec![0; cells(shape)],
            mark: vec![0; cells(shape)],
            queue: form.queue.clone(),
            begun: 0,
            cursor: 0,
            sent: 0,
            outstanding: Vec::new(),
            request: None,
        };
        view.bring(&form);
        Ok(view)
    }

    fn bring(&mut self, form: &Form) {
        for written in &form.levels {
            let first = self.cell(written.partition, written.level, 0);
            for (slot, (order, read)) in written.order.iter().zip(&written.marks).enumerate() {
                self.order[first + slot] = *order;
                self.mark[first + slot] = 1 - read;
            }
        }
        for (b, (q, spot)) in form.blocks.iter().enumerate() {
            if let Spot::Slot { level, slot } = *spot {
                let cell = self.cell(*q, level, slot);
                self.holds[cell] = b + 1;
                self.place[b] = Some((level, slot));
            }
        }
        for record in &form.records {
            self.waiting[record.age] = record.block;
            self.bytes[record.block].clone_from(&record.contents);
        }
    }
}
