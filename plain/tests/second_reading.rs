//! Whether bytes are a form (document 02, P5) is decided a second time, byte by
//! byte as the document goes on, and compared with loading for right, damaged
//! and random forms.

use plain::calls::{Ask, Call, Store};
use plain::form::bad;
use plain::form::broken::Broken;
use plain::mistakes::Mistake;
use plain::rng::Rng;
use plain::shape::Shape;
use std::collections::BTreeSet;

/// What is left to be read of a payload.
struct Bytes<'a>(&'a [u8]);

impl Bytes<'_> {
    fn one(&mut self) -> Option<usize> {
        let (first, rest) = self.0.split_first()?;
        self.0 = rest;
        Some(usize::from(*first))
    }

    fn two(&mut self) -> Option<usize> {
        Some(self.one()? + 256 * self.one()?)
    }
}

fn yes(holds: bool) -> Option<()> {
    holds.then_some(())
}

/// Each slot that is stored in, waiting blocks, and the blocks of each level.
#[derive(Default)]
struct Seen {
    stored: BTreeSet<(usize, usize, usize)>,
    waiting: BTreeSet<usize>,
}

impl Seen {
    fn block(&mut self, bytes: &mut Bytes, block: usize, p: usize) -> Option<()> {
        let partition = bytes.two()?;
        yes(partition < p)?;
        match bytes.one()? {
            255 => Some(()),
            254 => yes(self.waiting.insert(block)),
            level => yes(self.stored.insert((partition, level, bytes.one()?))),
        }
    }

    /// Takes out the blocks of a level, which have to be in unread slots.
    fn level(&mut self, bytes: &mut Bytes, p: usize, level: usize) -> Option<()> {
        let slots = 1 << (level + 1);
        let order: Option<BTreeSet<usize>> = (0..slots).map(|_| bytes.one()).collect();
        yes(order?.into_iter().eq(0..slots))?;
        let mut blocks = 0;
        for slot in 0..slots {
            let (mark, stored) = (bytes.one()?, self.stored.remove(&(p, level, slot)));
            yes(mark == 0 || mark == 1 && !stored)?;
            blocks += usize::from(stored);
        }
        yes(2 * blocks <= slots)
    }

    /// Takes out the blocks that have a record.
    fn record(&mut self, bytes: &mut Bytes, b: usize) -> Option<usize> {
        yes(self.waiting.remove(&bytes.two()?))?;
        let age = bytes.two()?;
        for _ in 0..b {
            bytes.one()?;
        }
        Some(age)
    }
}

fn shape(bytes: &mut Bytes) -> Option<[usize; 5]> {
    let [n, p, l, b, e, w] = [(); 6].map(|_| bytes.two());
    let (n, p, l, b, e, w) = (n?, p?, l?, b?, e?, w?);
    let within = |number: usize, most: usize| number != 0 && number <= most;
    yes([1, 2, 4, 8, 16, 32, 64].contains(&p) && within(l, 8))?;
    yes(within(n, 4096) && within(b, 512) && within(e, n) && within(w, 32))?;
    yes(n <= p << (l - 1))?;
    Some([n, p, l, b, e])
}

/// Reads on behind the shape, up to the records.
fn fields(bytes: &mut Bytes, [n, p, l, _, e]: [usize; 5]) -> Option<Seen> {
    let mut seen = Seen::default();
    let counters: Option<Vec<usize>> = (0..p).map(|_| bytes.two()).collect();
    let counters = counters?;
    yes(counters.iter().all(|counter| *counter < 1 << l))?;
    let jobs = bytes.two()?;
    yes(jobs <= 64)?;
    let queue: Option<Vec<usize>> = (0..jobs).map(|_| bytes.two()).collect();
    yes(queue?.iter().all(|job| *job < p))?;
    (0..n).try_for_each(|block| seen.block(bytes, block, p))?;
    let levels = (0..p * l).map(|index| (index / l, index % l));
    let mut filled = levels.filter(|(p, level)| counters[*p] & 1 << level != 0);
    filled.try_for_each(|(p, level)| seen.level(bytes, p, level))?;
    yes(seen.stored.is_empty() && seen.waiting.len() <= e)?;
    Some(seen)
}

fn is_payload(bytes: &mut Bytes) -> Option<()> {
    yes(bytes.one()? == 1)?;
    let shape = shape(bytes)?;
    let mut seen = fields(bytes, shape)?;
    let records = seen.waiting.len();
    let ages: Option<BTreeSet<usize>> =
        (0..records).map(|_| seen.record(bytes, shape[3])).collect();
    yes(ages?.into_iter().eq(0..records))?;
    yes(bytes.0.len() < 508 && bytes.0.iter().all(|byte| *byte == 0))
}

/// The number that a load answers.
fn number(form: &[u8]) -> u8 {
    let mut payload = Vec::new();
    for (index, block) in form.chunks(512).enumerate() {
        let mut sum = index as u64;
        for word in block.chunks(4).take(127) {
            let place = |(at, byte): (usize, &u8)| u64::from(*byte) << (8 * at);
            sum += word.iter().enumerate().map(place).sum::<u64>();
        }
        let told = block.iter().skip(508).rev();
        let told = told.fold(0, |sum, byte| 256 * sum + u64::from(*byte));
        if block.len() != 512 || sum % (1 << 32) != told {
            return 17;
        }
        payload.extend(&block[..508]);
    }
    match is_payload(&mut Bytes(&payload)) {
        _ if form.is_empty() => 17,
        Some(()) => 0,
        None => 18,
    }
}

fn loaded(form: Vec<u8>) -> u8 {
    let mut store = Store::new(Mistake::None);
    let call = Call {
        ask: Ask::Load(form),
        memory: 10_000_000,
        words: Vec::new(),
        buffer: 0,
    };
    store.call(&call).number
}

fn compare(form: Vec<u8>, times: &mut [usize; 19]) {
    let wanted = number(&form);
    times[usize::from(wanted)] += 1;
    assert_eq!(loaded(form), wanted);
}

#[test]
fn both_readings_take_the_same_forms() {
    let mut rng = Rng::new(20);
    let mut times = [0; 19];
    for round in 0..8000 {
        let shape = bad::small_shape(&mut rng);
        let form = bad::passable(&mut rng, shape);
        compare(form.bytes(), &mut times);
        compare(bad::almost(&mut rng, shape).bytes(), &mut times);
        compare(bad::reshaped(&form, bad::small_shape(&mut rng)), &mut times);
        compare(bad::noise(&mut rng, 1 + round % 3), &mut times);
        let broken = Broken::ALL[round % Broken::ALL.len()];
        if let Some(bytes) = broken.bytes(&form) {
            compare(bytes, &mut times);
        }
    }
    assert!(times[0] > 8000 && times[18] > 16_000, "{times:?}");
}

#[test]
fn both_readings_take_the_same_bits_and_lengths() {
    let mut rng = Rng::new(21);
    let mut times = [0; 19];
    let large = Shape::new(8, 64, 3, 40, 8, 32);
    for round in 0..6 {
        let shape = if round == 0 {
            large
        } else {
            bad::small_shape(&mut rng)
        };
        let bytes = bad::passable(&mut rng, shape).bytes();
        let other = bad::lengths(&bytes).chain(bad::summed_flips(&bytes));
        other.for_each(|form| compare(form, &mut times));
    }
    assert!(
        times[0] > 100 && times[17] > 50 && times[18] > 1000,
        "{times:?}"
    );
}
