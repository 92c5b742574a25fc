//! Whole logs, each changed in one place: what makes it no longer whole, clause
//! by clause, and what does not.

use oracle::build::{Record, bits, bytes_of, is_value, outputs_of};

/// What is asked of a circuit here.
pub struct Shape {
    pub gates: i64,
    /// Whether each output is a value output.
    pub values: Vec<bool>,
}

impl Shape {
    /// Of a circuit that no question refuses.
    pub fn of(circuit: &[u8]) -> Self {
        let circuit = words_of(circuit);
        let (gates, constants) = (circuit[0] as usize, circuit[1] as usize);
        let kinds = &circuit[4 + 2 * constants..][..gates];
        let values = kinds.iter().flat_map(|&kind| outputs_of(kind)).map(is_value).collect();
        Self { gates: gates as i64, values }
    }
}

/// The words of whole words.
pub fn words_of(bytes: &[u8]) -> Vec<i64> {
    let (words, rest) = bytes.as_chunks();
    assert!(rest.is_empty());
    words.iter().map(|&word| i64::from_le_bytes(word)).collect()
}

/// The records of a log that a run wrote.
pub fn records(shape: &Shape, log: &[u8]) -> Vec<Record> {
    let words = words_of(log);
    let mut rest = &words[..];
    let mut records = Vec::new();
    while let Some((&head, behind)) = rest.split_first_chunk::<7>() {
        rest = behind;
        let [_, _, late, main, carried, stop, _] = head;
        let outputs = if stop == 0 { shape.values.len() } else { 0 };
        let [begun, carried, outputs] =
            [(late + main) as usize, carried as usize, outputs].map(|length| {
                let (pairs, behind) = rest.split_at(2 * length);
                rest = behind;
                let (first, second) = pairs.split_at(length);
                first.iter().copied().zip(second.iter().copied()).collect()
            });
        records.push(Record { head, begun, carried, outputs });
    }
    assert!(rest.is_empty());
    records
}

/// The log of records.
pub fn log_of(records: &[Record]) -> Vec<u8> {
    bytes_of(&records.iter().flat_map(Record::words).collect::<Vec<_>>())
}

/// What has to come of a changed log.
#[derive(Clone, Copy, Debug, PartialEq, Eq)]
pub enum Due {
    /// Refused with 16.
    Broken,
    /// Not refused with 16.
    Whole,
    /// What the oracle says.
    Asked,
}

/// A log changed in one place.
pub struct Change {
    /// What is changed.
    pub what: &'static str,
    pub due: Due,
    /// The record that others stand for.
    at: usize,
    others: Vec<Record>,
    /// Bytes cut off, and then put behind.
    less: usize,
    more: Vec<u8>,
}

impl Change {
    /// The changed log.
    pub fn log(&self, records: &[Record]) -> Vec<u8> {
        let mut log = log_of(&records[..self.at]);
        log.extend(log_of(&self.others));
        log.extend(log_of(&records[self.at + 1..]));
        log.truncate(log.len() - self.less);
        log.extend(&self.more);
        log
    }
}

/// Every change of one record of a log that is whole.
pub fn changes(shape: &Shape, records: &[Record], at: usize) -> Vec<Change> {
    let mut made =
        Made { at, record: &records[at], last: at + 1 == records.len(), made: Vec::new() };
    made.ticks();
    made.steps();
    made.counts();
    made.wraps();
    made.stops();
    made.changed();
    made.units(shape);
    made.outputs(shape);
    made.sizes();
    made.made
}

/// The changes that are made of a record.
struct Made<'a> {
    at: usize,
    record: &'a Record,
    /// Whether it is the last of its log.
    last: bool,
    made: Vec<Change>,
}

impl Made<'_> {
    fn push(&mut self, what: &'static str, due: Due, others: Vec<Record>) {
        self.made.push(Change { what, due, at: self.at, others, less: 0, more: Vec::new() });
    }

    /// The record, as this leaves it.
    fn edit(&mut self, what: &'static str, due: Due, edit: impl FnOnce(&mut Record)) {
        let mut record = self.record.clone();
        edit(&mut record);
        self.push(what, due, vec![record]);
    }

    /// Other words for one of the head.
    fn head(&mut self, what: &'static str, due: Due, place: usize, words: &[i64]) {
        for &word in words {
            self.edit(what, due, |record| record.head[place] = word);
        }
    }

    fn ticks(&mut self) {
        let tick = self.record.head[0];
        let others = [tick - 1, tick + 1, -tick, tick + (1 << 32), tick | i64::MIN, i64::MAX];
        self.head("tick", Due::Broken, 0, &others);
    }

    fn steps(&mut self) {
        const MOST: i64 = 50_000_000;
        let runaway = if self.record.head[5] == 11 { Due::Whole } else { Due::Broken };
        self.head("steps", Due::Whole, 1, &[0, 1, MOST]);
        self.head("steps", runaway, 1, &[MOST + 1]);
        self.head("steps", Due::Broken, 1, &[MOST + 2, 1 << 32, i64::MAX, i64::MIN, -1]);
    }

    /// Late, main and carried without the units that they count.
    fn counts(&mut self) {
        for (what, place, most) in [("late", 2, 1_024), ("main", 3, 1_024), ("carried", 4, 256)] {
            let own = self.record.head[place];
            self.head(what, Due::Broken, place, &[own - 1, own + 1, most + 1, -1, 1 << 32]);
        }
        let [_, _, late, main, ..] = self.record.head;
        self.edit("late", Due::Whole, |record| (record.head[2], record.head[3]) = (main, late));
        self.edit("late", Due::Whole, |record| (record.head[2], record.head[3]) = (0, late + main));
    }

    /// Counts, their sum or the size that they give, which wrap around to the own
    /// one.
    fn wraps(&mut self) {
        for place in [2, 3, 4] {
            let own = self.record.head[place];
            let beyond = [59, 60, 61, 62, 63].map(|power| own.wrapping_add(1 << power));
            self.head("a count that wraps", Due::Broken, place, &beyond);
        }
        let both = self.record.head[2] + self.record.head[3];
        for late in [i64::MIN, -1, -2, both + 1, 1 << 62, i64::MAX] {
            let main = both.wrapping_sub(late);
            self.edit("a sum that wraps", Due::Broken, |record| {
                (record.head[2], record.head[3]) = (late, main);
            });
        }
    }

    fn stops(&mut self) {
        let stop = self.record.head[5];
        let others = [1, 10, 13, -1, stop + (1 << 32), stop | i64::MIN];
        self.head("stop", Due::Broken, 5, &others);
        if stop == 0 {
            self.head("stop", Due::Broken, 5, &[11, 12]);
        } else {
            self.head("stop", Due::Broken, 5, &[0]);
            self.head("stop", Due::Whole, 5, &[11]);
        }
        let due = if self.last { Due::Whole } else { Due::Broken };
        for stop in [11, 12] {
            self.edit("stop", due, |record| {
                (record.head[1], record.head[5]) = (1, stop);
                record.outputs.clear();
            });
        }
    }

    fn changed(&mut self) {
        self.head("changed", Due::Whole, 6, &[0, 1, 1 << 32, i64::MAX]);
        self.head("changed", Due::Broken, 6, &[-1, i64::MIN]);
    }

    /// The first and the last of the units begun, and of the carried.
    fn units(&mut self, shape: &Shape) {
        let units = |record: &Record| [record.begun.clone(), record.carried.clone()];
        for (list, units) in units(self.record).into_iter().enumerate() {
            for place in ends(units.len()) {
                self.unit(shape, list, place, units[place]);
            }
        }
    }

    fn unit(&mut self, shape: &Shape, list: usize, place: usize, (gate, form): (i64, i64)) {
        let mut edit = |what, due, unit| {
            self.edit(what, due, |record| {
                let list = if list == 0 { &mut record.begun } else { &mut record.carried };
                list[place] = unit;
            });
        };
        for other in [-1, shape.gates, 64, gate + (1 << 32), gate | i64::MIN] {
            edit("gate", Due::Broken, (other, form));
        }
        edit("gate", Due::Asked, ((gate + 1) % shape.gates, form));
        for other in [-1, 3, 15, 34, 48, 64, form + (1 << 32), form | i64::MIN] {
            edit("form", Due::Broken, (gate, other));
        }
        for other in [0, 1, 2, 16, 17, 31, 32, 33] {
            edit("form", Due::Asked, (gate, other));
        }
    }

    /// The first and the last of the exec outputs, and of the value outputs.
    fn outputs(&mut self, shape: &Shape) {
        for value in [false, true] {
            let of_sort: Vec<usize> =
                (0..self.record.outputs.len()).filter(|&o| shape.values[o] == value).collect();
            for place in ends(of_sort.len()) {
                self.output(of_sort[place], value);
            }
        }
    }

    fn output(&mut self, at: usize, value: bool) {
        let (kind, content) = self.record.outputs[at];
        let mut show = |what, due, shown| self.edit(what, due, |record| record.outputs[at] = shown);
        for kind in [4, -1, kind + (1 << 32), kind | i64::MIN] {
            show("kind", Due::Broken, (kind, content));
        }
        let (infinite, not_a_number) = (bits(f64::INFINITY), bits(f64::NAN));
        for content in [infinite, infinite | i64::MIN, infinite + 1, not_a_number] {
            show("content", Due::Broken, (2, content));
        }
        for content in [2, -1, 1 << 32, i64::MIN] {
            show("content", Due::Broken, (3, content));
        }
        for content in [1, -1, i64::MIN] {
            show("content", Due::Broken, (0, content));
        }
        let due = if value { Due::Whole } else { Due::Broken };
        let most = bits(f64::MAX);
        let values = [
            (1, 0),
            (1, -1),
            (1, i64::MIN),
            (2, 0),
            (2, i64::MIN),
            (2, most),
            (2, 1),
            (3, 0),
            (3, 1),
        ];
        for shown in values {
            show("output", due, shown);
        }
        show("output", Due::Whole, (0, 0));
    }

    /// Bytes, words and records more or less.
    fn sizes(&mut self) {
        let record = self.record;
        let mut size = |what, less, more: &[u8]| {
            let others = vec![record.clone()];
            let more = more.to_vec();
            self.made.push(Change { what, due: Due::Broken, at: self.at, others, less, more });
        };
        for bytes in [1, 4, 7] {
            size("bytes", 0, &vec![0; bytes]);
            size("bytes", bytes, &[]);
        }
        for words in [1, 6] {
            size("words", 0, &vec![0; 8 * words]);
            size("words", 8 * words, &[]);
        }
        size("words", 0, &[165; 400]);
        size("words", 0, &[0; 400]);
        self.push("records", if self.last { Due::Whole } else { Due::Broken }, Vec::new());
        self.push("records", Due::Broken, vec![record.clone(); 2]);
    }
}

/// The first and the last of so many.
fn ends(length: usize) -> Vec<usize> {
    match length {
        0 => Vec::new(),
        1 => vec![0],
        _ => vec![0, length - 1],
    }
}
