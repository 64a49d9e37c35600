//! What the program `scenarios` prints for an input, every byte, from the independent implementation. No index is turned into a scenario:
//! the lines come from walking the live states, the first event of the order first.
use crate::model::{self, Pruned};
use std::collections::HashSet;

/// 'It owns 8,192 cells.'
const CELLS: usize = 8192;
/// 'for the first 1,000 indices, or all N if fewer'
const LINES: usize = 1000;

#[derive(Clone, Copy, Debug, PartialEq, Eq, PartialOrd, Ord)]
pub enum Outcome {
    /// Served, with fewer than 1,000 scenarios, just as many, or more.
    Fewer,
    Thousand,
    More,
    BadAsk,
    Refused(u64),
}

pub struct Listing {
    pub outcome: Outcome,
    /// The horizon asked for, 0 where none is.
    pub horizon: u64,
    pub printed: Vec<u8>,
}

/// The digits of a number, without leading zero except 0 itself.
fn decimal(mut n: u64) -> Vec<u8> {
    let mut digits = vec![];
    loop {
        digits.insert(0, b"0123456789"[(n % 10) as usize]);
        n /= 10;
        if n == 0 {
            return digits;
        }
    }
}

/// Fields 'all parted by byte 9', and a line end.
fn line(fields: &[Vec<u8>]) -> Vec<u8> {
    let mut l = fields.join(&9);
    l.push(10);
    l
}

/// 'a line of the index and its events'
pub fn scenario_line(index: u64, events: &[u8]) -> Vec<u8> {
    let fields: Vec<Vec<u8>> = [index].into_iter().chain(events.iter().map(|&e| e as u64)).map(decimal).collect();
    line(&fields)
}

/// 'one line `ask`, h, then a rig text': h and the text, unless the line is bad.
fn asked(input: &[u8]) -> Option<(u64, &[u8])> {
    let end = input.iter().position(|&b| b == 10)?;
    let fields: Vec<&[u8]> = input[..end].split(|&b| b == 9).collect();
    match fields[..] {
        [b"ask", h] => Some((model::number(h)? as u64, &input[end + 1..])),
        _ => None,
    }
}

#[derive(Default)]
struct Walk {
    events: Vec<u8>,
    found: Vec<Vec<u8>>,
    /// The states, each with a number of events left, from which nothing was found: runs stop before.
    vain: HashSet<(usize, usize)>,
}

impl Walk {
    /// Walks on from x by `left` events, the first of the order first, and notes each sequence that it comes to the end of, until there are enough.
    fn on(&mut self, pruned: &Pruned, x: usize, left: usize) {
        if left == 0 {
            self.found.push(self.events.clone());
            return;
        }
        let before = self.found.len();
        for &e in &pruned.order {
            match pruned.step(x, e) {
                Some(y) if self.found.len() < LINES && !self.vain.contains(&(y, left - 1)) => {
                    self.events.push(e as u8);
                    self.on(pruned, y, left - 1);
                    self.events.pop();
                }
                _ => (),
            }
        }
        if self.found.len() == before {
            self.vain.insert((x, left));
        }
    }
}

fn refused(outcome: Outcome, horizon: u64, number: u64, place: u64) -> Listing {
    Listing { outcome, horizon, printed: line(&[b"no".to_vec(), decimal(number), decimal(place)]) }
}

pub fn listing(input: &[u8]) -> Listing {
    let Some((horizon, text)) = asked(input) else {
        return refused(Outcome::BadAsk, 0, 2, 0);
    };
    let counted = model::count(text, horizon, &[0; CELLS]);
    let [n, passes] = counted.words;
    if counted.number != 0 {
        return refused(Outcome::Refused(counted.number), horizon, counted.number, n);
    }
    let mut printed = line(&[b"count".to_vec(), decimal(n), decimal(passes)]);
    let pruned = model::prune(&model::read(text).expect("a readable text"));
    let mut walk = Walk::default();
    walk.on(&pruned, pruned.start, horizon as usize);
    assert_eq!(walk.found.len() as u64, n.min(LINES as u64), "the independent count of the sequences that are walked");
    for (i, events) in walk.found.iter().enumerate() {
        printed.extend(scenario_line(i as u64, events));
    }
    let outcome = match n {
        0..=999 => Outcome::Fewer,
        1000 => Outcome::Thousand,
        _ => Outcome::More,
    };
    Listing { outcome, horizon, printed }
}
