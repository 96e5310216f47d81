//! Generated inputs. Each is made by kind, so that every check is reached often, and the same seed gives the same inputs.

use crate::independent::{built_in, pile};
use crate::interface::{Call, Case};

mod lists;
mod pairs;
mod sessions;

pub const READING_LIMIT: i32 = 1 << 20;
pub const TOLERANCE_LIMIT: u32 = 1 << 20;
const LAST_STATION: u16 = 1024;
const CEILING_LIMIT: u64 = 1 << 40;

/// The generator splitmix64.
pub struct Random(pub u64);

impl Random {
    fn draw(&mut self) -> u64 {
        self.0 = self.0.wrapping_add(0x9E37_79B9_7F4A_7C15);
        let z = (self.0 ^ (self.0 >> 30)).wrapping_mul(0xBF58_476D_1CE4_E5B9);
        let z = (z ^ (z >> 27)).wrapping_mul(0x94D0_49BB_1331_11EB);
        z ^ (z >> 31)
    }

    pub fn below(&mut self, limit: u64) -> u64 {
        self.draw() % limit
    }

    pub fn between(&mut self, low: i64, high: i64) -> i64 {
        low + self.below((high - low + 1) as u64) as i64
    }

    pub fn index(&mut self, len: usize) -> usize {
        self.below(len as u64) as usize
    }

    pub fn chance(&mut self, percent: u64) -> bool {
        self.below(100) < percent
    }

    pub fn pick<T: Copy>(&mut self, from: &[T]) -> T {
        from[self.index(from.len())]
    }

    fn bytes(&mut self, len: usize) -> Vec<u8> {
        (0..len).map(|_| self.draw() as u8).collect()
    }
}

/// How much room a call gets for what it writes.
#[derive(Clone, Copy, Debug)]
pub enum Room {
    Exact,
    OneShort,
    Nothing,
    Spare(usize),
    Any(usize),
}

impl Room {
    pub fn len(self, needed: usize) -> usize {
        match self {
            Room::Exact => needed,
            Room::OneShort => needed.saturating_sub(1),
            Room::Nothing => 0,
            Room::Spare(more) => needed + more,
            Room::Any(len) => len,
        }
    }
}

/// An order and a survey as bytes.
pub struct Session {
    pub kind: &'static str,
    pub order: Vec<u8>,
    pub survey: Vec<u8>,
}

impl Session {
    pub fn case(&self) -> Case<'_> {
        (&self.order, &self.survey)
    }
}

/// Two sessions for a verdict.
pub struct Pair {
    pub kind: &'static str,
    pub first: (Vec<u8>, Vec<u8>),
    pub second: (Vec<u8>, Vec<u8>),
}

/// A list of calls on the run of a session.
pub struct List {
    pub session: Session,
    pub calls: Vec<Call>,
}

/// The fields of a session before they are written out as bytes.
#[derive(Clone)]
struct Draft {
    code: u8,
    refinements: u8,
    stretch: u16,
    panels: u16,
    /// The count written, where it is not the number of readings.
    count: Option<u16>,
    tolerance: u32,
    stations: Vec<u16>,
    readings: Vec<i32>,
}

impl Draft {
    fn order(&self) -> Vec<u8> {
        let mut bytes = vec![self.code, self.refinements];
        bytes.extend(self.stretch.to_be_bytes());
        bytes.extend(self.panels.to_be_bytes());
        bytes
    }

    fn survey(&self) -> Vec<u8> {
        let count = self.count.unwrap_or(self.stations.len() as u16);
        let mut bytes = Vec::from(count.to_be_bytes());
        bytes.extend(self.tolerance.to_be_bytes());
        bytes.extend(self.stations.iter().flat_map(|s| s.to_be_bytes()));
        bytes.extend(self.readings.iter().flat_map(|r| r.to_be_bytes()));
        bytes
    }

    fn bytes(&self) -> (Vec<u8>, Vec<u8>) {
        (self.order(), self.survey())
    }

    fn weights(&self) -> Vec<i128> {
        pile(&self.order()).map(|rule| rule.weights).unwrap_or_default()
    }

    fn span(&self) -> u64 {
        let base = built_in(self.code).map_or(1, |rule| rule.span() as u64);
        (base << self.refinements.min(5)) * u64::from(self.stretch) * u64::from(self.panels)
    }

    fn remove(&mut self, index: usize) {
        self.stations.remove(index);
        self.readings.remove(index);
    }
}

/// A built-in rule with so many refinements, which the layers accept.
#[derive(Clone, Copy)]
struct Base {
    code: u8,
    refinements: u8,
    span: u64,
    ceiling: u64,
}

impl Base {
    /// The greatest product of stretch and panels that is accepted.
    fn most(&self) -> u64 {
        (u64::from(LAST_STATION) / self.span).min(CEILING_LIMIT / self.ceiling)
    }
}

pub struct Inputs {
    pub random: Random,
    bases: Vec<Base>,
}

impl Inputs {
    pub fn new(seed: u64) -> Inputs {
        let codes = (1..=10).flat_map(|code| (0..=5).map(move |refinements| (code, refinements)));
        let base = |(code, refinements)| {
            let rule = pile(&[code, refinements, 0, 1, 0, 1]).ok()?;
            Some(Base { code, refinements, span: rule.span() as u64, ceiling: rule.ceiling as u64 })
        };
        Inputs { random: Random(seed), bases: codes.filter_map(base).collect() }
    }

    pub fn room(&mut self) -> Room {
        match self.random.below(10) {
            0..3 => Room::Spare(self.random.index(100)),
            3..6 => Room::Exact,
            6..8 => Room::OneShort,
            8 => Room::Nothing,
            _ => Room::Any(self.random.index(100)),
        }
    }

    /// A product as stretch and panels.
    fn factors(&mut self, product: u64) -> (u16, u16) {
        let divisors: Vec<u64> = (1..=product).filter(|&d| product.is_multiple_of(d)).collect();
        let stretch = self.random.pick(&divisors);
        (stretch as u16, (product / stretch) as u16)
    }
}

#[cfg(test)]
mod tests {
    use super::*;
    use crate::independent::estimate;

    #[test]
    fn valid_sessions_have_a_result() {
        let mut inputs = Inputs::new(1);
        for _ in 0..500 {
            let (order, survey) = inputs.valid().bytes();
            assert!(estimate(&order, &survey).is_ok(), "{order:?}");
        }
    }

    #[test]
    fn a_seed_gives_the_same_inputs() {
        let made = |seed| {
            let mut inputs = Inputs::new(seed);
            let sessions: Vec<_> = (0..50).map(|_| inputs.session()).map(|s| (s.kind, s.order, s.survey)).collect();
            sessions
        };
        assert_eq!(made(5), made(5));
        assert_ne!(made(5), made(6));
    }
}
