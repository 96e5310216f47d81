//! A run: a rule, the readings gathered for it, and the verdict on two runs.

use super::fault::{Fault, Origin};
use super::formats::{READING_LIMIT, Survey, TOLERANCE_LIMIT};
use super::rules::Rule;

#[derive(Clone, Debug)]
pub struct Run {
    rule: Rule,
    /// One place for each station up to the span: no call reaches further.
    readings: Vec<Option<i128>>,
    tolerance: i128,
    published: bool,
}

#[derive(Clone, Copy, Debug, PartialEq, Eq)]
pub enum Call {
    Enter { station: u64, value: i64 },
    Strike { station: u64 },
    Declare { tolerance: u64 },
    Publish,
    Result,
}

/// Value and radius, both over the denominator.
#[derive(Clone, Copy, Debug, PartialEq, Eq)]
pub struct Estimate {
    pub numerator: i128,
    pub denominator: i128,
    pub radius: i128,
    pub degree: u32,
}

#[derive(Clone, Copy, Debug, PartialEq, Eq)]
pub enum Verdict {
    Apart,
    Meet,
}

fn refusal(number: u32, place: u64) -> Fault {
    Fault::new(number, Origin::Run, place)
}

impl Run {
    pub fn new(rule: Rule) -> Run {
        let readings = vec![None; rule.span() + 1];
        Run { rule, readings, tolerance: 0, published: false }
    }

    /// Takes over the readings up to the span. The run must be gathering, as a new one is.
    pub fn load(&mut self, survey: &Survey) {
        for &(station, reading) in &survey.readings {
            if let Some(place) = self.readings.get_mut(station) {
                *place = Some(reading);
            }
        }
        self.tolerance = self.tolerance.max(survey.tolerance);
    }

    /// Does what the call asks. Only an answered `Call::Result` has an estimate.
    pub fn perform(&mut self, call: Call) -> Result<Option<Estimate>, Fault> {
        match call {
            Call::Result => return self.result().map(Some),
            _ if self.published => return Err(refusal(19, 0)),
            Call::Enter { station, value } => {
                let value = i128::from(value);
                let place = self.place(station)?;
                if value.abs() > READING_LIMIT {
                    return Err(refusal(11, station));
                }
                *place = Some(value);
            }
            Call::Strike { station } => {
                self.place(station)?.take().ok_or(refusal(20, station))?;
            }
            Call::Declare { tolerance } if i128::from(tolerance) > TOLERANCE_LIMIT => return Err(refusal(15, 0)),
            Call::Declare { tolerance } => self.tolerance = tolerance.into(),
            Call::Publish => {
                self.result()?;
                self.published = true;
            }
        }
        Ok(None)
    }

    /// The place of a station, which must not be above the span.
    fn place(&mut self, station: u64) -> Result<&mut Option<i128>, Fault> {
        let index = usize::try_from(station).ok();
        index.and_then(|i| self.readings.get_mut(i)).ok_or(refusal(18, station))
    }

    pub fn result(&self) -> Result<Estimate, Fault> {
        let weighted = || self.rule.weights.iter().zip(&self.readings);
        if let Some(station) = weighted().position(|(&weight, reading)| weight != 0 && reading.is_none()) {
            return Err(refusal(21, station as u64));
        }
        let numerator = weighted().map(|(weight, reading)| weight * reading.unwrap_or(0)).sum();
        let size: i128 = self.rule.weights.iter().map(|w| w.abs()).sum();
        let radius = self.tolerance * size;
        Ok(Estimate { numerator, denominator: self.rule.denominator, radius, degree: self.rule.degree })
    }

    pub fn verdict(&self, other: &Run) -> Result<Verdict, Fault> {
        if self.rule.span() != other.rule.span() {
            return Err(refusal(22, 0));
        }
        let first = self.result()?;
        let second = other.result().map_err(|fault| Fault { origin: Origin::Other, ..fault })?;
        let apart = first.ends_below(&second) || second.ends_below(&first);
        Ok(if apart { Verdict::Apart } else { Verdict::Meet })
    }
}

impl Estimate {
    /// Whether this band ends before the other begins; the denominators are positive.
    fn ends_below(&self, other: &Estimate) -> bool {
        (self.numerator + self.radius) * other.denominator < (other.numerator - other.radius) * self.denominator
    }
}

#[cfg(test)]
mod tests {
    use super::*;
    use crate::independent::Order;

    fn run(order: [u8; 6], tolerance: i128, readings: &[(usize, i128)]) -> Run {
        let rule = Order::read(&order).and_then(|order| order.pile()).expect("accepted");
        let mut run = Run::new(rule);
        run.load(&Survey { tolerance, readings: readings.to_vec() });
        run
    }

    const TRAPEZOIDS: [u8; 6] = [1, 0, 0, 1, 0, 2];
    const SIMPSON: [u8; 6] = [2, 0, 0, 1, 0, 1];
    const SQUARES: [(usize, i128); 3] = [(0, 0), (1, 1), (2, 4)];

    #[test]
    fn worked_numbers() {
        let expected = Estimate { numerator: 6, denominator: 2, radius: 4, degree: 1 };
        assert_eq!(run(TRAPEZOIDS, 1, &SQUARES).result(), Ok(expected));
        let expected = Estimate { numerator: 8, denominator: 3, radius: 6, degree: 3 };
        assert_eq!(run(SIMPSON, 1, &SQUARES).result(), Ok(expected));
        let cubes = [(0, 0), (1, 1), (2, 8), (3, 27), (4, 64)];
        let expected = Estimate { numerator: 384, denominator: 6, radius: 24, degree: 3 };
        assert_eq!(run([1, 1, 0, 1, 0, 2], 1, &cubes).result(), Ok(expected));
    }

    #[test]
    fn verdicts() {
        let verdict = |t| run(TRAPEZOIDS, t, &SQUARES).verdict(&run(SIMPSON, t, &SQUARES));
        assert_eq!(verdict(0), Ok(Verdict::Apart));
        assert_eq!(verdict(1), Ok(Verdict::Meet));
        let longer = run([1, 0, 0, 1, 0, 3], 0, &SQUARES);
        assert_eq!(run(SIMPSON, 0, &[]).verdict(&longer), Err(refusal(22, 0)));
        let (full, lacking) = (run(SIMPSON, 0, &SQUARES), run(SIMPSON, 0, &SQUARES[..2]));
        assert_eq!(lacking.verdict(&lacking), Err(refusal(21, 2)));
        assert_eq!(full.verdict(&lacking), Err(Fault::new(21, Origin::Other, 2)));
    }

    #[test]
    fn touching_bands_meet() {
        let flat = |reading, tolerance| run(TRAPEZOIDS, tolerance, &[(0, reading), (1, reading), (2, reading)]);
        assert_eq!(flat(0, 3).verdict(&flat(5, 2)), Ok(Verdict::Meet));
        assert_eq!(flat(0, 3).verdict(&flat(6, 2)), Ok(Verdict::Apart));
    }

    #[test]
    fn calls_and_their_checks() {
        let mut run = run(SIMPSON, 1, &SQUARES[..2]);
        let limit = 1 << 20;
        let asked = [
            (Call::Publish, Err(refusal(21, 2))),
            (Call::Enter { station: 3, value: i64::MIN }, Err(refusal(18, 3))),
            (Call::Enter { station: 2, value: limit + 1 }, Err(refusal(11, 2))),
            (Call::Strike { station: 2 }, Err(refusal(20, 2))),
            (Call::Strike { station: u64::MAX }, Err(refusal(18, u64::MAX))),
            (Call::Declare { tolerance: 1 + limit as u64 }, Err(refusal(15, 0))),
            (Call::Declare { tolerance: 0 }, Ok(None)),
            (Call::Enter { station: 2, value: -limit }, Ok(None)),
            (Call::Result, Ok(Some(Estimate { numerator: 4 - 1_048_576, denominator: 3, radius: 0, degree: 3 }))),
            (Call::Publish, Ok(None)),
            (Call::Strike { station: 9 }, Err(refusal(19, 0))),
            (Call::Publish, Err(refusal(19, 0))),
        ];
        for (call, reply) in asked {
            assert_eq!(run.perform(call), reply, "{call:?}");
        }
    }
}
