//! Gives the same inputs to two implementations and stops at the first difference.

use crate::independent;
use crate::inputs::{Inputs, List, Pair, Session};
use crate::interface::{Estimate, Guarded, Interface, Refusal};
use crate::tally::{Column, Outcome, Tally};
use std::fmt::{self, Debug};

/// An input on which the two answers are not the same.
#[derive(Debug)]
pub struct Difference {
    pub call: &'static str,
    input: String,
    library: String,
    independent: String,
}

impl fmt::Display for Difference {
    fn fmt(&self, f: &mut fmt::Formatter) -> fmt::Result {
        writeln!(f, "difference in {}", self.call)?;
        writeln!(f, "{}", self.input)?;
        writeln!(f, "library:     {}", self.library)?;
        writeln!(f, "independent: {}", self.independent)
    }
}

/// Compares so many sessions, and beside each one a list of calls or a pair.
pub fn run(
    library: &mut dyn Interface,
    independent: &mut dyn Interface,
    count: u64,
    seed: u64,
) -> (Tally, Option<Difference>) {
    let mut inputs = Inputs::new(seed);
    let mut comparison = Comparison { library, independent, tally: Tally::default() };
    let compared = (0..count).try_for_each(|number| {
        let session = inputs.session();
        comparison.session(&session, &mut inputs)?;
        match number % 2 {
            0 => comparison.list(&inputs.list(), &mut inputs),
            _ => comparison.pair(&inputs.pair()),
        }
    });
    (comparison.tally, compared.err())
}

struct Comparison<'a> {
    library: &'a mut dyn Interface,
    independent: &'a mut dyn Interface,
    tally: Tally,
}

impl Comparison<'_> {
    fn session(&mut self, session: &Session, inputs: &mut Inputs) -> Result<(), Difference> {
        self.tally.inputs += 1;
        self.report(session, inputs)?;
        self.answer(session, inputs)?;
        self.integrate(session)?;
        self.weights(session, inputs)
    }

    fn report(&mut self, session: &Session, inputs: &mut Inputs) -> Result<(), Difference> {
        let needed = independent::line(&session.order, &session.survey).0.len();
        let len = inputs.room().len(needed);
        let call = |subject: &mut dyn Interface| {
            let mut out = Guarded::new(len, pattern_byte);
            let line = subject.report(session.case(), &mut out);
            (line, Bytes(out.whole))
        };
        let both = (call(self.library), call(self.independent));
        let (line, _) = agree("report", both, || format!("{}\nbuffer of {len} bytes", shown(session)))?;
        self.tally.count(session.kind, Column::Report, Outcome::of_refusal(line.refusal));
        Ok(())
    }

    fn answer(&mut self, session: &Session, inputs: &mut Inputs) -> Result<(), Difference> {
        let input = [&session.order[..], &session.survey].concat();
        let (order, survey) = input.split_at(input.len().min(6));
        let needed = independent::line(order, survey).0.len();
        let len = inputs.room().len(needed);
        let call = |subject: &mut dyn Interface| {
            let mut out = Guarded::new(len, pattern_byte);
            let line = subject.answer(&input, &mut out);
            (line, Bytes(out.whole))
        };
        let both = (call(self.library), call(self.independent));
        let (line, _) = agree("answer", both, || format!("input {}\nbuffer of {len} bytes", hex(&input)))?;
        self.tally.count(session.kind, Column::Answer, Outcome::of_refusal(line.refusal));
        Ok(())
    }

    fn integrate(&mut self, session: &Session) -> Result<(), Difference> {
        let both = (self.library.integrate(session.case()), self.independent.integrate(session.case()));
        let estimate = agree("integrate", both, || shown(session))?;
        self.tally.count(session.kind, Column::Integrate, Outcome::of_refusal(estimate.refusal));
        Ok(())
    }

    fn weights(&mut self, session: &Session, inputs: &mut Inputs) -> Result<(), Difference> {
        let needed = independent::pile(&session.order).map_or(8, |rule| rule.weights.len());
        let len = inputs.room().len(needed);
        let call = |subject: &mut dyn Interface| {
            let mut weights = Guarded::new(len, |index| -1_000_003 - index as i64);
            let rule = subject.weights(&session.order, &mut weights);
            (rule, weights.whole)
        };
        let both = (call(self.library), call(self.independent));
        let input = || format!("order {}\nbuffer of {len} weights", hex(&session.order));
        let (rule, _) = agree("weights", both, input)?;
        self.tally.count(session.kind, Column::Weights, Outcome::of_refusal(rule.refusal));
        if rule.refusal == Refusal::default() {
            self.tally.count_pile(&session.order, rule.span);
        }
        Ok(())
    }

    fn list(&mut self, list: &List, inputs: &mut Inputs) -> Result<(), Difference> {
        self.tally.inputs += 1;
        let List { session, calls } = list;
        let len = inputs.room().len(calls.len());
        let call = |subject: &mut dyn Interface| {
            let mut replies = Guarded::new(len, pattern_reply);
            let refusal = subject.replay(session.case(), calls, &mut replies);
            (refusal, replies)
        };
        let both = (call(self.library), call(self.independent));
        let input = || format!("{}\ncalls {calls:?}\nbuffer of {len} replies", shown(session));
        let (refusal, mut replies) = agree("replay", both, input)?;
        self.tally.count(session.kind, Column::Replay, Outcome::of_refusal(refusal));
        if refusal == Refusal::default() {
            for reply in &replies.part()[..calls.len()] {
                self.tally.count(session.kind, Column::Reply, Outcome::of_reply(reply));
            }
        }
        Ok(())
    }

    fn pair(&mut self, pair: &Pair) -> Result<(), Difference> {
        self.tally.inputs += 1;
        let (first, second) = ((&pair.first.0[..], &pair.first.1[..]), (&pair.second.0[..], &pair.second.1[..]));
        let both = (self.library.settle(first, second), self.independent.settle(first, second));
        let named = |name, (order, survey)| format!("{name} order {}\n{name} survey {}", hex(order), hex(survey));
        let verdict = agree("settle", both, || format!("{}\n{}", named("first", first), named("second", second)))?;
        self.tally.count(pair.kind, Column::Settle, Outcome::of_verdict(&verdict));
        Ok(())
    }
}

/// The answer that both give, or the difference.
fn agree<T: PartialEq + Debug>(
    call: &'static str,
    (library, independent): (T, T),
    input: impl FnOnce() -> String,
) -> Result<T, Difference> {
    if library == independent {
        return Ok(library);
    }
    Err(Difference { call, input: input(), library: format!("{library:?}"), independent: format!("{independent:?}") })
}

/// A buffer that is shown in hexadecimal.
#[derive(PartialEq)]
struct Bytes(Vec<u8>);

impl Debug for Bytes {
    fn fmt(&self, f: &mut fmt::Formatter) -> fmt::Result {
        f.write_str(&hex(&self.0))
    }
}

fn pattern_byte(index: usize) -> u8 {
    (index as u8).wrapping_mul(37) ^ 0xA5
}

fn pattern_reply(index: usize) -> Estimate {
    let index = index as u64;
    let refusal = Refusal { number: 1000 + index as u32, layer: 99, place: !index };
    Estimate { numerator: -77, denominator: index << 32, radius: i64::MIN, degree: index, refusal }
}

fn shown(session: &Session) -> String {
    format!("order {}\nsurvey {}", hex(&session.order), hex(&session.survey))
}

fn hex(bytes: &[u8]) -> String {
    bytes.iter().map(|byte| format!("{byte:02X}")).collect()
}

#[cfg(test)]
mod tests {
    use super::*;
    use crate::interface::Independent;
    use crate::planted::{Plant, Planted};

    #[test]
    fn an_implementation_agrees_with_itself() {
        let (tally, difference) = run(&mut Independent, &mut Independent, 4000, 3);
        assert!(difference.is_none());
        assert_eq!(tally.unseen(), Vec::<String>::new());
    }

    #[test]
    fn every_planted_error_is_found() {
        for plant in Plant::ALL {
            for wait in [0, 20] {
                let (_, difference) = run(&mut Planted::new(Independent, plant, wait), &mut Independent, 400, 3);
                assert_eq!(difference.map(|d| d.call), Some(plant.call()), "{plant:?}");
            }
        }
    }
}
