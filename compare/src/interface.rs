//! The six calls of the C interface as a trait, so that the comparison takes any two implementations: the linked library, the
//! independent version, or one of them with an error planted in it.

use crate::battenlime;
use crate::independent::{self, Fault, Origin};

pub use crate::battenlime::{Call, Estimate, Line, Refusal, Rule, Verdict};

pub const NONE: u32 = 0;
pub const APART: u32 = 1;
pub const MEET: u32 = 2;
pub const REFUSED: u32 = 3;

/// The name of a refusal's layer, as a report prints it.
pub fn layer_name(layer: u32) -> &'static str {
    ["RULE", "LAYER", "SOURCE", "RUN", "OTHER", "ORDER", "OUTPUT"]
        .get((layer as usize).wrapping_sub(1))
        .copied()
        .unwrap_or("?")
}

/// An order and a survey.
pub type Case<'a> = (&'a [u8], &'a [u8]);

/// A buffer with guards: the call gets the middle part only, and the whole is compared afterwards.
#[derive(Clone, Debug, PartialEq, Eq)]
pub struct Guarded<T> {
    pub whole: Vec<T>,
    len: usize,
}

/// Elements before and after the part that a call gets.
const GUARD: usize = 24;

impl<T: Clone> Guarded<T> {
    /// Every element is set by its index, so that a shifted or copied one shows.
    pub fn new(len: usize, pattern: impl Fn(usize) -> T) -> Guarded<T> {
        Guarded { whole: (0..len + 2 * GUARD).map(pattern).collect(), len }
    }

    pub fn part(&mut self) -> &mut [T] {
        &mut self.whole[GUARD..GUARD + self.len]
    }
}

pub trait Interface {
    fn report(&mut self, case: Case, out: &mut Guarded<u8>) -> Line;
    fn answer(&mut self, input: &[u8], out: &mut Guarded<u8>) -> Line;
    fn integrate(&mut self, case: Case) -> Estimate;
    fn weights(&mut self, order: &[u8], weights: &mut Guarded<i64>) -> Rule;
    fn replay(&mut self, case: Case, calls: &[Call], replies: &mut Guarded<Estimate>) -> Refusal;
    fn settle(&mut self, first: Case, second: Case) -> Verdict;
}

/// The linked library.
pub struct Library;

impl Interface for Library {
    fn report(&mut self, case: Case, out: &mut Guarded<u8>) -> Line {
        battenlime::report(case.0, case.1, out.part())
    }

    fn answer(&mut self, input: &[u8], out: &mut Guarded<u8>) -> Line {
        battenlime::answer(input, out.part())
    }

    fn integrate(&mut self, case: Case) -> Estimate {
        battenlime::integrate(case.0, case.1)
    }

    fn weights(&mut self, order: &[u8], weights: &mut Guarded<i64>) -> Rule {
        battenlime::weights(order, weights.part())
    }

    fn replay(&mut self, case: Case, calls: &[Call], replies: &mut Guarded<Estimate>) -> Refusal {
        battenlime::replay(case.0, case.1, calls, replies.part())
    }

    fn settle(&mut self, first: Case, second: Case) -> Verdict {
        battenlime::settle(first, second)
    }
}

/// The independent version, its answers brought to the form of the C interface.
pub struct Independent;

impl Interface for Independent {
    fn report(&mut self, case: Case, out: &mut Guarded<u8>) -> Line {
        independent::session(case.0, case.1, out.part()).into()
    }

    fn answer(&mut self, input: &[u8], out: &mut Guarded<u8>) -> Line {
        independent::answer(input, out.part()).into()
    }

    fn integrate(&mut self, case: Case) -> Estimate {
        independent::estimate(case.0, case.1).map(Some).into()
    }

    fn weights(&mut self, order: &[u8], weights: &mut Guarded<i64>) -> Rule {
        match independent::weights(order, weights.part()) {
            Ok(rule) => Rule {
                span: rule.span() as u64,
                denominator: narrow(rule.denominator),
                degree: rule.degree.into(),
                ceiling: narrow(rule.ceiling),
                symmetric: rule.symmetric.into(),
                refusal: Refusal::default(),
            },
            Err(fault) => Rule { refusal: fault.into(), ..Rule::default() },
        }
    }

    fn replay(&mut self, case: Case, calls: &[Call], replies: &mut Guarded<Estimate>) -> Refusal {
        let calls: Vec<independent::Call> = calls.iter().map(|&call| call.into()).collect();
        let mut answers = vec![Ok(None); replies.part().len()];
        match independent::replay(case.0, case.1, &calls, &mut answers) {
            Ok(()) => {
                for (reply, answer) in replies.part().iter_mut().zip(answers.into_iter().take(calls.len())) {
                    *reply = answer.into();
                }
                Refusal::default()
            }
            Err(fault) => fault.into(),
        }
    }

    fn settle(&mut self, first: Case, second: Case) -> Verdict {
        let told = |kind| Verdict { kind, refusal: Refusal::default() };
        match independent::settle(first, second) {
            None => told(NONE),
            Some(Ok(independent::Verdict::Apart)) => told(APART),
            Some(Ok(independent::Verdict::Meet)) => told(MEET),
            Some(Err(fault)) => Verdict { kind: REFUSED, refusal: fault.into() },
        }
    }
}

fn narrow<T: TryFrom<i128>>(number: i128) -> T {
    T::try_from(number).ok().expect("the documented range fits")
}

impl From<Fault> for Refusal {
    fn from(fault: Fault) -> Refusal {
        let layer = match fault.origin {
            Origin::Layer => 2,
            Origin::Source => 3,
            Origin::Run => 4,
            Origin::Other => 5,
            Origin::Order => 6,
            Origin::Output => 7,
        };
        Refusal { number: fault.number, layer, place: fault.place }
    }
}

impl From<independent::Written> for Line {
    fn from(written: independent::Written) -> Line {
        Line { len: written.len as u64, refusal: written.fault.map(Refusal::from).unwrap_or_default() }
    }
}

/// A change that was made is answered by zeros throughout.
impl From<Result<Option<independent::Estimate>, Fault>> for Estimate {
    fn from(reply: Result<Option<independent::Estimate>, Fault>) -> Estimate {
        match reply {
            Ok(None) => Estimate::default(),
            Ok(Some(e)) => Estimate {
                numerator: narrow(e.numerator),
                denominator: narrow(e.denominator),
                radius: narrow(e.radius),
                degree: e.degree.into(),
                refusal: Refusal::default(),
            },
            Err(fault) => Estimate { refusal: fault.into(), ..Estimate::default() },
        }
    }
}

impl From<Call> for independent::Call {
    fn from(call: Call) -> independent::Call {
        let Call { kind, station, value, tolerance } = call;
        match kind {
            1 => independent::Call::Enter { station, value },
            2 => independent::Call::Strike { station },
            3 => independent::Call::Declare { tolerance },
            4 => independent::Call::Publish,
            _ => independent::Call::Result,
        }
    }
}
