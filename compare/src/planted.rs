//! An implementation with one error planted in it, to show that the comparison finds it.

use crate::interface::{Call, Case, Estimate, Guarded, Interface, Line, Refusal, Rule, Verdict};

/// Where the error is: in what is written, beside it, or in what is returned.
#[derive(Clone, Copy, Debug, PartialEq, Eq)]
pub enum Plant {
    ReportByte,
    ReportGuardBefore,
    ReportGuardAfter,
    ReportLength,
    ReportPlace,
    AnswerByte,
    AnswerNumber,
    Numerator,
    Radius,
    Weight,
    WeightGuard,
    Ceiling,
    Reply,
    ReplyGuard,
    ReplayLayer,
    VerdictKind,
    VerdictPlace,
}

impl Plant {
    pub const ALL: [Plant; 17] = [
        Plant::ReportByte,
        Plant::ReportGuardBefore,
        Plant::ReportGuardAfter,
        Plant::ReportLength,
        Plant::ReportPlace,
        Plant::AnswerByte,
        Plant::AnswerNumber,
        Plant::Numerator,
        Plant::Radius,
        Plant::Weight,
        Plant::WeightGuard,
        Plant::Ceiling,
        Plant::Reply,
        Plant::ReplyGuard,
        Plant::ReplayLayer,
        Plant::VerdictKind,
        Plant::VerdictPlace,
    ];

    /// The call in which a difference must be found.
    pub fn call(self) -> &'static str {
        match self {
            Plant::ReportByte
            | Plant::ReportGuardBefore
            | Plant::ReportGuardAfter
            | Plant::ReportLength
            | Plant::ReportPlace => "report",
            Plant::AnswerByte | Plant::AnswerNumber => "answer",
            Plant::Numerator | Plant::Radius => "integrate",
            Plant::Weight | Plant::WeightGuard | Plant::Ceiling => "weights",
            Plant::Reply | Plant::ReplyGuard | Plant::ReplayLayer => "replay",
            Plant::VerdictKind | Plant::VerdictPlace => "settle",
        }
    }
}

pub struct Planted<I> {
    inner: I,
    plant: Plant,
    /// How many calls stay right before the wrong one.
    wait: u64,
}

impl<I> Planted<I> {
    pub fn new(inner: I, plant: Plant, wait: u64) -> Planted<I> {
        Planted { inner, plant, wait }
    }

    /// Whether the error goes into this call, which has a place for those that are told.
    fn is_due(&mut self, plants: &[Plant]) -> Option<Plant> {
        if !plants.contains(&self.plant) {
            return None;
        }
        self.wait = self.wait.checked_sub(1).unwrap_or(u64::MAX);
        (self.wait == u64::MAX).then_some(self.plant)
    }
}

/// Changes the first element that a call got, if it got any.
fn spoil<T>(buffer: &mut Guarded<T>, change: impl Fn(&mut T))
where
    T: Clone,
{
    if let Some(first) = buffer.part().first_mut() {
        change(first);
    }
}

impl<I: Interface> Interface for Planted<I> {
    fn report(&mut self, case: Case, out: &mut Guarded<u8>) -> Line {
        let mut line = self.inner.report(case, out);
        let last = out.whole.len() - 1;
        let mut plants =
            vec![Plant::ReportGuardBefore, Plant::ReportGuardAfter, Plant::ReportLength, Plant::ReportPlace];
        plants.extend((!out.part().is_empty()).then_some(Plant::ReportByte));
        match self.is_due(&plants) {
            Some(Plant::ReportByte) => spoil(out, |byte| *byte ^= 1),
            Some(Plant::ReportGuardBefore) => out.whole[0] ^= 1,
            Some(Plant::ReportGuardAfter) => out.whole[last] ^= 1,
            Some(Plant::ReportLength) => line.len += 1,
            Some(_) => line.refusal.place += 1,
            None => {}
        }
        line
    }

    fn answer(&mut self, input: &[u8], out: &mut Guarded<u8>) -> Line {
        let mut line = self.inner.answer(input, out);
        let mut plants = vec![Plant::AnswerNumber];
        plants.extend((!out.part().is_empty()).then_some(Plant::AnswerByte));
        match self.is_due(&plants) {
            Some(Plant::AnswerByte) => spoil(out, |byte| *byte ^= 128),
            Some(_) => line.refusal.number += 1,
            None => {}
        }
        line
    }

    fn integrate(&mut self, case: Case) -> Estimate {
        let mut estimate = self.inner.integrate(case);
        match self.is_due(&[Plant::Numerator, Plant::Radius]) {
            Some(Plant::Numerator) => estimate.numerator ^= 1,
            Some(_) => estimate.radius += 1,
            None => {}
        }
        estimate
    }

    fn weights(&mut self, order: &[u8], weights: &mut Guarded<i64>) -> Rule {
        let mut rule = self.inner.weights(order, weights);
        let last = weights.whole.len() - 1;
        let mut plants = vec![Plant::WeightGuard, Plant::Ceiling];
        plants.extend((!weights.part().is_empty()).then_some(Plant::Weight));
        match self.is_due(&plants) {
            Some(Plant::Weight) => spoil(weights, |weight| *weight ^= 1 << 40),
            Some(Plant::WeightGuard) => weights.whole[last] = 0,
            Some(_) => rule.ceiling += 1,
            None => {}
        }
        rule
    }

    fn replay(&mut self, case: Case, calls: &[Call], replies: &mut Guarded<Estimate>) -> Refusal {
        let mut refusal = self.inner.replay(case, calls, replies);
        let last = replies.whole.len() - 1;
        let mut plants = vec![Plant::ReplyGuard, Plant::ReplayLayer];
        plants.extend((!replies.part().is_empty()).then_some(Plant::Reply));
        match self.is_due(&plants) {
            Some(Plant::Reply) => spoil(replies, |reply| reply.refusal.place ^= 1),
            Some(Plant::ReplyGuard) => replies.whole[last].degree += 1,
            Some(_) => refusal.layer += 1,
            None => {}
        }
        refusal
    }

    fn settle(&mut self, first: Case, second: Case) -> Verdict {
        let mut verdict = self.inner.settle(first, second);
        match self.is_due(&[Plant::VerdictKind, Plant::VerdictPlace]) {
            Some(Plant::VerdictKind) => verdict.kind ^= 1,
            Some(_) => verdict.refusal.place += 1,
            None => {}
        }
        verdict
    }
}
