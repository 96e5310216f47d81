//! What was tried and what came of it.

use crate::interface::{APART, Estimate, MEET, NONE, Refusal, Verdict, layer_name};
use std::collections::{BTreeMap, BTreeSet};
use std::fmt;

/// The calls; a replayed list has a return value and, for each of its calls, a reply.
#[derive(Clone, Copy, Debug, PartialEq, Eq, PartialOrd, Ord)]
pub enum Column {
    Report,
    Answer,
    Integrate,
    Weights,
    Replay,
    Reply,
    Settle,
}

const COLUMNS: [&str; 7] = ["report", "answer", "integrate", "weights", "replay", "(reply)", "settle"];

#[derive(Clone, Copy, Debug, PartialEq, Eq, PartialOrd, Ord)]
pub enum Outcome {
    /// A result, the weights of a rule, or a list that was replayed.
    Answered,
    ChangeMade,
    Apart,
    Meet,
    NoVerdict,
    /// The place is kept for refusal 24 alone, which has a meaning at each of its two.
    Refused {
        number: u32,
        layer: u32,
        place: Option<u64>,
    },
}

impl Outcome {
    fn refused(refusal: Refusal) -> Option<Outcome> {
        let Refusal { number, layer, place } = refusal;
        let place = (number == 24).then_some(place);
        (refusal != Refusal::default()).then_some(Outcome::Refused { number, layer, place })
    }

    pub fn of_refusal(refusal: Refusal) -> Outcome {
        Outcome::refused(refusal).unwrap_or(Outcome::Answered)
    }

    pub fn of_reply(reply: &Estimate) -> Outcome {
        let made = if *reply == Estimate::default() { Outcome::ChangeMade } else { Outcome::Answered };
        Outcome::refused(reply.refusal).unwrap_or(made)
    }

    pub fn of_verdict(verdict: &Verdict) -> Outcome {
        match verdict.kind {
            NONE => Outcome::NoVerdict,
            APART => Outcome::Apart,
            MEET => Outcome::Meet,
            _ => Outcome::of_refusal(verdict.refusal),
        }
    }
}

impl fmt::Display for Outcome {
    fn fmt(&self, f: &mut fmt::Formatter) -> fmt::Result {
        let text = match *self {
            Outcome::Answered => "answered".into(),
            Outcome::ChangeMade => "change made".into(),
            Outcome::Apart => "apart".into(),
            Outcome::Meet => "meet".into(),
            Outcome::NoVerdict => "none".into(),
            Outcome::Refused { number, layer, place: None } => format!("{number} {}", layer_name(layer)),
            Outcome::Refused { number, layer, place: Some(place) } => {
                format!("{number} {} at {place}", layer_name(layer))
            }
        };
        f.pad(&text)
    }
}

#[derive(Default)]
pub struct Tally {
    /// Generated inputs: sessions, lists of calls and pairs.
    pub inputs: u64,
    kinds: BTreeMap<&'static str, [u64; 7]>,
    outcomes: BTreeMap<Outcome, [u64; 7]>,
    spans: BTreeSet<u64>,
    /// Base code and refinements of accepted orders.
    bases: BTreeSet<(u8, u8)>,
}

impl Tally {
    pub fn count(&mut self, kind: &'static str, column: Column, outcome: Outcome) {
        self.kinds.entry(kind).or_default()[column as usize] += 1;
        self.outcomes.entry(outcome).or_default()[column as usize] += 1;
    }

    pub fn count_pile(&mut self, order: &[u8], span: u64) {
        self.spans.insert(span);
        self.bases.insert((order[0], order[1]));
    }

    /// What each call can give and was never seen, and likewise the base codes and the least and greatest span.
    pub fn unseen(&self) -> Vec<String> {
        let seen = |column: Column, outcome| self.outcomes.get(&outcome).is_some_and(|row| row[column as usize] > 0);
        let unseen = expected().into_iter().filter(|&(column, outcome)| !seen(column, outcome));
        let outcomes = unseen.map(|(column, outcome)| format!("{outcome} from {}", COLUMNS[column as usize]));
        let spans = [1, 1024].into_iter().filter(|span| !self.spans.contains(span)).map(|span| format!("span {span}"));
        let has_code = |code: &u8| self.bases.iter().any(|(seen, _)| seen == code);
        let codes = (1..=10).filter(|code| !has_code(code)).map(|code| format!("base code {code}"));
        outcomes.chain(spans).chain(codes).collect()
    }
}

/// The outcomes of each call, by the documents. 16, 17 and others belong to sources that these calls do not make.
fn expected() -> Vec<(Column, Outcome)> {
    let refused = |number, layer| Outcome::Refused { number, layer, place: None };
    let order_refused = |place| Outcome::Refused { number: 24, layer: 6, place: Some(place) };
    let pile = [refused(14, 6), order_refused(0), order_refused(1)].into_iter().chain((6..=9).map(|n| refused(n, 2)));
    let pile: Vec<Outcome> = pile.collect();
    let survey: Vec<Outcome> = (11..=15).map(|n| refused(n, 3)).collect();
    let (missing, short) = (refused(21, 4), refused(23, 7));
    let replies = [11, 15, 18, 19, 20, 21].map(|n| refused(n, 4));
    let mut expected = Vec::new();
    let mut expect = |column, outcomes: &[Outcome]| expected.extend(outcomes.iter().map(|&o| (column, o)));
    for column in [Column::Report, Column::Answer, Column::Integrate, Column::Weights, Column::Replay] {
        expect(column, &[Outcome::Answered]);
        expect(column, &pile);
        match column {
            Column::Report | Column::Answer => expect(column, &[&survey[..], &[missing, short]].concat()),
            Column::Integrate => expect(column, &[&survey[..], &[missing]].concat()),
            Column::Replay => expect(column, &[&survey[..], &[short]].concat()),
            _ => expect(column, &[short]),
        }
    }
    expect(Column::Reply, &[Outcome::Answered, Outcome::ChangeMade]);
    expect(Column::Reply, &replies);
    expect(Column::Settle, &[Outcome::Apart, Outcome::Meet, Outcome::NoVerdict]);
    expect(Column::Settle, &[refused(22, 4), missing, refused(21, 5)]);
    expected
}

impl fmt::Display for Tally {
    fn fmt(&self, f: &mut fmt::Formatter) -> fmt::Result {
        let head = |f: &mut fmt::Formatter, title: &str| {
            write!(f, "{title:<28}")?;
            COLUMNS.iter().try_for_each(|column| write!(f, "{column:>10}"))?;
            writeln!(f)
        };
        let row = |f: &mut fmt::Formatter, name: &dyn fmt::Display, counts: &[u64; 7]| {
            write!(f, "{name:<28}")?;
            counts.iter().try_for_each(|&count| match count {
                0 => write!(f, "{:>10}", "."),
                _ => write!(f, "{count:>10}"),
            })?;
            writeln!(f)
        };
        head(f, "kind of input")?;
        let mut sums = [0; 7];
        for (kind, counts) in &self.kinds {
            row(f, kind, counts)?;
            sums.iter_mut().zip(counts).for_each(|(sum, count)| *sum += count);
        }
        row(f, &"all", &sums)?;
        writeln!(f)?;
        head(f, "outcome")?;
        self.outcomes.iter().try_for_each(|(outcome, counts)| row(f, outcome, counts))?;
        let (least, most) = (self.spans.first().unwrap_or(&0), self.spans.last().unwrap_or(&0));
        writeln!(f, "\naccepted piles: {} base rules with their refinements", self.bases.len())?;
        writeln!(f, "accepted piles: {} spans from {least} to {most}", self.spans.len())
    }
}
