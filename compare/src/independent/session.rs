//! The whole way: an order and a survey in, a line, numbers, replies or a verdict out.

use super::fault::{Fault, Origin};
use super::formats::{Order, Survey};
use super::rules::Rule;
use super::run::{Call, Estimate, Run, Verdict};

const ORDER_BYTES: usize = 6;

/// What became of a line: its length, 0 where it did not fit, and the fault that it tells or that kept it out.
#[derive(Clone, Copy, Debug, PartialEq, Eq)]
pub struct Written {
    pub len: usize,
    pub fault: Option<Fault>,
}

/// The rule that an order asks for.
pub fn pile(order: &[u8]) -> Result<Rule, Fault> {
    Order::read(order)?.pile()
}

/// A new run with the survey loaded: the order, the layers and the survey are checked, in this order.
fn begun(order: &[u8], survey: &[u8]) -> Result<Run, Fault> {
    let mut run = Run::new(pile(order)?);
    run.load(&Survey::read(survey)?);
    Ok(run)
}

pub fn estimate(order: &[u8], survey: &[u8]) -> Result<Estimate, Fault> {
    begun(order, survey)?.result()
}

/// The line that a session reports, newline included, with the fault if it is a refusal.
pub fn line(order: &[u8], survey: &[u8]) -> (String, Option<Fault>) {
    match estimate(order, survey) {
        Ok(e) => (format!("{} {} {} {}\n", e.numerator, e.denominator, e.degree, e.radius), None),
        Err(fault) => (format!("{fault}\n"), Some(fault)),
    }
}

pub fn session(order: &[u8], survey: &[u8], out: &mut [u8]) -> Written {
    let (line, fault) = line(order, survey);
    match fitting(out, line.len()) {
        Ok(front) => {
            front.copy_from_slice(line.as_bytes());
            Written { len: line.len(), fault }
        }
        Err(short) => Written { len: 0, fault: Some(short) },
    }
}

/// A session in one input: the first six bytes and the rest. A shorter one is a short order.
pub fn answer(input: &[u8], out: &mut [u8]) -> Written {
    let (order, survey) = input.split_at(input.len().min(ORDER_BYTES));
    session(order, survey, out)
}

/// The rule, with its weights for the stations 0 to the span at the front of the buffer.
pub fn weights(order: &[u8], out: &mut [i64]) -> Result<Rule, Fault> {
    let rule = pile(order)?;
    let places = fitting(out, rule.weights.len())?;
    for (place, &weight) in places.iter_mut().zip(&rule.weights) {
        *place = i64::try_from(weight).expect("within the ceiling");
    }
    Ok(rule)
}

/// The reply to each call, at the front of the buffer. A refused call changes nothing, and the calls after it go on.
pub fn replay(
    order: &[u8],
    survey: &[u8],
    calls: &[Call],
    replies: &mut [Result<Option<Estimate>, Fault>],
) -> Result<(), Fault> {
    let mut run = begun(order, survey)?;
    let due = fitting(replies, calls.len())?;
    for (reply, &call) in due.iter_mut().zip(calls) {
        *reply = run.perform(call);
    }
    Ok(())
}

/// The verdict on two sessions, or none where there are not two runs to judge.
pub fn settle(first: (&[u8], &[u8]), second: (&[u8], &[u8])) -> Option<Result<Verdict, Fault>> {
    let first = begun(first.0, first.1).ok()?;
    let second = begun(second.0, second.1).ok()?;
    Some(first.verdict(&second))
}

/// The front of a buffer, which must have room for so many elements.
fn fitting<T>(buffer: &mut [T], needed: usize) -> Result<&mut [T], Fault> {
    buffer.get_mut(..needed).ok_or(Fault::new(23, Origin::Output, needed as u64))
}

#[cfg(test)]
mod tests {
    use super::*;

    fn bytes(hex: &str) -> Vec<u8> {
        let digits: Vec<u32> = hex.chars().filter_map(|c| c.to_digit(16)).collect();
        digits.chunks(2).map(|pair| (16 * pair[0] + pair[1]) as u8).collect()
    }

    const CUBE: &str =
        "01 01 0001 0002 0005 00000001 0000 0001 0002 0003 0004 00000000 00000001 00000008 0000001B 00000040";

    #[test]
    fn examples_of_the_documents() {
        let twelve_panels = "01 05 0001 000C 0003 00000000 0000 0001 0002 FFFFFFFB FFFFFFFF FFFFFFFC";
        let examples = [
            (CUBE, "384 6 3 24\n"),
            (
                "01 01 0001 0002 0004 00000001 0000 0001 0002 0004 00000000 00000001 00000008 00000040",
                "REFUSED 21 RUN 3\n",
            ),
            ("02 00 0001 0001 0003 00000001 0000 0001 0002 00000000 00000001 00000004", "8 3 3 6\n"),
            ("01 00 0001 0002 0003 00000000 0000 0001 0002 FFFFFFFB FFFFFFFF FFFFFFFC", "-11 2 1 0\n"),
            ("01", "REFUSED 14 ORDER 0\n"),
            ("0B 00 0001 0001", "REFUSED 24 ORDER 0\n"),
            ("01 06 0001 0001", "REFUSED 24 ORDER 1\n"),
            ("01 00 0000 0001", "REFUSED 6 LAYER 1\n"),
            ("01 00 0001 0001", "REFUSED 14 SOURCE 0\n"),
            (twelve_panels, "REFUSED 9 LAYER 7\n"),
        ];
        for (input, line) in examples {
            let mut out = [0xA5; 84];
            let written = answer(&bytes(input), &mut out);
            assert_eq!(&out[..written.len], line.as_bytes());
            assert!(out[written.len..].iter().all(|&byte| byte == 0xA5));
            assert_eq!(written.fault.is_some(), line.starts_with("REFUSED"));
        }
    }

    #[test]
    fn a_short_buffer_stays_as_it_was() {
        let input = bytes(CUBE);
        let mut out = [0xA5; 11];
        let short = Written { len: 0, fault: Some(Fault::new(23, Origin::Output, 11)) };
        assert_eq!(answer(&input, &mut out[..10]), short);
        assert_eq!(out, [0xA5; 11]);
        assert_eq!(answer(&input, &mut out), Written { len: 11, fault: None });
        assert_eq!(&out, b"384 6 3 24\n");
    }

    #[test]
    fn weights_need_a_place_for_each_station() {
        let mut out = [7; 6];
        let short = Fault::new(23, Origin::Output, 5);
        assert_eq!(weights(&[1, 1, 0, 1, 0, 2], &mut out[..4]), Err(short));
        assert_eq!(out, [7; 6]);
        assert!(weights(&[1, 1, 0, 1, 0, 2], &mut out).is_ok());
        assert_eq!(out, [2, 8, 4, 8, 2, 7]);
    }

    #[test]
    fn replies_need_a_place_for_each_call() {
        let input = bytes(CUBE);
        let (order, survey) = input.split_at(6);
        let calls = [Call::Strike { station: 3 }, Call::Result];
        let mut replies = [Ok(None); 3];
        let short = Fault::new(23, Origin::Output, 2);
        assert_eq!(replay(order, survey, &calls, &mut replies[..1]), Err(short));
        assert_eq!(replay(order, survey, &calls, &mut replies), Ok(()));
        assert_eq!(replies, [Ok(None), Err(Fault::new(21, Origin::Run, 3)), Ok(None)]);
        assert_eq!(replay(order, &[], &calls, &mut []), Err(Fault::new(14, Origin::Source, 0)));
    }

    #[test]
    fn no_verdict_without_two_runs() {
        let input = bytes(CUBE);
        let (order, survey) = input.split_at(6);
        assert_eq!(settle((order, survey), (order, survey)), Some(Ok(Verdict::Meet)));
        assert_eq!(settle((order, survey), (order, &[])), None);
        assert_eq!(settle((&[], survey), (order, survey)), None);
    }
}
