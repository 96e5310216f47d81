//! Battenlime from Rust: safe calls of the static library `libbattenlime.a`.
//!
//! Any numbers and bytes may be passed; what cannot be used is refused by number, layer and place.
//! Nothing is allocated and nothing is kept between calls. A call needs up to 300 KB of stack.

/// A refusal; all three are 0 where nothing was refused.
#[repr(C)]
#[derive(Clone, Copy, Debug, Default, PartialEq, Eq)]
pub struct Refusal {
    /// 1 to 24
    pub number: u32,
    /// 1 RULE, 2 LAYER, 3 SOURCE, 4 RUN, 5 OTHER, 6 ORDER, 7 OUTPUT
    pub layer: u32,
    pub place: u64,
}

/// What became of a line of text: the bytes written, 0 where it did not fit, and the refusal.
#[repr(C)]
#[derive(Clone, Copy, Debug, Default, PartialEq, Eq)]
pub struct Line {
    pub len: u64,
    pub refusal: Refusal,
}

/// A result, over one denominator; all 0 where there is none.
#[repr(C)]
#[derive(Clone, Copy, Debug, Default, PartialEq, Eq)]
pub struct Estimate {
    pub numerator: i64,
    pub denominator: u64,
    pub radius: i64,
    pub degree: u64,
    pub refusal: Refusal,
}

/// What a rule tells; all 0 where it is refused, by 23 too.
#[repr(C)]
#[derive(Clone, Copy, Debug, Default, PartialEq, Eq)]
pub struct Rule {
    pub span: u64,
    pub denominator: u64,
    pub degree: u64,
    pub ceiling: u64,
    /// 1 or 0
    pub symmetric: u32,
    pub refusal: Refusal,
}

/// The verdict on two sessions: 0 none, 1 apart, 2 meet, 3 refused. The refusal is that of 3, and zeros otherwise.
#[repr(C)]
#[derive(Clone, Copy, Debug, Default, PartialEq, Eq)]
pub struct Verdict {
    pub kind: u32,
    pub refusal: Refusal,
}

/// A call of a run: 1 enter `value` at `station`, 2 strike `station`, 3 declare `tolerance`, 4 publish, any other the result.
#[repr(C)]
#[derive(Clone, Copy, Debug, Default, PartialEq, Eq)]
pub struct Call {
    pub kind: u32,
    pub station: u64,
    pub value: i64,
    pub tolerance: u64,
}

/// The calls as the archive has them; a slice is a pointer and a length.
mod linked {
    use super::{Call, Estimate, Line, Refusal, Rule, Verdict};

    #[link(name = "battenlime", kind = "static")]
    unsafe extern "C" {
        pub fn battenlime_report(order: *const u8, order_len: usize, survey: *const u8, survey_len: usize, out: *mut u8, out_len: usize) -> Line;
        pub fn battenlime_answer(input: *const u8, input_len: usize, out: *mut u8, out_len: usize) -> Line;
        pub fn battenlime_integrate(order: *const u8, order_len: usize, survey: *const u8, survey_len: usize) -> Estimate;
        pub fn battenlime_weights(order: *const u8, order_len: usize, weights: *mut i64, weights_len: usize) -> Rule;
        pub fn battenlime_replay(
            order: *const u8, order_len: usize, survey: *const u8, survey_len: usize,
            calls: *const Call, calls_len: usize, replies: *mut Estimate, replies_len: usize,
        ) -> Refusal;
        pub fn battenlime_settle(
            first_order: *const u8, first_order_len: usize, first_survey: *const u8, first_survey_len: usize,
            second_order: *const u8, second_order_len: usize, second_survey: *const u8, second_survey_len: usize,
        ) -> Verdict;
    }
}

// Sound: each pointer comes from a slice together with its length, and Rust's borrows keep what is written apart from what is read.

/// A session: writes one line into `out`, the result or the refusal.
pub fn report(order: &[u8], survey: &[u8], out: &mut [u8]) -> Line {
    unsafe { linked::battenlime_report(order.as_ptr(), order.len(), survey.as_ptr(), survey.len(), out.as_mut_ptr(), out.len()) }
}

/// The same with order and survey in one input: its first 6 bytes, and the rest.
pub fn answer(input: &[u8], out: &mut [u8]) -> Line {
    unsafe { linked::battenlime_answer(input.as_ptr(), input.len(), out.as_mut_ptr(), out.len()) }
}

/// The result of a session as numbers.
pub fn integrate(order: &[u8], survey: &[u8]) -> Estimate {
    unsafe { linked::battenlime_integrate(order.as_ptr(), order.len(), survey.as_ptr(), survey.len()) }
}

/// The rule that an order asks for; its weights for the stations 0 to its span go into `weights`, of which 1,025 are always enough.
pub fn weights(order: &[u8], weights: &mut [i64]) -> Rule {
    unsafe { linked::battenlime_weights(order.as_ptr(), order.len(), weights.as_mut_ptr(), weights.len()) }
}

/// A new run over the ordered rule, with the survey loaded, is given the calls; the reply to each goes into `replies`.
/// The return value tells why there is no run (order, layers, survey) or, after these, that `replies` is too short; nothing is
/// written then.
pub fn replay(order: &[u8], survey: &[u8], calls: &[Call], replies: &mut [Estimate]) -> Refusal {
    unsafe {
        linked::battenlime_replay(
            order.as_ptr(), order.len(), survey.as_ptr(), survey.len(),
            calls.as_ptr(), calls.len(), replies.as_mut_ptr(), replies.len(),
        )
    }
}

/// The verdict on two sessions, each an order and a survey.
pub fn settle(first: (&[u8], &[u8]), second: (&[u8], &[u8])) -> Verdict {
    unsafe {
        linked::battenlime_settle(
            first.0.as_ptr(), first.0.len(), first.1.as_ptr(), first.1.len(),
            second.0.as_ptr(), second.0.len(), second.1.as_ptr(), second.1.len(),
        )
    }
}
