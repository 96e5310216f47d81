//! The independent implementation: plain code with wide integers, to be read beside the documents.
//!
//! | File | Document |
//! |---|---|
//! | `fault.rs` | `refusals.md` |
//! | `rules.rs` | `rules-and-layers.md` |
//! | `formats.rs` | `sources-and-formats.md`: order and survey |
//! | `run.rs` | `runs-and-verdict.md` |
//! | `session.rs` | `sources-and-formats.md`: session and report line |

mod fault;
mod formats;
mod rules;
mod run;
mod session;

pub use fault::{Fault, Origin};
pub use formats::{Order, READING_LIMIT, Survey, TOLERANCE_LIMIT};
pub use rules::{LAST_STATION, Layer, Rule, built_in};
pub use run::{Call, Estimate, Run, Verdict};
pub use session::{Written, answer, estimate, line, pile, replay, session, settle, weights};
