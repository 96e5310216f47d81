//! A second implementation of a quadrature session, written from the documents alone, and what is needed to compare it with the
//! static library and to time both.

#[path = "../../bindings/battenlime.rs"]
#[rustfmt::skip]
pub mod battenlime;
pub mod comparison;
pub mod independent;
pub mod inputs;
pub mod interface;
pub mod plain;
pub mod planted;
pub mod tally;
