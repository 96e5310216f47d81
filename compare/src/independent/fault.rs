//! A refusal as a value.

use std::fmt;

/// The part of the library that a refusal comes from.
#[derive(Clone, Copy, Debug, PartialEq, Eq)]
pub enum Origin {
    Layer,
    Source,
    Run,
    Other,
    Order,
    Output,
}

impl Origin {
    pub fn name(self) -> &'static str {
        match self {
            Origin::Layer => "LAYER",
            Origin::Source => "SOURCE",
            Origin::Run => "RUN",
            Origin::Other => "OTHER",
            Origin::Order => "ORDER",
            Origin::Output => "OUTPUT",
        }
    }
}

#[derive(Clone, Copy, Debug, PartialEq, Eq)]
pub struct Fault {
    pub number: u32,
    pub origin: Origin,
    pub place: u64,
}

impl Fault {
    pub fn new(number: u32, origin: Origin, place: u64) -> Fault {
        Fault { number, origin, place }
    }
}

/// The words of a report line, without its newline.
impl fmt::Display for Fault {
    fn fmt(&self, f: &mut fmt::Formatter) -> fmt::Result {
        write!(f, "REFUSED {} {} {}", self.number, self.origin.name(), self.place)
    }
}
