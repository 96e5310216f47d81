//! Lists of calls on the run of a session.

use super::{Inputs, List, READING_LIMIT, Session, TOLERANCE_LIMIT};
use crate::interface::Call;

impl Inputs {
    pub fn list(&mut self) -> List {
        let mut draft = self.valid();
        let (kind, (order, survey)) = match self.random.below(10) {
            0..4 => ("list on a full run", draft.bytes()),
            4..8 => {
                self.lose(&mut draft);
                ("list with a reading missing", draft.bytes())
            }
            8 => {
                self.damage_survey(&mut draft);
                ("list on a damaged survey", draft.bytes())
            }
            _ => {
                self.damage_order(&mut draft);
                let mut bytes = draft.bytes();
                if self.random.chance(40) {
                    self.damage_bytes(&mut bytes);
                }
                ("list on a damaged order", bytes)
            }
        };
        let span = draft.span();
        let absent: Vec<u64> = (0..=span.min(1024)).filter(|&s| !draft.stations.contains(&(s as u16))).collect();
        // Most calls go to one station, so that they act on each other.
        let focus = match self.random.below(2) {
            0 if !absent.is_empty() => self.random.pick(&absent),
            _ => self.random.below(span + 1),
        };
        let calls = (0..self.random.below(31)).map(|_| self.call(span, focus)).collect();
        List { session: Session { kind, order, survey }, calls }
    }

    fn call(&mut self, span: u64, focus: u64) -> Call {
        let kind = match self.random.below(100) {
            0..30 => 1,
            30..50 => 2,
            50..65 => 3,
            65..71 => 4,
            71..93 => 5,
            _ => self.random.pick(&[0, 6, 7, 255, 257, 260, 1 << 16 | 1, 1 << 31, u32::MAX]),
        };
        Call {
            kind,
            station: self.station(span, focus),
            value: self.value(),
            tolerance: match self.random.below(3) {
                0 => self.random.below(10),
                1 => self.random.below(1 + u64::from(TOLERANCE_LIMIT)),
                _ => self.random.pick(&[1 << 20, (1 << 20) + 1, 1 << 32, (1 << 32) + 1, 1 << 63, u64::MAX]),
            },
        }
    }

    fn station(&mut self, span: u64, focus: u64) -> u64 {
        match self.random.below(10) {
            0..5 => focus,
            5..8 => self.random.below(span + 1),
            _ => {
                let near = [0, span, span + 1, 1024, 1025, 1 << 32, (1 << 32) + focus, u64::MAX - 1, u64::MAX];
                self.random.pick(&near)
            }
        }
    }

    fn value(&mut self) -> i64 {
        let limit = i64::from(READING_LIMIT);
        match self.random.below(3) {
            0 => self.random.between(-9, 9),
            1 => self.random.between(-limit, limit),
            _ => {
                let near = [limit, -limit, limit + 1, -limit - 1, 1 << 32, -(1 << 32), i64::MIN, i64::MAX];
                self.random.pick(&near)
            }
        }
    }
}
