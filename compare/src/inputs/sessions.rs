//! Sessions: those that have a result, and those that a check refuses.

use super::{Draft, Inputs, LAST_STATION, READING_LIMIT, Session, TOLERANCE_LIMIT};

impl Inputs {
    pub fn session(&mut self) -> Session {
        let made = |kind, (order, survey)| Session { kind, order, survey };
        let mut draft = self.valid();
        match self.random.below(100) {
            0..40 => made("valid", draft.bytes()),
            40..52 => {
                self.lose(&mut draft);
                made("missing reading", draft.bytes())
            }
            52..60 => {
                self.damage_order(&mut draft);
                made("order damaged", draft.bytes())
            }
            60..67 => {
                self.near_limit(&mut draft);
                made("pile near a limit", draft.bytes())
            }
            67..79 => {
                self.damage_survey(&mut draft);
                made("survey damaged", draft.bytes())
            }
            79..86 => {
                let mut bytes = draft.bytes();
                self.damage_bytes(&mut bytes);
                made("bytes damaged", bytes)
            }
            86..96 => made("several faults", self.several_faults(draft)),
            _ => made("random bytes", self.noise()),
        }
    }

    /// A session that has a result.
    pub(super) fn valid(&mut self) -> Draft {
        let base = self.random.pick(&self.bases);
        let most = base.most();
        let product = match self.random.below(8) {
            0..5 => 1 + self.random.below(most.min(8)),
            5..7 => 1 + self.random.below(most),
            _ => most,
        };
        let one = 1 + self.random.below(product);
        let other = product / one;
        let (stretch, panels) = if self.random.chance(50) { (one, other) } else { (other, one) };
        let mut draft = Draft {
            code: base.code,
            refinements: base.refinements,
            stretch: stretch as u16,
            panels: panels as u16,
            count: None,
            tolerance: self.tolerance(),
            stations: Vec::new(),
            readings: Vec::new(),
        };
        self.fill(&mut draft);
        draft
    }

    pub(super) fn tolerance(&mut self) -> u32 {
        match self.random.below(5) {
            0 => 0,
            1 => self.random.below(4) as u32,
            2 => TOLERANCE_LIMIT - self.random.below(2) as u32,
            _ => self.random.below(1 + u64::from(TOLERANCE_LIMIT)) as u32,
        }
    }

    /// Stations: all, those of nonzero weight, or with some of weight zero and some beyond the span.
    pub(super) fn fill(&mut self, draft: &mut Draft) {
        let weights = draft.weights();
        let (unneeded, beyond) = self.random.pick(&[(100, 0), (100, 2), (0, 0), (20, 20), (50, 2), (100, 100)]);
        let random = &mut self.random;
        let mut keep = |station: u16| match weights.get(usize::from(station)) {
            Some(0) => random.chance(unneeded),
            Some(_) => true,
            None => random.chance(beyond),
        };
        draft.stations = (0..=LAST_STATION).filter(|&s| keep(s)).collect();
        if draft.stations.is_empty() {
            draft.stations.push(0);
        }
        draft.readings = self.readings(&weights, &draft.stations);
    }

    fn readings(&mut self, weights: &[i128], stations: &[u16]) -> Vec<i32> {
        let limit = i64::from(READING_LIMIT);
        let style = self.random.below(8);
        let (level, slope) = (self.random.between(-limit, limit), self.random.between(-1000, 1000));
        let sign = |station: u16| weights.get(usize::from(station)).map_or(1, |w| if *w < 0 { -1 } else { 1 });
        let random = &mut self.random;
        let mut reading = |station: u16| match style {
            0 => random.between(-9, 9),
            1 => limit * sign(station),
            2 => -limit * sign(station),
            3 => random.pick(&[limit, -limit, limit - 1, 1 - limit, 0]),
            4 => level,
            5 => (level + slope * i64::from(station)).clamp(-limit, limit),
            _ => random.between(-limit, limit),
        };
        stations.iter().map(|&s| reading(s) as i32).collect()
    }

    /// Takes out one reading or a few. One at a station of weight zero is not missed.
    pub(super) fn lose(&mut self, draft: &mut Draft) {
        let weights = draft.weights();
        let weight = |station: u16| weights.get(usize::from(station)).copied().unwrap_or(0);
        let (needed, spare): (Vec<usize>, Vec<usize>) =
            (0..draft.stations.len()).partition(|&i| weight(draft.stations[i]) != 0);
        if draft.stations.len() < 2 || needed.is_empty() {
            return;
        }
        let index = match self.random.below(5) {
            0 => needed[0],
            1 => needed[needed.len() / 2],
            2 => needed[needed.len() - 1],
            3 if !spare.is_empty() => self.random.pick(&spare),
            _ => self.random.pick(&needed),
        };
        draft.remove(index);
        while draft.stations.len() > 1 && self.random.chance(30) {
            let index = self.random.index(draft.stations.len());
            draft.remove(index);
        }
    }

    pub(super) fn damage_order(&mut self, draft: &mut Draft) {
        const COUNTS: [u16; 5] = [0, 1, 1024, 1025, 65535];
        match self.random.below(6) {
            0 => draft.code = self.random.pick(&[0, 11, 12, 255]),
            1 => draft.refinements = self.random.pick(&[5, 6, 7, 255]),
            2 => draft.stretch = self.random.pick(&COUNTS),
            3 => draft.panels = self.random.pick(&COUNTS),
            4 => (draft.stretch, draft.panels) = (self.random.pick(&COUNTS), self.random.pick(&COUNTS)),
            _ => {
                draft.code = self.random.below(13) as u8;
                draft.refinements = self.random.below(8) as u8;
            }
        }
    }

    /// A pile whose span or ceiling is at its limit or a step beyond, or a rule refined too often.
    fn near_limit(&mut self, draft: &mut Draft) {
        if self.random.chance(40) {
            (draft.code, draft.refinements) = (1 + self.random.below(10) as u8, self.random.below(6) as u8);
            return;
        }
        let base = self.random.pick(&self.bases);
        (draft.code, draft.refinements) = (base.code, base.refinements);
        let product = base.most() + self.random.below(2);
        (draft.stretch, draft.panels) = self.factors(product);
        if draft.span() <= u64::from(LAST_STATION) && self.random.chance(70) {
            self.fill(draft);
        }
    }

    pub(super) fn damage_survey(&mut self, draft: &mut Draft) {
        match self.random.below(8) {
            0 => draft.count = Some(self.random.pick(&[0, 1, 1025, 1026, 65535])),
            1 => self.lengthen(draft),
            2 => draft.tolerance = self.random.pick(&[TOLERANCE_LIMIT + 1, 1 << 31, u32::MAX]),
            3 | 4 => self.misplace_station(draft),
            _ => {
                let index = self.random.index(draft.readings.len());
                let beyond = [READING_LIMIT + 1, -READING_LIMIT - 1, i32::MIN, i32::MAX];
                draft.readings[index] = self.random.pick(&beyond);
            }
        }
    }

    /// So many readings that the count is at its limit or one beyond, the length agreeing with it.
    fn lengthen(&mut self, draft: &mut Draft) {
        let count = self.random.pick(&[1025, 1026]);
        draft.stations = (0..count).collect();
        draft.readings.resize(usize::from(count), 5);
    }

    fn misplace_station(&mut self, draft: &mut Draft) {
        let last = draft.stations.len() - 1;
        let index = self.random.index(last + 1);
        match self.random.below(5) {
            0 => draft.stations[index] = self.random.pick(&[1025, 1026, 65535]),
            1 => draft.stations[last] = self.random.pick(&[1025, 65535]),
            2 => draft.stations.swap(index, last),
            3 => draft.stations[index] = draft.stations[index.saturating_sub(1)],
            _ => draft.stations[index] = 0,
        }
    }

    /// Cuts, lengthens or flips bytes of the order or of the survey.
    pub(super) fn damage_bytes(&mut self, (order, survey): &mut (Vec<u8>, Vec<u8>)) {
        match self.random.below(5) {
            0 => {
                let len = self.random.index(9);
                order.resize(len, 1);
            }
            1 => {
                let len = self.random.index(survey.len() + 1);
                survey.truncate(len);
            }
            2 => {
                let more = 1 + self.random.index(8);
                survey.extend(self.random.bytes(more));
            }
            3 => survey.truncate(survey.len() - 1),
            _ => {
                for _ in 0..1 + self.random.below(3) {
                    let bytes = if self.random.chance(30) { &mut *order } else { &mut *survey };
                    if !bytes.is_empty() {
                        let index = self.random.index(bytes.len());
                        bytes[index] ^= 1 << self.random.below(8);
                    }
                }
            }
        }
    }

    /// At least two faults, so that the order of the checks decides which is told.
    fn several_faults(&mut self, mut draft: Draft) -> (Vec<u8>, Vec<u8>) {
        match self.random.below(5) {
            0 => {
                // A bad station at the end against a bad reading at the start.
                let last = draft.stations.len() - 1;
                draft.stations[last] = self.random.pick(&[1025, 65535]);
                draft.readings[0] = i32::MIN;
            }
            1 => {
                self.damage_order(&mut draft);
                self.damage_survey(&mut draft);
            }
            2 => {
                self.lose(&mut draft);
                self.damage_survey(&mut draft);
            }
            3 => {
                self.near_limit(&mut draft);
                self.lose(&mut draft);
                self.damage_survey(&mut draft);
            }
            _ => {
                for _ in 0..2 + self.random.below(3) {
                    self.damage_survey(&mut draft);
                }
            }
        }
        let mut bytes = draft.bytes();
        if self.random.chance(20) {
            self.damage_bytes(&mut bytes);
        }
        bytes
    }

    /// Bytes that nothing has shaped, or little: a fair order, a fair head of a survey.
    fn noise(&mut self) -> (Vec<u8>, Vec<u8>) {
        let len = match self.random.below(4) {
            0 => self.random.index(7001),
            1 => 0,
            _ => self.random.index(60),
        };
        let order_len = if self.random.chance(60) { 6 } else { self.random.index(9) };
        let order = if self.random.chance(50) { self.valid().order() } else { self.random.bytes(order_len) };
        let mut survey = self.random.bytes(len);
        if len >= 6 && self.random.chance(50) {
            let count = ((len - 6) / 6) as u16;
            survey[..2].copy_from_slice(&count.to_be_bytes());
            survey[2] = 0;
            survey[3] = 0;
            survey.truncate(6 + 6 * usize::from(count));
        }
        (order, survey)
    }
}
