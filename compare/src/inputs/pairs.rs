//! Pairs of sessions for a verdict.

use super::{Base, Draft, Inputs, Pair, READING_LIMIT};

impl Inputs {
    pub fn pair(&mut self) -> Pair {
        let mut first = self.valid();
        let mut second = first.clone();
        let kind = match self.random.below(10) {
            0 => "pair, equal bands",
            1 | 2 => self.touching(&mut first, &mut second),
            3 => self.one_reading_apart(&mut first, &mut second),
            4 => {
                second = self.alike(&first);
                second.tolerance = self.tolerance();
                "pair, one span"
            }
            5 => self.one_line(&mut first, &mut second),
            6 | 7 => {
                second = if self.random.chance(80) { self.alike(&first) } else { self.valid() };
                self.lose_of_pair(&mut first, &mut second)
            }
            8 => {
                second = self.valid();
                "pair, any two"
            }
            _ => {
                second = self.valid();
                self.damage_pair(&mut first, &mut second)
            }
        };
        if self.random.chance(50) {
            std::mem::swap(&mut first, &mut second);
        }
        Pair { kind, first: first.bytes(), second: second.bytes() }
    }

    /// Another pile over the same span, with readings of its own.
    fn alike(&mut self, draft: &Draft) -> Draft {
        let span = draft.span();
        let fits = |base: &&Base| span.is_multiple_of(base.span) && span / base.span <= base.most();
        let bases: Vec<Base> = self.bases.iter().filter(fits).copied().collect();
        let base = self.random.pick(&bases);
        let product = span / base.span;
        let mut other = draft.clone();
        (other.code, other.refinements) = (base.code, base.refinements);
        (other.stretch, other.panels) = self.factors(product);
        self.fill(&mut other);
        other
    }

    /// Flat readings as far from each other as the tolerances sum to, or one off. Bands of rules without a negative weight then
    /// share one end, or barely miss or overlap each other.
    fn touching(&mut self, first: &mut Draft, second: &mut Draft) -> &'static str {
        let same_rule = self.random.chance(40);
        *second = if same_rule { first.clone() } else { self.alike(first) };
        let widest = if self.random.chance(50) { 10 } else { 500_000 };
        first.tolerance = self.random.below(widest) as u32;
        second.tolerance = self.random.below(widest) as u32;
        let gap = (first.tolerance + second.tolerance) as i32;
        let level = self.random.between(-i64::from(READING_LIMIT), i64::from(READING_LIMIT - gap - 1)) as i32;
        let raised = (level + gap + self.random.between(-1, 1) as i32).clamp(-READING_LIMIT, READING_LIMIT);
        first.readings.fill(level);
        second.readings.fill(raised);
        "pair, touching bands"
    }

    /// No tolerance, or a small one, and one reading changed by one.
    fn one_reading_apart(&mut self, first: &mut Draft, second: &mut Draft) -> &'static str {
        first.tolerance = self.random.below(2) as u32;
        second.tolerance = 0;
        let index = self.random.index(second.readings.len());
        let step = if second.readings[index] > 0 { -1 } else { 1 };
        second.readings[index] += step;
        "pair, one reading apart"
    }

    /// Two rules over readings of one line, which a rule of degree 1 or more integrates exactly: equal fractions over different
    /// denominators. Often one reading is then moved by one, so that they differ by very little.
    fn one_line(&mut self, first: &mut Draft, second: &mut Draft) -> &'static str {
        *second = self.alike(first);
        let (level, slope) = (self.random.between(-20_000, 20_000) as i32, self.random.between(-900, 900) as i32);
        for draft in [first, &mut *second] {
            draft.tolerance = u32::from(self.random.chance(20));
            draft.readings = draft.stations.iter().map(|&s| level + slope * i32::from(s)).collect();
        }
        if self.random.chance(60) {
            let index = self.random.index(second.readings.len());
            second.readings[index] += self.random.pick(&[1, -1]);
        }
        "pair, readings of one line"
    }

    fn lose_of_pair(&mut self, first: &mut Draft, second: &mut Draft) -> &'static str {
        let which = self.random.below(3);
        if which != 0 {
            self.lose(first);
        }
        if which != 1 {
            self.lose(second);
        }
        "pair, readings missing"
    }

    fn damage_pair(&mut self, first: &mut Draft, second: &mut Draft) -> &'static str {
        let which = self.random.below(3);
        if which != 0 {
            self.damage_order(first);
        }
        if which != 1 {
            self.damage_survey(second);
        }
        "pair, damaged"
    }
}
