//! The ten built-in rules, and the layers that an order lays on them.

use super::fault::{Fault, Origin};
use std::iter::once;
use std::sync::OnceLock;

pub const LAST_STATION: i128 = 1024;
const DEGREE_LIMIT: u32 = 11;
const CEILING_LIMIT: i128 = 1 << 40;
const DENOMINATOR_LIMIT: i128 = 1 << 31;

#[derive(Clone, Debug, PartialEq, Eq)]
pub struct Rule {
    /// One for each station from 0 to the span.
    pub weights: Vec<i128>,
    pub denominator: i128,
    pub degree: u32,
    pub symmetric: bool,
    pub ceiling: i128,
}

#[derive(Clone, Copy, Debug, PartialEq, Eq)]
pub enum Layer {
    Refinement,
    Stretch(u16),
    Panels(u16),
}

impl Rule {
    /// A built-in rule: degree, symmetry and ceiling all follow from its weights.
    fn of_weights(weights: Vec<i128>, denominator: i128) -> Rule {
        let exact = |power: &u32| is_exact(&weights, denominator, *power);
        let degree = (0..).take_while(exact).last().expect("a rule is exact for constants");
        let symmetric = weights.iter().eq(weights.iter().rev());
        let ceiling = weights.iter().map(|w| w.abs()).sum();
        Rule { weights, denominator, degree, symmetric, ceiling }
    }

    pub fn span(&self) -> usize {
        self.weights.len() - 1
    }

    /// The rule with one more layer on it, which has the given place in its list.
    pub fn laid(&self, layer: Layer, place: u64) -> Result<Rule, Fault> {
        let factor = 2i128.pow(self.degree + 1);
        let span = self.span() as i128;
        let (span, denominator, degree, ceiling) = match layer {
            Layer::Refinement => {
                let gain = if self.symmetric { 2 } else { 1 };
                (2 * span, self.denominator * (factor - 1), self.degree + gain, (2 * factor + 2) * self.ceiling)
            }
            Layer::Stretch(count) | Layer::Panels(count) => {
                let count = i128::from(count);
                (count * span, self.denominator, self.degree, count * self.ceiling)
            }
        };
        let checks = [
            (6, matches!(layer, Layer::Stretch(0) | Layer::Panels(0))),
            (7, span > LAST_STATION),
            (8, degree > DEGREE_LIMIT),
            (9, ceiling > CEILING_LIMIT || denominator > DENOMINATOR_LIMIT),
        ];
        if let Some((number, _)) = checks.into_iter().find(|&(_, fails)| fails) {
            return Err(Fault::new(number, Origin::Layer, place));
        }
        // Only now: a refused layer could have millions of stations.
        let weights = match layer {
            Layer::Refinement => self.refined_weights(factor),
            Layer::Stretch(count) => self.stretched_weights(count.into()),
            Layer::Panels(count) => self.panel_weights(count.into()),
        };
        Ok(Rule { weights, denominator, degree, symmetric: self.symmetric, ceiling })
    }

    fn refined_weights(&self, factor: i128) -> Vec<i128> {
        let span = self.span();
        let weight = |station: Option<usize>| station.and_then(|s| self.weights.get(s)).copied().unwrap_or(0);
        let at = |s: usize| {
            let two_panels = factor * (weight(Some(s)) + weight(s.checked_sub(span)));
            let stretched = if s.is_multiple_of(2) { 2 * weight(Some(s / 2)) } else { 0 };
            two_panels - stretched
        };
        (0..=2 * span).map(at).collect()
    }

    fn stretched_weights(&self, count: usize) -> Vec<i128> {
        let mut weights = vec![0; count * self.span() + 1];
        for (s, w) in self.weights.iter().enumerate() {
            weights[count * s] = count as i128 * w;
        }
        weights
    }

    fn panel_weights(&self, count: usize) -> Vec<i128> {
        let mut weights = vec![0; count * self.span() + 1];
        for panel in 0..count {
            for (s, w) in self.weights.iter().enumerate() {
                weights[panel * self.span() + s] += w;
            }
        }
        weights
    }
}

/// The rule of a code, if there is one.
pub fn built_in(code: u8) -> Option<&'static Rule> {
    static RULES: OnceLock<Vec<Rule>> = OnceLock::new();
    let rules = RULES.get_or_init(|| {
        let midpoint = Rule::of_weights(vec![0, 2, 0], 1);
        let left_rectangle = Rule::of_weights(vec![1, 0], 1);
        (1..=8).map(newton_cotes).chain([midpoint, left_rectangle]).collect()
    });
    rules.get(usize::from(code).checked_sub(1)?)
}

fn is_exact(weights: &[i128], denominator: i128, power: u32) -> bool {
    let span = weights.len() as i128 - 1;
    let moment: i128 = weights.iter().zip(0i128..).map(|(w, s)| w * s.pow(power)).sum();
    i128::from(power + 1) * moment == denominator * span.pow(power + 1)
}

/// The closed Newton-Cotes rule of a span: the integrals of the Lagrange polynomials over their least common denominator.
fn newton_cotes(span: i128) -> Rule {
    let integrals: Vec<Fraction> = (0..=span).map(|station| lagrange_integral(span, station)).collect();
    let denominator = integrals.iter().fold(1, |d, f| d / gcd(d, f.denominator) * f.denominator);
    let weights = integrals.iter().map(|f| f.numerator * (denominator / f.denominator)).collect();
    Rule::of_weights(weights, denominator)
}

/// The integral, from 0 to the span, of the polynomial that is 1 at one station and 0 at the others.
fn lagrange_integral(span: i128, station: i128) -> Fraction {
    let others = || (0..=span).filter(|&s| s != station);
    // The product of all x - s, lowest power first.
    let product = others().fold(vec![1], |product: Vec<i128>, root| {
        let times_x = once(0).chain(product.iter().copied());
        let times_root = product.iter().map(|c| c * root).chain(once(0));
        times_x.zip(times_root).map(|(a, b)| a - b).collect()
    });
    let scale: i128 = others().map(|s| station - s).product();
    product.iter().zip(1u32..).fold(Fraction::new(0, 1), |sum, (coefficient, power)| {
        sum.plus(Fraction::new(coefficient * span.pow(power), i128::from(power) * scale))
    })
}

/// A fraction in lowest terms, its denominator positive.
#[derive(Clone, Copy)]
struct Fraction {
    numerator: i128,
    denominator: i128,
}

impl Fraction {
    fn new(numerator: i128, denominator: i128) -> Fraction {
        let divisor = gcd(numerator, denominator) * denominator.signum();
        Fraction { numerator: numerator / divisor, denominator: denominator / divisor }
    }

    fn plus(self, other: Fraction) -> Fraction {
        let numerator = self.numerator * other.denominator + other.numerator * self.denominator;
        Fraction::new(numerator, self.denominator * other.denominator)
    }
}

fn gcd(a: i128, b: i128) -> i128 {
    if b == 0 { a.abs() } else { gcd(b, a % b) }
}

#[cfg(test)]
mod tests {
    use super::*;

    /// The documents' table: weights, denominator, degree, ceiling, and whether symmetric.
    #[test]
    fn built_in_rules_are_those_of_the_table() {
        let table: [(&[i128], i128, u32, i128, bool); 10] = [
            (&[1, 1], 2, 1, 2, true),
            (&[1, 4, 1], 3, 3, 6, true),
            (&[3, 9, 9, 3], 8, 3, 24, true),
            (&[14, 64, 24, 64, 14], 45, 5, 180, true),
            (&[95, 375, 250, 250, 375, 95], 288, 5, 1440, true),
            (&[41, 216, 27, 272, 27, 216, 41], 140, 7, 840, true),
            (&[5257, 25039, 9261, 20923, 20923, 9261, 25039, 5257], 17280, 7, 120_960, true),
            (&[3956, 23552, -3712, 41984, -18160, 41984, -3712, 23552, 3956], 14175, 9, 164_568, true),
            (&[0, 2, 0], 1, 1, 2, true),
            (&[1, 0], 1, 0, 1, false),
        ];
        for (code, &(weights, denominator, degree, ceiling, symmetric)) in (1..).zip(&table) {
            let expected = Rule { weights: weights.to_vec(), denominator, degree, symmetric, ceiling };
            assert_eq!(built_in(code), Some(&expected), "code {code}");
        }
        assert!([0, 11, 255].into_iter().all(|code| built_in(code).is_none()));
    }

    fn piled(code: u8, layers: &[Layer]) -> Result<Rule, Fault> {
        let bottom = built_in(code).expect("a code of the table").clone();
        layers.iter().zip(1..).try_fold(bottom, |rule, (&layer, place)| rule.laid(layer, place))
    }

    #[test]
    fn worked_figures() {
        use Layer::{Panels, Refinement};
        let figure = |code, layers: &[Layer]| {
            let rule = piled(code, layers).expect("accepted");
            (rule.weights, rule.denominator, rule.degree, rule.ceiling, rule.symmetric)
        };
        assert_eq!(figure(1, &[Refinement]), (vec![2, 8, 2], 6, 3, 20, true));
        assert_eq!(figure(1, &[Refinement, Refinement]), (vec![28, 128, 48, 128, 28], 90, 5, 680, true));
        assert_eq!(figure(9, &[Refinement]), (vec![0, 8, -4, 8, 0], 3, 3, 20, true));
        assert_eq!(figure(10, &[Refinement]), (vec![0, 2, 0], 1, 1, 6, false));
        assert_eq!(figure(10, &[Panels(3)]), (vec![1, 1, 1, 0], 1, 0, 3, false));
        assert_eq!(figure(1, &[Refinement, Panels(2)]), (vec![2, 8, 4, 8, 2], 6, 3, 40, true));
    }

    #[test]
    fn sizes_near_the_limits() {
        use Layer::{Panels, Refinement};
        let sizes = |rule: &Rule| (rule.span(), rule.degree, rule.ceiling, rule.denominator);
        let refused = |number, place| Some(Fault::new(number, Origin::Layer, place));
        let five = piled(1, &[Refinement; 5]).expect("accepted");
        assert_eq!(sizes(&five), (32, 11, 93_147_080_000, 1_479_104_550));
        assert_eq!(five.laid(Panels(11), 6).map(|rule| rule.ceiling), Ok(1_024_617_880_000));
        assert_eq!(five.laid(Panels(12), 6).err(), refused(9, 6));
        assert_eq!(five.laid(Refinement, 6).err(), refused(8, 6));
        let seven = piled(7, &[Refinement]).expect("accepted");
        assert_eq!(sizes(&seven), (14, 9, 62_173_440, 4_406_400));
        assert_eq!(seven.laid(Refinement, 2).err(), refused(9, 2));
        let eight = piled(8, &[Refinement]).expect("accepted");
        assert_eq!(sizes(&eight), (16, 11, 337_364_400, 14_501_025));
    }

    /// Every pile of refinements, stretch and panels is exact up to its degree, and mirrored where it is told symmetric.
    #[test]
    fn accepted_piles_are_exact() {
        for code in 1..=10 {
            // Higher piles have moments beyond 128 bits.
            for refinements in 0..=2 {
                let mut layers = vec![Layer::Refinement; refinements];
                layers.extend([Layer::Stretch(3), Layer::Panels(2)]);
                let Ok(rule) = piled(code, &layers) else { continue };
                assert!((0..=rule.degree).all(|power| is_exact(&rule.weights, rule.denominator, power)));
                assert!(rule.weights.iter().map(|w| w.abs()).sum::<i128>() <= rule.ceiling);
                assert!(!rule.symmetric || rule.weights.iter().eq(rule.weights.iter().rev()));
            }
        }
    }
}
