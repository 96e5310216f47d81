//! Times the static library against plain code, in one process and on the same inputs, and prints tables in Markdown.
//!
//! In each repetition the subjects take turns, so that a change in the machine's load meets all of them. Before any timing both
//! sides are checked to give the same answer.

use battenlime_compare::battenlime::{self, Call, Estimate};
use battenlime_compare::independent;
use battenlime_compare::inputs::Random;
use battenlime_compare::plain::{self, PLACES};
use std::hint::black_box;
use std::time::{Duration, Instant};

const REPETITIONS: usize = 15;
const LEAST: Duration = Duration::from_millis(5);
/// Results asked for in one replayed list.
const RESULTS: usize = 1000;
const RESULT: u32 = 5;
const SEED: u64 = 7;

fn main() {
    let rows: Vec<Row> = results().into_iter().chain(piles()).chain(sessions()).collect();
    print_times(&rows);
    print_growth(&rows);
}

fn print_times(rows: &[Row]) {
    let least = LEAST.as_millis();
    println!(
        "Median of {REPETITIONS} repetitions of {least} ms or more each, with the least and the greatest of them. A result"
    );
    println!("is timed as a list of {RESULTS} results, less an empty list, by {RESULTS}.\n");
    println!("| Subject | Span | Library | Baseline | Its time | Library / baseline |");
    println!("|---|---|---|---|---|---|");
    for row in rows {
        let Row { subject, span, library, against, baseline } = row;
        let ratio = library.median() / baseline.median();
        println!("| {subject} | {span} | {} | {against} | {} | {ratio:.2} |", library.shown(), baseline.shown());
    }
}

/// Where the growth is linear, the time for one more station stays the same.
fn print_growth(rows: &[Row]) {
    println!("\nTime in ns by station, and for each station more than in the row of the next smaller span:\n");
    println!("| Subject | Span | Library | One more | Baseline | Its time | One more |");
    println!("|---|---|---|---|---|---|---|");
    for row in rows {
        let Row { subject, span, against, .. } = row;
        let smaller = rows.iter().rfind(|r| r.subject == *subject && r.against == *against && r.span < *span);
        let shown = |time: fn(&Row) -> f64| {
            let growth = |before: &Row| (time(row) - time(before)) / (span - before.span) as f64;
            let more = smaller.map_or(String::new(), |before| format!("{:.2}", growth(before)));
            format!("{:.2} | {more}", time(row) / (span + 1) as f64)
        };
        let (library, baseline) = (shown(|row| row.library.median()), shown(|row| row.baseline.median()));
        println!("| {subject} | {span} | {library} | {against} | {baseline} |");
    }
}

struct Row {
    subject: String,
    span: usize,
    library: Times,
    against: &'static str,
    baseline: Times,
}

/// Times of one call in ns, one for each repetition, rising.
#[derive(Clone)]
struct Times(Vec<f64>);

impl Times {
    fn new(mut times: Vec<f64>) -> Times {
        times.sort_by(f64::total_cmp);
        Times(times)
    }

    fn median(&self) -> f64 {
        self.0[self.0.len() / 2]
    }

    fn shown(&self) -> String {
        let (least, most) = (self.0[0], self.0[self.0.len() - 1]);
        let (unit, name, digits) = if self.median() < 10_000.0 { (1.0, "ns", 0) } else { (1000.0, "µs", 1) };
        let digits = if self.median() < 100.0 { 1 } else { digits };
        format!("{:.digits$} {name} ({:.digits$} to {:.digits$})", self.median() / unit, least / unit, most / unit)
    }
}

/// Runs the subjects in turn and gives, for each, the time of one call in every repetition.
fn measure<const N: usize>(mut subjects: [&mut dyn FnMut(); N]) -> [Vec<f64>; N] {
    let time = |subject: &mut dyn FnMut(), calls: u32| {
        let begin = Instant::now();
        (0..calls).for_each(|_| subject());
        begin.elapsed()
    };
    let enough = |subject: &mut dyn FnMut()| {
        let mut doubled = (0..30).map(|power| 1 << power);
        doubled.find(|&calls| time(subject, calls) >= LEAST).expect("a call takes some time")
    };
    let calls = subjects.each_mut().map(|subject| enough(*subject));
    let mut times = [const { Vec::new() }; N];
    for _ in 0..REPETITIONS {
        for ((subject, calls), times) in subjects.iter_mut().zip(calls).zip(&mut times) {
            times.push(time(*subject, calls).as_nanos() as f64 / f64::from(calls));
        }
    }
    times
}

fn order(code: u8, refinements: u8, stretch: u16, panels: u16) -> [u8; 6] {
    let ([s0, s1], [p0, p1]) = (stretch.to_be_bytes(), panels.to_be_bytes());
    [code, refinements, s0, s1, p0, p1]
}

/// A survey with a reading at each station up to the span.
fn survey(span: usize) -> Vec<u8> {
    let mut random = Random(SEED);
    let mut bytes = Vec::from((span as u16 + 1).to_be_bytes());
    bytes.extend(3u32.to_be_bytes());
    bytes.extend((0..=span as u16).flat_map(|station| station.to_be_bytes()));
    bytes.extend((0..=span).flat_map(|_| (random.between(-1_048_576, 1_048_576) as i32).to_be_bytes()));
    bytes
}

fn results() -> Vec<Row> {
    let spans = [64u16, 256, 1024];
    let dense = spans.map(|span| result_row("result, Simpson in panels".into(), order(2, 0, 1, span / 2)));
    let sparse =
        spans.map(|span| result_row("result, Simpson stretched by 4, in panels".into(), order(2, 0, 4, span / 8)));
    dense.into_iter().chain(sparse).collect()
}

/// One result: the time of a list of results less that of an empty list, by their number.
fn result_row(subject: String, order: [u8; 6]) -> Row {
    let mut weights = [0; PLACES];
    let sizes = plain::pile(&order, &mut weights).expect("an accepted order");
    let span = sizes.span as usize;
    let survey = survey(span);
    let row = plain::survey(&survey).expect("an accepted survey");
    let calls = vec![Call { kind: RESULT, ..Call::default() }; RESULTS];
    let (mut replies, mut own) = (vec![Estimate::default(); RESULTS], vec![Estimate::default(); RESULTS]);
    let plain_results = |own: &mut [Estimate]| {
        for reply in own {
            let told = plain::result(black_box(&weights), black_box(span), black_box(&row));
            let (numerator, radius) = told.expect("a full survey");
            let (denominator, degree) = (sizes.denominator, sizes.degree);
            *reply = Estimate { numerator, denominator, radius, degree, ..Estimate::default() };
        }
    };
    battenlime::replay(&order, &survey, &calls, &mut replies);
    plain_results(&mut own);
    assert_eq!(replies, own);

    let times = measure([
        &mut || {
            black_box(battenlime::replay(black_box(&order), black_box(&survey), black_box(&calls), &mut replies));
        },
        &mut || {
            black_box(battenlime::replay(black_box(&order), black_box(&survey), black_box(&[]), &mut []));
        },
        &mut || plain_results(black_box(&mut own)),
    ]);
    let per_result = |time: &f64| time / RESULTS as f64;
    let library = times[0].iter().zip(&times[1]).map(|(full, empty)| per_result(&(full - empty))).collect();
    let baseline = times[2].iter().map(per_result).collect();
    Row { subject, span, library: Times::new(library), against: "plain", baseline: Times::new(baseline) }
}

fn piles() -> Vec<Row> {
    let left = [1, 4, 16].map(|panels| order(10, 5, 2, panels));
    let left = left.map(|order| pile_row("pile, left rectangle refined 5 times".into(), order));
    let trapezoid = pile_row("pile, trapezoid refined 5 times".into(), order(1, 5, 2, 5));
    left.into_iter().chain([trapezoid]).collect()
}

fn pile_row(subject: String, order: [u8; 6]) -> Row {
    let (mut weights, mut own) = ([0; PLACES], [0; PLACES]);
    let told = battenlime::weights(&order, &mut weights);
    let plain_told = plain::weights(&order, &mut own);
    assert_eq!((told.refusal.number, told.denominator), (0, plain_told.denominator));
    assert_eq!((told.degree, told.ceiling), (plain_told.degree, plain_told.ceiling));
    assert_eq!(weights, own);

    let times = measure([
        &mut || {
            black_box(battenlime::weights(black_box(&order), black_box(&mut weights)));
        },
        &mut || {
            black_box(plain::weights(black_box(&order), black_box(&mut own)));
        },
    ]);
    let [library, baseline] = times.map(Times::new);
    Row { subject, span: told.span as usize, library, against: "plain", baseline }
}

fn sessions() -> Vec<Row> {
    let simpson = [64, 256, 1024].map(|span| session_rows("session, Simpson in panels", order(2, 0, 1, span / 2)));
    let left =
        [1, 4, 16].map(|panels| session_rows("session, left rectangle refined 5 times", order(10, 5, 2, panels)));
    simpson.into_iter().chain(left).flatten().collect()
}

fn session_rows(subject: &str, order: [u8; 6]) -> [Row; 2] {
    let span = independent::pile(&order).expect("an accepted order").span();
    let survey = survey(span);
    let mut out = [[0; 84]; 3];
    let [first, second, third] = &mut out;
    let written = battenlime::report(&order, &survey, first);
    assert_eq!(written.refusal.number, 0);
    assert_eq!(independent::session(&order, &survey, second).len as u64, written.len);
    assert_eq!(plain::session(&order, &survey, third).len, written.len);
    assert!(first == second && second == third);

    let times = measure([
        &mut || {
            black_box(battenlime::report(black_box(&order), black_box(&survey), black_box(first)));
        },
        &mut || {
            black_box(independent::session(black_box(&order), black_box(&survey), black_box(second)));
        },
        &mut || {
            black_box(plain::session(black_box(&order), black_box(&survey), black_box(third)));
        },
    ]);
    let [library, independent, plain] = times.map(Times::new);
    let row = |against, baseline| Row { subject: subject.into(), span, library: library.clone(), against, baseline };
    [row("independent", independent), row("plain", plain)]
}
