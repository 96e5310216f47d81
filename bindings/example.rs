//! A beam load integrated from Rust: the report of a session, its numbers, the weights behind it, a reading corrected, and two
//! differing integrals settled.

#[allow(dead_code)]
mod battenlime;

use battenlime::{Call, Estimate};

/// Trapezoid, refined once, stretch 1, 2 panels.
const ORDER: [u8; 6] = [1, 1, 0, 1, 0, 2];

/// Trapezoid in 2 panels, and Simpson's rule.
const TRAPEZOIDS: [u8; 6] = [1, 0, 0, 1, 0, 2];
const SIMPSON: [u8; 6] = [2, 0, 0, 1, 0, 1];

/// The bytes of a survey of readings at the stations 0, 1, 2 and so on.
fn survey(tolerance: u32, readings: &[i32]) -> Vec<u8> {
    let mut bytes = (readings.len() as u16).to_be_bytes().to_vec();
    bytes.extend(tolerance.to_be_bytes());
    bytes.extend((0..readings.len() as u16).flat_map(u16::to_be_bytes));
    bytes.extend(readings.iter().copied().flat_map(i32::to_be_bytes));
    bytes
}

fn print_reply(what: &str, reply: Estimate) {
    let Estimate { numerator, denominator, radius, degree, refusal } = reply;
    if refusal.number != 0 {
        println!("{what}: refused by {} at {}", refusal.number, refusal.place);
    } else if denominator == 0 {
        println!("{what}: done");
    } else {
        println!("{what}: {numerator}/{denominator} +- {radius}/{denominator}, degree {degree}");
    }
}

fn main() {
    let cube = survey(1, &[0, 1, 8, 27, 64]);
    let mut line = [0; 96]; // every line fits
    let written = battenlime::report(&ORDER, &cube, &mut line);
    print!("report: {}", String::from_utf8_lossy(&line[..written.len as usize]));

    print_reply("integral", battenlime::integrate(&ORDER, &cube));

    let mut weights = [0; 1025];
    let rule = battenlime::weights(&ORDER, &mut weights);
    let listed: Vec<String> = weights[..=rule.span as usize].iter().map(i64::to_string).collect();
    println!("weights: {} over {}", listed.join(" "), rule.denominator);

    let calls = [
        Call { kind: 2, station: 3, ..Call::default() },
        Call { kind: 5, ..Call::default() },
        Call { kind: 1, station: 3, value: 26, ..Call::default() },
        Call { kind: 5, ..Call::default() },
    ];
    let mut replies = [Estimate::default(); 4];
    let refusal = battenlime::replay(&ORDER, &cube, &calls, &mut replies);
    if refusal.number == 0 {
        for (what, reply) in ["strike 3", "result", "enter 26 at 3", "result"].into_iter().zip(replies) {
            print_reply(what, reply);
        }
    }

    let square = survey(0, &[0, 1, 4]);
    let verdict = battenlime::settle((&TRAPEZOIDS, &square), (&SIMPSON, &square));
    println!("6/2 and 8/3: {}", if verdict.kind == 1 { "apart" } else { "not apart" });
}
