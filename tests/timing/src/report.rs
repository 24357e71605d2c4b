//! The tables of the performance document, as they stand there.

use crate::measure::{measure, THOROUGH};
use crate::{adversarial, everyday, steps, subjects};

pub fn print() {
    println!("The library is {}.\n", held::LIBRARY);
    print_everyday();
    println!();
    steps::print_cost_of_a_step(&subjects::ALL);
    println!();
    adversarial::print();
}

fn print_everyday() {
    println!("| Case | Log words | Steps | Library | Fast | Reference | Library to fast | Library to reference |");
    println!("|---|---|---|---|---|---|---|---|");
    for scenario in everyday::all() {
        let times = measure(&scenario, &subjects::ALL, THOROUGH);
        println!(
            "| {} | {} | {} | {} | {} | {} | {:.2} | {} |",
            scenario.name,
            scenario.log.len(),
            scenario.steps,
            duration(times.seconds[0]),
            duration(times.seconds[1]),
            duration(times.seconds[2]),
            times.ratios[1],
            small(times.seconds[0] / times.seconds[2]),
        );
    }
}

fn small(ratio: f64) -> String {
    if ratio < 0.001 {
        return "below 0.001".to_string();
    }
    format!("{ratio:.3}")
}

pub fn duration(seconds: f64) -> String {
    match seconds {
        s if s < 1e-3 => format!("{:.1} us", s * 1e6),
        s if s < 1.0 => format!("{:.2} ms", s * 1e3),
        s => format!("{s:.2} s"),
    }
}
