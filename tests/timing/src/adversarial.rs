//! The table of the logs that are made to be dear, and the worst of them.

use crate::family::Family;
use crate::measure::{measure, Times, BRIEF, THOROUGH};
use crate::report::duration;
use crate::scenario::Scenario;
use crate::{bare, holes, subjects};

pub fn print() {
    println!("| Logs | Many | Most to fast | in | Longest | in |");
    println!("|---|---|---|---|---|---|");
    let mut worst: Option<Worst> = None;
    for family in holes::families().into_iter().chain(bare::families()) {
        let found = print_family(&family);
        worst = Some(match worst {
            Some(worst) => worst.or(found),
            None => found,
        });
    }
    let apart = print_family(&bare::cumulative());
    println!();
    if let Some(worst) = worst {
        worst.print("The worst, those on cumulative rows aside");
    }
    apart.print("The worst on cumulative rows");
}

/// All logs are measured briefly, and the two that stand out once more.
fn print_family(family: &Family) -> Worst {
    let brief: Vec<Times> = family.logs.iter().map(|log| times(log, false)).collect();
    let dearest = |cost: fn(&Times) -> f64| {
        let costs = brief.iter().map(cost).enumerate();
        let (at, _) = costs
            .max_by(|a, b| a.1.total_cmp(&b.1))
            .expect("a family has logs");
        let log = &family.logs[at];
        Finding {
            cost: cost(&times(log, true)),
            family: family.name.clone(),
            log: log.name.clone(),
        }
    };
    let worst = Worst {
        ratio: dearest(|times| times.ratios[1]),
        seconds: dearest(|times| times.seconds[0]),
    };
    println!(
        "| {} | {} | {:.2} | {} | {} | {} |",
        family.name,
        family.logs.len(),
        worst.ratio.cost,
        worst.ratio.log,
        duration(worst.seconds.cost),
        worst.seconds.log,
    );
    worst
}

fn times(log: &Scenario, thorough: bool) -> Times {
    measure(
        log,
        &subjects::QUICK,
        if thorough { THOROUGH } else { BRIEF },
    )
}

struct Finding {
    cost: f64,
    family: String,
    log: String,
}

struct Worst {
    ratio: Finding,
    seconds: Finding,
}

impl Worst {
    fn or(self, other: Worst) -> Worst {
        Worst {
            ratio: self.ratio.or(other.ratio),
            seconds: self.seconds.or(other.seconds),
        }
    }

    fn print(&self, which: &str) {
        let Worst { ratio, seconds } = self;
        println!(
            "{which}: {:.2} of fast ({}: {}) and {} ({}: {}).",
            ratio.cost,
            ratio.family,
            ratio.log,
            duration(seconds.cost),
            seconds.family,
            seconds.log,
        );
    }
}

impl Finding {
    fn or(self, other: Finding) -> Finding {
        if other.cost > self.cost {
            return other;
        }
        self
    }
}
