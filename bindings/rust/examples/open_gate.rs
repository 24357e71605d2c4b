//! Three variables with two values between them cannot all be different: the gate opens for the log that shows it,
//! stays open after a change that the log survives, and stays shut for an empty log.

use dimpsyholt::{check, PLACES};

fn main() {
    let model = [3, 1, 2, 1, 2, 1, 2, 1, 2, 3, 0, 1, 2];
    let log = [
        1, 0, 3, 0, 2, 1, 1, 2, 1, 2, 2, 1, 0, // if x0, x1 and x2 are at least 1, then false
        2, 0, 0, 1, 0, // so it is false
        3, 1, // so there is no assignment
    ];
    let amended = [3, 1, 2, 1, 2, 1, 2, 1, 2, 3, 2, 1, 0];

    let mut places = vec![u32::MAX; PLACES];
    match check(&model, &log, &mut places) {
        Err(shut) => println!("shut: {shut}"),
        Ok(accepted) => {
            println!("open: {accepted}");
            let steps: Vec<u32> = places
                .iter()
                .copied()
                .take_while(|&p| p != u32::MAX)
                .collect();
            println!("  steps begin at {steps:?}");
            let again = accepted.recheck(&amended, &mut places);
            match again.verdict {
                Ok(held) => println!("open: {held}"),
                Err(shut) => println!("shut: {shut}"),
            }
            println!(
                "  rows changed: {}, steps judged: {}",
                again.changed, again.judged
            );
        }
    }
    match check(&model, &[], &mut places) {
        Ok(accepted) => println!("open: {accepted}"),
        Err(shut) => println!("shut: {shut}"),
    }
}
