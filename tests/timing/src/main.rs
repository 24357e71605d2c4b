//! Times the library against the fast version and the reference, on the same tables in one run.
//!
//! Without arguments it prints every table of the performance document. `search SECONDS SEED` only
//! looks for logs that cost more. `one NAME SUBJECT CALLS` only calls, for a profiler to watch.

mod adversarial;
mod bare;
mod everyday;
mod family;
mod frames;
mod holes;
mod measure;
mod one;
mod report;
mod scenario;
mod search;
mod steps;
mod subjects;

/// What the document's table of the search was made with.
const SEARCH_SECONDS: f64 = 100.0;
const SEARCH_SEED: u64 = 1;

fn main() {
    let arguments: Vec<String> = std::env::args().skip(1).collect();
    let words: Vec<&str> = arguments.iter().map(String::as_str).collect();
    match words[..] {
        [] => {
            report::print();
            println!();
            frames::print();
            println!();
            search::run(SEARCH_SECONDS, SEARCH_SEED);
        }
        ["search", seconds, seed] => search::run(number(seconds), number(seed)),
        ["one", name, subject, calls] => one::run(name, subject, number(calls)),
        _ => panic!("no arguments, or: search SECONDS SEED, or: one NAME SUBJECT CALLS"),
    }
}

fn number<T: std::str::FromStr>(word: &str) -> T {
    let Ok(number) = word.parse() else {
        panic!("{word} is not a number");
    };
    number
}
