//! Rounds in which the subjects take turns.

use crate::scenario::Scenario;
use crate::subjects::Subject;
use std::hint::black_box;
use tables::limits::PLACES;
use tables::Answer;

/// How long and how often to measure.
#[derive(Clone, Copy)]
pub struct Effort {
    rounds: usize,
    /// A round of one subject takes about this long, so that the clock does not matter.
    round_seconds: f64,
}

pub const THOROUGH: Effort = Effort {
    rounds: 21,
    round_seconds: 0.01,
};
/// For tables of many logs.
pub const BRIEF: Effort = Effort {
    rounds: 11,
    round_seconds: 0.004,
};

/// A subject that needs longer than this for one call gets no further rounds.
const DEAR_SECONDS: f64 = 0.5;

/// What one call took.
pub struct Times {
    /// The seconds of the quickest round, for each subject.
    pub seconds: Vec<f64>,
    /// The first subject to each: the median over the rounds, since what slows the machine in one
    /// slows both.
    pub ratios: Vec<f64>,
}

/// All subjects must give the same answer, of the kind that is expected.
pub fn measure(scenario: &Scenario, subjects: &[(&str, Subject)], effort: Effort) -> Times {
    let mut places = vec![0; PLACES];
    let mut rounds: Vec<Vec<f64>> = Vec::new();
    let mut calls = Vec::new();
    let mut first = None;
    for (name, subject) in subjects {
        let begun = processor_seconds();
        let answer = call(*subject, scenario, &mut places);
        let once = processor_seconds() - begun;
        let kind = scenario.kind as u32;
        assert_eq!(answer.kind, kind, "{}, {name}: {answer:?}", scenario.name);
        assert_eq!(answer, *first.get_or_insert(answer), "{}", scenario.name);
        calls.push((effort.round_seconds / once).ceil().clamp(1.0, 1e6) as usize);
        rounds.push(vec![once]);
    }
    for round in 0..effort.rounds {
        for (index, (_, subject)) in subjects.iter().enumerate() {
            if rounds[index][0] > DEAR_SECONDS {
                continue;
            }
            if round == 0 {
                rounds[index].clear(); // the first call met cold caches
            }
            let begun = processor_seconds();
            for _ in 0..calls[index] {
                black_box(call(*subject, scenario, &mut places));
            }
            rounds[index].push((processor_seconds() - begun) / calls[index] as f64);
        }
    }
    Times {
        ratios: rounds
            .iter()
            .map(|other| ratio(&rounds[0], other))
            .collect(),
        seconds: rounds.into_iter().map(least).collect(),
    }
}

fn ratio(ours: &[f64], theirs: &[f64]) -> f64 {
    median(ours.iter().zip(theirs).map(|(a, b)| a / b).collect())
}

#[repr(C)]
struct Time {
    seconds: i64,
    nanoseconds: i64,
}

extern "C" {
    fn clock_gettime(clock: i32, time: *mut Time) -> i32;
}

/// The processor time of this thread, which other work on the machine does not add to.
pub fn processor_seconds() -> f64 {
    const THREAD_CPU_TIME: i32 = 3;
    let mut time = Time {
        seconds: 0,
        nanoseconds: 0,
    };
    // SAFETY: the call writes one such struct
    let failed = unsafe { clock_gettime(THREAD_CPU_TIME, &mut time) };
    assert_eq!(failed, 0, "there is no such clock");
    time.seconds as f64 + time.nanoseconds as f64 * 1e-9
}

pub fn call(subject: Subject, scenario: &Scenario, places: &mut [u32]) -> Answer {
    subject(
        black_box(scenario.old.as_deref()),
        black_box(&scenario.model),
        black_box(&scenario.log),
        places,
    )
}

fn least(times: Vec<f64>) -> f64 {
    times.into_iter().fold(f64::MAX, f64::min)
}

fn median(mut ratios: Vec<f64>) -> f64 {
    ratios.sort_by(f64::total_cmp);
    ratios[ratios.len() / 2]
}
