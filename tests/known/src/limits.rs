//! Every limit and one past it.

use crate::{case, never_below, no_assignment, Known};
use tables::limits::{LOG_WORDS, MODEL_WORDS, PLACES, VALUE};
use tables::{
    at_least, at_most, log_words, model_words, not_equal, write_log, write_model, Answer, Fact,
    Model, Row, Step,
};

pub fn limits() -> Vec<Known> {
    let parts = [
        past_model_ranges(),
        past_log_ranges(),
        cut_models(),
        cut_logs(),
        table_lengths(),
        full_tables(),
        extreme_words(),
    ];
    parts.concat()
}

/// A model with each kind of row.
fn model() -> Model {
    Model {
        bounds: vec![(0, 1), (0, 1), (0, 1), (0, 2)],
        rows: vec![
            Row::all_different(&[0, 1, 2]),
            Row::linear(-1, &[(-1, 0), (-1, 3)]),
            Row::cumulative(2, &[(0, 1, 1), (3, 2, 2)]),
            Row::circuit(&[0, 1]),
        ],
    }
}

/// A log with each kind of step but the other conclusion; it is accepted.
fn log(conclusion: Step) -> Vec<Step> {
    let crowd = [at_least(0, 0), at_most(1, 1), at_least(2, 0)];
    vec![
        Step::Inference {
            row: 0,
            fact: Fact::new(&crowd, None),
        },
        Step::Inference {
            row: 1,
            fact: Fact::new(&[at_most(0, 0)], Some(at_least(3, 1))),
        },
        Step::Deduction {
            fact: Fact::new(&[], Some(at_least(3, 1))),
            hints: vec![0, 1],
        },
        Step::Deduction {
            fact: Fact::new(&[], None),
            hints: vec![0],
        },
        conclusion,
    ]
}

fn conclusions() -> [(Step, Answer); 2] {
    let bound = Step::NeverBelow {
        variable: 3,
        value: 1,
        cited: 2,
    };
    [
        (Step::NoAssignment { cited: 3 }, no_assignment()),
        (bound, never_below(3, 1)),
    ]
}

/// The first words of the steps.
fn starts(steps: &[Step]) -> Vec<u32> {
    let lengths = (0..steps.len()).map(|count| log_words(&steps[..count]).len());
    lengths.map(|start| start as u32).collect()
}

/// The word one below and one above its range, where there is such a word.
fn past(range: (i32, i32)) -> impl Iterator<Item = i32> {
    let below = range.0.checked_sub(1);
    let above = range.1.checked_add(1);
    below.into_iter().chain(above)
}

fn past_model_ranges() -> Vec<Known> {
    let written = write_model(&model());
    let mut cases = Vec::new();
    for (position, &range) in written.ranges.iter().enumerate() {
        for word in past(range) {
            let mut words = written.words.clone();
            words[position] = word;
            let name = format!("model word {position} is {word}");
            let answer = Answer::refused(5, 0, position);
            cases.push(case(&name, &words, &[], answer, &[]));
        }
    }
    cases
}

fn past_log_ranges() -> Vec<Known> {
    let mut cases = Vec::new();
    for (conclusion, _) in conclusions() {
        let steps = log(conclusion);
        let written = write_log(&steps, 4, 4);
        let starts = starts(&steps);
        for (position, &range) in written.ranges.iter().enumerate() {
            let step = starts.iter().filter(|&&s| s as usize <= position).count() - 1;
            for word in past(range) {
                let mut words = written.words.clone();
                words[position] = word;
                let name = format!("log word {position} is {word}");
                let answer = Answer::refused(12, step, position);
                let model = model_words(&model());
                cases.push(case(&name, &model, &words, answer, &starts[..step]));
            }
        }
    }
    cases
}

fn cut_models() -> Vec<Known> {
    let words = model_words(&model());
    let (_, log) = crate::whole_example();
    let mut cases = Vec::new();
    for length in 0..words.len() {
        let name = format!("model cut to {length}");
        let answer = Answer::refused(4, 0, length);
        cases.push(case(&name, &words[..length], &log, answer, &[]));
    }
    let longer = [&words[..], &[0, 0]].concat();
    let answer = Answer::refused(7, 0, words.len());
    cases.push(case("model with two words more", &longer, &[], answer, &[]));
    cases
}

fn cut_logs() -> Vec<Known> {
    let mut cases = Vec::new();
    for (conclusion, accepted) in conclusions() {
        let steps = log(conclusion);
        let starts = starts(&steps);
        let words = log_words(&steps);
        for length in 0..words.len() {
            let begun = starts.iter().filter(|&&s| (s as usize) < length).count();
            let between = starts.contains(&(length as u32));
            let (cause, passed) = if between {
                (10, begun)
            } else {
                (11, begun - 1)
            };
            let name = format!("log cut to {length}");
            let answer = Answer::refused(cause, passed, length);
            let model = model_words(&model());
            cases.push(case(
                &name,
                &model,
                &words[..length],
                answer,
                &starts[..passed],
            ));
        }
        let model = model_words(&model());
        cases.push(case("log uncut", &model, &words, accepted, &starts));
    }
    cases
}

/// 1, 2, 3 and their order.
fn table_lengths() -> Vec<Known> {
    let (model, log) = crate::whole_example();
    let padded = |words: &[i32], length: usize| {
        let mut words = words.to_vec();
        words.resize(length, 0);
        words
    };
    let refused = |number, position| Answer::refused(number, 0, position);
    let with_places = |name: &str, places: usize, model: &[i32], log: &[i32], answer: Answer| {
        let written: &[u32] = if answer.is_accepted() {
            &[0, 13, 18]
        } else {
            &[]
        };
        let mut known = case(name, model, log, answer, written);
        known.places = places;
        known
    };
    let long_model = padded(&model, MODEL_WORDS + 1);
    let full_model = padded(&model, MODEL_WORDS);
    let long_log = padded(&log, LOG_WORDS + 1);
    let no_model: &[i32] = &[];
    vec![
        with_places("1", PLACES, &long_model, &log, refused(1, 0)),
        with_places("4,096 words", PLACES, &full_model, &log, refused(7, 13)),
        with_places("2", PLACES, &model, &long_log, refused(2, 0)),
        with_places("3", PLACES - 1, &model, &log, refused(3, 0)),
        with_places("no places", 0, &model, &log, refused(3, 0)),
        with_places("more places", PLACES + 9, &model, &log, no_assignment()),
        with_places("1 before 2, 3", 0, &long_model, &long_log, refused(1, 0)),
        with_places("2 before 3", 0, no_model, &long_log, refused(2, 0)),
        with_places("3 before 4", 4_095, no_model, &log, refused(3, 0)),
        with_places("no words at all", PLACES, no_model, &[], refused(4, 0)),
    ]
}

/// As many steps and words as fit.
fn full_tables() -> Vec<Known> {
    let model = model_words(&Model {
        bounds: vec![(0, 0)],
        rows: vec![Row::linear(-1, &[(1, 0)])],
    });
    let short = Step::Inference {
        row: 0,
        fact: Fact::default(),
    };
    let long = Step::Inference {
        row: 0,
        fact: Fact::new(&[at_most(0, 0)], None),
    };
    let end = Step::NoAssignment { cited: 0 };
    let most_steps = [vec![short.clone(); 4_095], vec![end.clone()]].concat();
    let most_words = [vec![short.clone(); 4_092], vec![long; 2], vec![end]].concat();
    let no_end = vec![short; 4_096];
    let whole = |name: &str, steps: &[Step], answer| {
        let words = log_words(steps);
        case(name, &model, &words, answer, &starts_of_many(steps))
    };
    let ran_out = Answer::refused(10, 4_096, LOG_WORDS);
    vec![
        whole("4,096 steps", &most_steps, no_assignment()),
        whole("16,384 words", &most_words, no_assignment()),
        whole("4,096 steps, no conclusion", &no_end, ran_out),
    ]
}

/// As `starts`, in one go.
fn starts_of_many(steps: &[Step]) -> Vec<u32> {
    let mut next = 0;
    let mut starts = Vec::new();
    for step in steps {
        starts.push(next);
        next += log_words(std::slice::from_ref(step)).len() as u32;
    }
    starts
}

/// Words at the ends of their ranges, where the answer is plain.
fn extreme_words() -> Vec<Known> {
    let parts = [widest_model(), largest_sums(), most_hints(), longest_time()];
    parts.concat()
}

/// 64 variables and 64 rows of 16.
fn widest_model() -> Vec<Known> {
    let list: Vec<usize> = (48..64).collect();
    let activities: Vec<(usize, i32, i32)> = list.iter().map(|&v| (v, 10_000, 1_000_000)).collect();
    let model = Model {
        bounds: vec![(-VALUE, VALUE); 64],
        rows: vec![Row::cumulative(1_000_000, &activities); 64],
    };
    let premises: Vec<_> = list.iter().map(|&v| tables::equal(v, VALUE)).collect();
    let steps = [Step::Inference {
        row: 63,
        fact: Fact::new(&premises, None),
    }];
    let words = log_words(&steps);
    let passed = Answer::refused(10, 1, words.len());
    vec![case(
        "widest model",
        &model_words(&model),
        &words,
        passed,
        &[0],
    )]
}

/// Sums far outside 32 bits, and bounds at their ends.
fn largest_sums() -> Vec<Known> {
    let line = |name: &str, coefficient: i32, value: i32, bound: i32, passes: bool| {
        let model = Model {
            bounds: vec![(value, value)],
            rows: vec![Row::linear(bound, &[(coefficient, 0); 16])],
        };
        let words = [1, 0, 0, 0];
        let answer = if passes {
            Answer::refused(10, 1, 4)
        } else {
            Answer::refused(21, 0, 0)
        };
        let written: &[u32] = if passes { &[0] } else { &[] };
        case(name, &model_words(&model), &words, answer, written)
    };
    vec![
        line("largest sum", 1_000_000, VALUE, i32::MAX, true),
        line("least sum", -1_000_000, VALUE, i32::MIN, false),
        line("negative both", -1_000_000, -VALUE, i32::MAX, true),
        line("one past the bound", 1, 1, 15, true),
        line("at the bound", 1, 1, 16, false),
        line("coefficient 0", 0, VALUE, 0, false),
        line("coefficient 0 above", 0, VALUE, -1, true),
    ]
}

/// 64 hints, the last of them needed, and 16 premises.
fn most_hints() -> Vec<Known> {
    let model = model_words(&Model {
        bounds: vec![(0, 63)],
        rows: vec![Row::linear(-64, &[(-1, 0)])],
    });
    let hole = |value| Step::Inference {
        row: 0,
        fact: Fact::new(&[], Some(not_equal(0, value))),
    };
    let mut steps: Vec<Step> = (0..64).map(hole).collect();
    steps.push(Step::Deduction {
        fact: Fact::new(&[at_least(0, 0); 16], None),
        hints: (0..64).collect(),
    });
    let words = log_words(&steps);
    let passed = Answer::refused(10, 65, words.len());
    let against = [Step::Deduction {
        fact: Fact::new(&[at_most(0, 62); 16], Some(at_most(0, 62))),
        hints: vec![],
    }];
    vec![
        case("64 hints", &model, &words, passed, &starts(&steps)),
        case(
            "16 premises against the consequent",
            &model,
            &log_words(&against),
            Answer::refused(20, 0, 0),
            &[],
        ),
    ]
}

/// An activity that runs beyond every value a variable can have.
fn longest_time() -> Vec<Known> {
    let model = Model {
        bounds: vec![(VALUE, VALUE), (VALUE - 5_000, VALUE)],
        rows: vec![Row::cumulative(1, &[(0, 10_000, 1), (1, 10_000, 1)])],
    };
    let words = [1, 0, 0, 0];
    let apart = Model {
        bounds: vec![(-VALUE, -VALUE), (-VALUE + 9_999, -VALUE + 10_000)],
        rows: model.rows.clone(),
    };
    let passed = Answer::refused(10, 1, 4);
    let refused = Answer::refused(21, 0, 0);
    vec![
        case("beyond", &model_words(&model), &words, passed, &[0]),
        case("just apart", &model_words(&apart), &words, refused, &[]),
    ]
}
