//! Nothing outside the lent tables is touched, and the model and the log are not written to.

use generator::{Case, Cases};
use held::{answer, lent, Edge, Guarded};
use std::os::unix::process::ExitStatusExt;
use std::process::Command;

const CASES: usize = 6_000;

#[derive(Default)]
struct Tables {
    old: Guarded<i32>,
    model: Guarded<i32>,
    log: Guarded<i32>,
    places: Guarded<u32>,
}

impl Tables {
    /// Answers the case between guards and compares with the answer on the heap.
    fn hold(&mut self, case: &Case, edge: Edge) {
        let mut expected = lent(case.places);
        let plain = answer(case.old.as_deref(), &case.model, &case.log, &mut expected);
        let places = self.places.writable(&lent(case.places), edge);
        let old = match &case.old {
            Some(old) => Some(self.old.read_only(old, edge)),
            None => None,
        };
        let model = self.model.read_only(&case.model, edge);
        let log = self.log.read_only(&case.log, edge);
        let guarded = answer(old, model, log, places);
        assert_eq!(guarded, plain, "{case:?}");
        assert!(*places == *expected, "places of {case:?}");
    }
}

#[test]
fn tables_at_the_edge_of_memory() {
    let mut tables = Tables::default();
    for case in Cases::new(21).take(CASES) {
        for edge in [Edge::Ends, Edge::Begins] {
            tables.hold(&case, edge);
        }
    }
}

/// Each table in turn, and all of them, without any entry.
#[test]
fn tables_of_length_0() {
    let (model, log) = known::whole_example();
    let mut tables = Tables::default();
    for emptied in 0..16 {
        let unless = |bit: usize, words: &[i32]| {
            if emptied >> bit & 1 == 1 {
                Vec::new()
            } else {
                words.to_vec()
            }
        };
        for old in [None, Some(unless(0, &model))] {
            let case = Case {
                old,
                model: unless(1, &model),
                log: unless(2, &log),
                places: if emptied >> 3 & 1 == 1 { 0 } else { 4_096 },
            };
            for edge in [Edge::Ends, Edge::Begins] {
                tables.hold(&case, edge);
            }
        }
    }
}

/// Shows that the guards bite: a process that reads past a table is ended by a signal.
#[test]
fn an_overrun_is_caught() {
    const SWITCH: &str = "HELD_OVERRUN";
    if std::env::var_os(SWITCH).is_some() {
        let mut guarded = Guarded::<i32>::new();
        let table = guarded.read_only(&[1, 2, 3], Edge::Ends);
        // SAFETY: there is none; this is the overrun
        let past = unsafe { std::ptr::read_volatile(table.as_ptr().add(3)) };
        println!("read {past} past the table");
        return;
    }
    let status = Command::new(std::env::current_exe().unwrap())
        .args(["--exact", "an_overrun_is_caught"])
        .env(SWITCH, "1")
        .output()
        .expect("the test can start itself")
        .status;
    assert!(status.signal().is_some(), "the overrun went unnoticed");
}
