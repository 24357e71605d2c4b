//! An accepted log: what was shown, and in how many steps of each kind.

use super::log::{Body, LogTable};
use super::page::{counted, line, Page};
use std::collections::BTreeMap;

pub fn explain(page: &mut Page, log: &LogTable) {
    let Some(last) = log.steps.last().filter(|_| log.fault.is_none()) else {
        return page.disagrees();
    };
    page.line(0, match last.body {
        Body::NeverBelow { variable, value, .. } => {
            format!("Shown: every assignment within the bounds that meets every row has x{variable} at {value} or above.")
        }
        _ => "Shown: no assignment within the bounds meets every row.".to_string(),
    });
    let mut rows: BTreeMap<usize, usize> = BTreeMap::new();
    let mut deductions = 0;
    for step in &log.steps {
        match &step.body {
            Body::Inference { row, .. } => *rows.entry(*row).or_default() += 1,
            Body::Deduction { .. } => deductions += 1,
            Body::NoAssignment { .. } | Body::NeverBelow { .. } => {}
        }
    }
    let inferences = rows.values().sum();
    let (inferred, deduced) = (counted(inferences, "inference"), counted(deductions, "deduction"));
    line!(page, 0, "The log has {}: {inferred}, {deduced} and the conclusion.", counted(log.steps.len(), "step"),);
    for (row, count) in rows {
        line!(page, 1, "{} from row {row}", counted(count, "inference"));
    }
}
