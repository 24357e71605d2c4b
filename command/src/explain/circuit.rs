//! 21 in a circuit row: where each position can go, and that each reaches all the others.

use super::page::{line, Page};
use super::say::numbers;
use super::values::Left;

pub fn conflicts(page: &mut Page, variables: &[usize], left: &Left) -> bool {
    let next: Vec<Vec<usize>> = variables
        .iter()
        .map(|&variable| (0..variables.len()).filter(|&to| left[variable].contains(to as i64)).collect())
        .collect();
    page.line(0, "Why: there is no trap. From every position one can still come to all the others:");
    for (position, to) in next.iter().enumerate() {
        let to = if to.is_empty() { "nowhere".to_string() } else { numbers(to) };
        line!(page, 1, "position {position} (x{}) can go to {to}", variables[position]);
    }
    page.line(1, "a conflict needs some positions, not all, that can only go to each other");
    (0..next.len()).any(|from| reached(&next, from) < next.len())
}

/// How many positions can be come to from one, itself included.
fn reached(next: &[Vec<usize>], from: usize) -> usize {
    let mut seen = vec![false; next.len()];
    seen[from] = true;
    let mut open = vec![from];
    while let Some(position) = open.pop() {
        for &to in &next[position] {
            if !seen[to] {
                seen[to] = true;
                open.push(to);
            }
        }
    }
    seen.into_iter().filter(|&seen| seen).count()
}
