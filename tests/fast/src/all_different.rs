//! All-different: fewer values than variables, over the variables that occur in the fact.

use crate::domains::{Domains, WINDOW};

/// The row is kind, n, then variables.
pub fn conflicts(row: &[i32], domains: &Domains) -> bool {
    let mut chosen = [0; 16];
    let mut count = 0;
    let (mut low, mut high) = (i32::MAX, i32::MIN);
    for &variable in &row[2..] {
        let variable = variable as usize;
        if domains.touched >> variable & 1 == 1 {
            chosen[count] = variable;
            count += 1;
            low = low.min(domains.low(variable));
            high = high.max(domains.high(variable));
        }
    }
    let chosen = &chosen[..count];
    if count < 2 {
        return false;
    }
    match high - low {
        span if span + 1 < count as i32 => true,
        span if span < WINDOW => count_in_window(chosen, low, domains) < count,
        _ => few_values(chosen, domains),
    }
}

/// The number of values, all of which lie within one window from `base` on.
fn count_in_window(chosen: &[usize], base: i32, domains: &Domains) -> usize {
    let union = chosen
        .iter()
        .fold(0, |union, &variable| union | domains.window(variable, base));
    union.count_ones() as usize
}

/// Whether there are fewer values than variables, wherever they lie.
fn few_values(chosen: &[usize], domains: &Domains) -> bool {
    let mut union = [0; 16];
    let mut found = 0;
    for &variable in chosen {
        if domains.size(variable) >= chosen.len() as i32 {
            return false;
        }
        for value in domains.low(variable)..=domains.high(variable) {
            if union[..found].contains(&value) || !domains.has(variable, value) {
                continue;
            }
            if found + 1 >= chosen.len() {
                return false;
            }
            union[found] = value;
            found += 1;
        }
    }
    true
}
