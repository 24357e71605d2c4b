//! Circuit: some position cannot be reached from some other.

use crate::domains::Domains;

/// The row is kind, n, then variables.
///
/// A set that no value leads out of holds all that its members reach, and what one position
/// reaches is such a set. So there is a conflict unless each position reaches all, which is so
/// if the first one reaches all and all reach the first.
pub fn conflicts(row: &[i32], domains: &Domains) -> bool {
    let variables = &row[2..];
    let all = (1u32 << variables.len()) - 1;
    let mut leads_to = [0; 16];
    for (links, &variable) in leads_to.iter_mut().zip(variables) {
        *links = domains.window(variable as usize, 0) as u32 & all;
    }
    reached(&leads_to) != all || reaching(&leads_to) != all
}

/// The positions that can be reached from the first one.
fn reached(leads_to: &[u32; 16]) -> u32 {
    let mut seen = 1;
    let mut fresh = 1u32;
    while fresh != 0 {
        let position = fresh.trailing_zeros() as usize;
        fresh &= fresh - 1;
        let next = leads_to[position] & !seen;
        seen |= next;
        fresh |= next;
    }
    seen
}

/// The positions from which the first one can be reached.
fn reaching(leads_to: &[u32; 16]) -> u32 {
    let mut seen = 1;
    loop {
        let before = seen;
        for (position, &next) in leads_to.iter().enumerate() {
            let leads_on = next & seen != 0;
            seen |= (leads_on as u32) << position;
        }
        if seen == before {
            return seen;
        }
    }
}
