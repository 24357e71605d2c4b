//! Linear: the least sum exceeds the bound.

use crate::domains::Domains;

/// The row is kind, n, bound, then pairs of coefficient and variable.
pub fn conflicts(row: &[i32], domains: &Domains) -> bool {
    let mut least = 0;
    for term in row[3..].chunks_exact(2) {
        let coefficient = term[0] as i64;
        let variable = term[1] as usize;
        let value = if coefficient < 0 {
            domains.high(variable)
        } else {
            domains.low(variable)
        };
        least += coefficient * value as i64;
    }
    least > row[2] as i64
}
