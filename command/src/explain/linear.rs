//! 21 in a linear row: the least sum and the bound.

use super::page::{line, Page};
use super::values::Left;

pub fn conflicts(page: &mut Page, bound: i32, terms: &[(i32, usize)], left: &Left) -> bool {
    page.line(0, "Why: the least sum is not above the bound. Term by term, the least that each can add:");
    let mut sum = 0;
    for &(coefficient, variable) in terms {
        let (end, value) = match coefficient < 0 {
            true => ("largest", left[variable].largest()),
            false => ("smallest", left[variable].least()),
        };
        let least = i64::from(coefficient) * value;
        line!(page, 1, "{coefficient}*x{variable}: {coefficient} times {value}, the {end} value left, is {least}");
        sum += least;
    }
    line!(page, 1, "least sum {sum}, bound {bound}: a conflict needs at least {}", i64::from(bound) + 1);
    sum > i64::from(bound)
}
