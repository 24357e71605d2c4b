//! Damage to the words of a table.

use crate::random::Random;
use tables::Written;

/// Changes one thing in the words, whatever they mean.
pub fn damage(r: &mut Random, written: &Written) -> Vec<i32> {
    let mut words = written.words.clone();
    if words.is_empty() {
        return vec![r.between(-1, 5)];
    }
    let index = r.below(words.len());
    match r.below(12) {
        0..=3 => words[index] = at_range(r, written.ranges[index]),
        4 => words[index] ^= 1 << r.below(32),
        5 => words[index] = small(r),
        6 => words.insert(index, small(r)),
        7 => {
            words.remove(index);
        }
        8 => words.truncate(index),
        9 => words.swap(index, r.below(written.words.len())),
        10 => repeat_stretch(r, &mut words, index),
        _ => extend(r, &mut words),
    }
    words
}

/// A word at an end of its range, or one past it.
fn at_range(r: &mut Random, range: (i32, i32)) -> i32 {
    match r.below(6) {
        0 => range.0,
        1 => range.1,
        2 => range.0.wrapping_sub(1),
        3 => range.1.wrapping_add(1),
        4 => i32::MIN,
        _ => i32::MAX,
    }
}

fn small(r: &mut Random) -> i32 {
    r.between(-2, 20)
}

fn repeat_stretch(r: &mut Random, words: &mut Vec<i32>, index: usize) {
    let end = (index + r.below(8)).min(words.len());
    let stretch = words[index..end].to_vec();
    words.splice(index..index, stretch);
}

/// Words at the end that do not belong there.
pub fn extend(r: &mut Random, words: &mut Vec<i32>) {
    for _ in 0..r.between(1, 3) {
        words.push(small(r));
    }
}

/// Words that never were a table.
pub fn noise(r: &mut Random) -> Vec<i32> {
    let length = r.below(60);
    let wild = r.chance(30);
    (0..length)
        .map(|_| if wild { r.word() } else { r.between(-1, 5) })
        .collect()
}
