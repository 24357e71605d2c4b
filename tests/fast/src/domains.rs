//! The box: an interval for each variable and one short list of holes for all.

use crate::step::Fact;
use tables::limits::{HINTS, PREMISES, VALUE, VARIABLES};

/// So many values have a bit each in one word.
pub const WINDOW: i32 = u64::BITS as i32;

const SIZE: usize = VARIABLES as usize;
/// Each premise, the consequent and each hint makes at most one hole.
const MOST_HOLES: usize = (PREMISES + 1 + HINTS) as usize;

pub struct Domains {
    declared: [(i32, i32); SIZE],
    /// The ends of each set; an end is never a hole.
    ends: [(i32, i32); SIZE],
    /// Variable and value in one word, so that looking for one is a plain scan.
    holes: [u32; MOST_HOLES],
    count: usize,
    /// One bit per variable that has holes.
    holed: u64,
    /// One bit per variable that an atom spoke of.
    pub touched: u64,
}

impl Domains {
    pub fn new(bounds: &[i32]) -> Domains {
        let mut declared = [(0, 0); SIZE];
        for (entry, pair) in declared.iter_mut().zip(bounds.chunks_exact(2)) {
            *entry = (pair[0], pair[1]);
        }
        Domains {
            declared,
            ends: declared,
            holes: [0; MOST_HOLES],
            count: 0,
            holed: 0,
            touched: 0,
        }
    }

    /// Takes the box of a fact; false if a set is empty.
    pub fn set_up(&mut self, fact: &Fact) -> bool {
        self.restore();
        for atom in fact.premises.chunks_exact(3) {
            if !self.narrow(atom) {
                return false;
            }
        }
        match *fact.consequent {
            [variable, relation, value] => {
                let (relation, value) = match relation {
                    1 => (2, value + 1),
                    2 => (1, value - 1),
                    3 => (4, value),
                    _ => (3, value),
                };
                self.narrow(&[variable, relation, value])
            }
            _ => true,
        }
    }

    fn restore(&mut self) {
        let mut left = self.touched;
        while left != 0 {
            let variable = left.trailing_zeros() as usize;
            self.ends[variable] = self.declared[variable];
            left &= left - 1;
        }
        self.touched = 0;
        self.holed = 0;
        self.count = 0;
    }

    /// Leaves the values for which the atom holds; false if there are none.
    pub fn narrow(&mut self, atom: &[i32]) -> bool {
        let &[variable, relation, value] = atom else {
            unreachable!("an atom is three words");
        };
        let variable = variable as usize;
        self.touched |= 1 << variable;
        let (low, high) = self.ends[variable];
        match relation {
            1 => value >= high || self.lower(variable, value),
            2 => value <= low || self.raise(variable, value),
            3 if self.has(variable, value) => {
                self.ends[variable] = (value, value);
                true
            }
            3 => false,
            _ if value == low => self.raise(variable, low + 1),
            _ if value == high => self.lower(variable, high - 1),
            _ => {
                self.add_hole(variable, value);
                true
            }
        }
    }

    /// Moves the low end up, past holes; false if nothing is left.
    fn raise(&mut self, variable: usize, mut low: i32) -> bool {
        let high = self.high(variable);
        if self.has_holes(variable) {
            while low < high && self.is_hole(variable, low) {
                low += 1;
            }
        }
        self.ends[variable].0 = low;
        low <= high
    }

    /// Moves the high end down, past holes; false if nothing is left.
    fn lower(&mut self, variable: usize, mut high: i32) -> bool {
        let low = self.low(variable);
        if self.has_holes(variable) {
            while low < high && self.is_hole(variable, high) {
                high -= 1;
            }
        }
        self.ends[variable].1 = high;
        low <= high
    }

    fn add_hole(&mut self, variable: usize, value: i32) {
        if self.has(variable, value) {
            self.holes[self.count] = key(variable, value);
            self.count += 1;
            self.holed |= 1 << variable;
        }
    }

    pub fn has_holes(&self, variable: usize) -> bool {
        self.holed >> variable & 1 == 1
    }

    pub fn is_hole(&self, variable: usize, value: i32) -> bool {
        self.holes[..self.count].contains(&key(variable, value))
    }

    pub fn low(&self, variable: usize) -> i32 {
        self.ends[variable].0
    }

    pub fn high(&self, variable: usize) -> i32 {
        self.ends[variable].1
    }

    /// Whether the value is left to the variable.
    pub fn has(&self, variable: usize, value: i32) -> bool {
        let (low, high) = self.ends[variable];
        let within = low <= value && value <= high;
        within && !(self.has_holes(variable) && self.is_hole(variable, value))
    }

    /// Whether the atom holds for every value left.
    #[inline]
    pub fn satisfy(&self, atom: &[i32]) -> bool {
        let &[variable, relation, value] = atom else {
            unreachable!("an atom is three words");
        };
        let variable = variable as usize;
        let (low, high) = self.ends[variable];
        match relation {
            1 => high <= value,
            2 => low >= value,
            3 => low == value && high == value,
            _ => !self.has(variable, value),
        }
    }

    /// The values left among the 64 from `base` on, one bit for each.
    pub fn window(&self, variable: usize, base: i32) -> u64 {
        let low = self.low(variable).max(base);
        let high = self.high(variable).min(base + (WINDOW - 1));
        if low > high {
            return 0;
        }
        let mut bits = u64::MAX >> (WINDOW - 1 - (high - low)) << (low - base);
        for hole in self.holes_within(variable, low, high) {
            bits &= !(1 << (hole - base));
        }
        bits
    }

    /// How many values are left.
    pub fn size(&self, variable: usize) -> i32 {
        let (low, high) = self.ends[variable];
        high - low + 1 - self.holes_within(variable, low, high).count() as i32
    }

    /// The holes of a variable that lie in low..=high, which are values of its set or holes in it.
    fn holes_within(&self, variable: usize, low: i32, high: i32) -> impl Iterator<Item = i32> + '_ {
        let count = if self.has_holes(variable) {
            self.count
        } else {
            0
        };
        let (first, last) = (key(variable, low), key(variable, high));
        self.holes[..count]
            .iter()
            .filter(move |&&hole| first <= hole && hole <= last)
            .map(move |&hole| low + (hole - first) as i32)
    }
}

/// The keys of a variable are in the order of its values, and those of another lie outside.
fn key(variable: usize, value: i32) -> u32 {
    const VALUE_BITS: u32 = (2 * VALUE as u32).ilog2() + 1;
    (variable as u32) << VALUE_BITS | (value + VALUE) as u32
}
