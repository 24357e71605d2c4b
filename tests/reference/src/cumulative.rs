//! Cumulative: too much is sure at some time, or an activity has nowhere left to start.

use crate::fault::{Fault, Slip};
use crate::sets::Sets;
use std::ops::Range;
use tables::Activity;

pub fn conflicts(capacity: i32, activities: &[Activity], sets: &Sets, slip: Slip) -> bool {
    if activities.iter().any(|a| sets.of(a.start).is_empty()) {
        return true; // only a fault looks at a row while a set is empty
    }
    let plan = Plan {
        capacity: capacity as i64,
        activities,
        sets,
        slip,
    };
    plan.overloaded() || (0..activities.len()).any(|position| plan.has_no_start(position))
}

struct Plan<'a> {
    capacity: i64,
    activities: &'a [Activity],
    sets: &'a Sets,
    slip: Slip,
}

impl Plan<'_> {
    /// Every time at which anything might run.
    fn times(&self) -> Range<i32> {
        let first = self.activities.iter().map(|a| self.smallest(a)).min();
        let end = self.activities.iter().map(|a| self.end(a, self.largest(a)));
        first.unwrap()..end.max().unwrap()
    }

    fn smallest(&self, activity: &Activity) -> i32 {
        self.sets.of(activity.start)[0]
    }

    fn largest(&self, activity: &Activity) -> i32 {
        *self.sets.of(activity.start).last().unwrap()
    }

    /// The first time at which an activity that began at `start` no longer runs.
    fn end(&self, activity: &Activity, start: i32) -> i32 {
        start + activity.duration + (self.slip == Some(Fault::CumulativeRunsLonger)) as i32
    }

    /// Whether the activity runs at that time whichever of its starts is taken.
    fn surely_runs(&self, activity: &Activity, time: i32) -> bool {
        self.largest(activity) <= time && time < self.end(activity, self.smallest(activity))
    }

    /// The usages that are sure at a time, without those of the activity at one position.
    fn sure_usage(&self, time: i32, without: Option<usize>) -> i64 {
        let mut sum = 0;
        for (position, activity) in self.activities.iter().enumerate() {
            if !self.left_out(position, without) && self.surely_runs(activity, time) {
                sum += activity.usage as i64;
            }
        }
        sum
    }

    fn left_out(&self, position: usize, without: Option<usize>) -> bool {
        let Some(without) = without else {
            return false;
        };
        match self.slip {
            Some(Fault::OwnSurePartCounted) => false,
            Some(Fault::CumulativeByVariable) => {
                self.activities[position].start == self.activities[without].start
            }
            _ => position == without,
        }
    }

    fn exceeds(&self, usage: i64) -> bool {
        usage > self.capacity
            || (self.slip == Some(Fault::CumulativeAtCapacity) && usage == self.capacity)
    }

    fn overloaded(&self) -> bool {
        self.times()
            .any(|time| self.exceeds(self.sure_usage(time, None)))
    }

    /// Whether every start left covers a time at which the activity does not fit.
    fn has_no_start(&self, position: usize) -> bool {
        let activity = &self.activities[position];
        let full = self.full_times(position);
        let set = self.sets.of(activity.start);
        let mut starts = set.iter().copied();
        let covers = |start: i32| {
            let next = full.partition_point(|&time| time < start);
            full.get(next)
                .is_some_and(|&time| time < self.end(activity, start))
        };
        if self.slip == Some(Fault::CumulativeByEnds) {
            return covers(set[0]) && covers(set[set.len() - 1]);
        }
        starts.all(covers)
    }

    /// The times, in rising order, at which the activity and what is sure of the others exceed
    /// the capacity.
    fn full_times(&self, position: usize) -> Vec<i32> {
        let usage = self.activities[position].usage as i64;
        self.times()
            .filter(|&time| {
                let others = self.sure_usage(time, Some(position));
                let looked_at = self.slip != Some(Fault::CumulativeOnlySure) || others > 0;
                looked_at && self.exceeds(usage + others)
            })
            .collect()
    }
}
