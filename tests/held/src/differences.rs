//! The differences that were found, of which the shortest is shown.

/// How many there are, and the one with the fewest words.
#[derive(Clone, Debug, Default)]
pub struct Differences {
    count: usize,
    shortest: Option<String>,
}

impl Differences {
    pub fn add(&mut self, difference: String) {
        self.count += 1;
        self.keep_shortest(difference);
    }

    pub fn join(&mut self, other: Differences) {
        self.count += other.count;
        if let Some(difference) = other.shortest {
            self.keep_shortest(difference);
        }
    }

    fn keep_shortest(&mut self, difference: String) {
        let shorter = self
            .shortest
            .as_ref()
            .is_none_or(|s| difference.len() < s.len());
        if shorter {
            self.shortest = Some(difference);
        }
    }

    /// Panics if there are any.
    pub fn assert_none(&self) {
        if let Some(shortest) = &self.shortest {
            panic!(
                "{} cases are answered otherwise, the shortest: {shortest}",
                self.count
            );
        }
    }
}
