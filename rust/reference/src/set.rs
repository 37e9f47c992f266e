//! Sets of numbers of the axis, as sorted lists of maximal runs.

pub const LOW: i64 = -2_000_000_000;
pub const HIGH: i64 = 2_000_000_000;

/// Maximal runs (low, high), ascending: between two of them at least one number is missing.
#[derive(Clone, PartialEq, Eq, Debug, Default)]
pub struct Set {
    runs: Vec<(i64, i64)>,
}

impl Set {
    pub fn empty() -> Set {
        Set { runs: Vec::new() }
    }

    pub fn whole() -> Set {
        Set::of(vec![(LOW, HIGH)])
    }

    /// The whole axis or nothing.
    pub fn if_true(truth: bool) -> Set {
        if truth {
            Set::whole()
        } else {
            Set::empty()
        }
    }

    /// What the runs hold of the axis, in any order, overlapping or not; a run whose low is above its high is empty.
    pub fn of(runs: Vec<(i64, i64)>) -> Set {
        let mut runs: Vec<(i64, i64)> =
            runs.into_iter().map(|(low, high)| (low.max(LOW), high.min(HIGH))).filter(|(low, high)| low <= high).collect();
        runs.sort_unstable();
        let mut joined: Vec<(i64, i64)> = Vec::with_capacity(runs.len());
        for (low, high) in runs {
            match joined.last_mut() {
                Some(last) if low <= last.1 + 1 => last.1 = last.1.max(high),
                _ => joined.push((low, high)),
            }
        }
        Set { runs: joined }
    }

    /// The single numbers.
    pub fn of_numbers(numbers: impl IntoIterator<Item = i64>) -> Set {
        Set::of(numbers.into_iter().map(|number| (number, number)).collect())
    }

    pub fn runs(&self) -> &[(i64, i64)] {
        &self.runs
    }

    pub fn is_empty(&self) -> bool {
        self.runs.is_empty()
    }

    pub fn contains(&self, number: i64) -> bool {
        let place = self.runs.partition_point(|run| run.1 < number);
        place < self.runs.len() && self.runs[place].0 <= number
    }

    pub fn or(&self, other: &Set) -> Set {
        Set::of(self.runs.iter().chain(&other.runs).copied().collect())
    }

    pub fn and(&self, other: &Set) -> Set {
        let mut runs = Vec::new();
        let (mut left, mut right) = (0, 0);
        while left < self.runs.len() && right < other.runs.len() {
            let (a, b) = (self.runs[left], other.runs[right]);
            runs.push((a.0.max(b.0), a.1.min(b.1)));
            if a.1 < b.1 {
                left += 1;
            } else {
                right += 1;
            }
        }
        Set::of(runs)
    }

    pub fn not(&self) -> Set {
        let mut runs = Vec::new();
        let mut next = LOW;
        for (low, high) in &self.runs {
            runs.push((next, low - 1));
            next = high + 1;
        }
        runs.push((next, HIGH));
        Set::of(runs)
    }

    /// The least distance from the number to a member, none for the empty set.
    pub fn distance(&self, number: i64) -> Option<i64> {
        self.runs.iter().map(|(low, high)| (low - number).max(number - high).max(0)).min()
    }

    /// Its bytes in an answer: low and high of each run as signed 32-bit little-endian numbers.
    pub fn bytes(&self) -> Vec<u8> {
        let number = |number: i64| i32::try_from(number).expect("a number of the axis").to_le_bytes();
        self.runs.iter().flat_map(|(low, high)| [number(*low), number(*high)]).flatten().collect()
    }
}
