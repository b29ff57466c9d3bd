//! The rows of a paper that a case can fall under, each with how often one did.
//! A run that leaves a row out has compared too little.

/// `Holds` is the test of a row: a function of what a comparison has seen of a
/// case.
pub struct Rows<Holds: ?Sized> {
    rows: Vec<(String, Box<Holds>, u64)>,
}

impl<Holds: ?Sized> Rows<Holds> {
    pub fn none() -> Rows<Holds> {
        Rows { rows: Vec::new() }
    }

    /// One more row, not met so far.
    pub fn row(&mut self, name: String, holds: Box<Holds>) {
        self.rows.push((name, holds, 0));
    }

    /// Counts the rows whose tests are told to hold.
    pub fn count(&mut self, told: impl Fn(&Holds) -> bool) {
        for (_, holds, count) in &mut self.rows {
            *count += u64::from(told(holds));
        }
    }

    /// Every row with its count.
    pub fn counts(&self) -> impl Iterator<Item = (&str, u64)> {
        self.rows
            .iter()
            .map(|(name, _, count)| (name.as_str(), *count))
    }

    /// The rows that were never met.
    pub fn missed(&self) -> Vec<&str> {
        let never = self.counts().filter(|(_, count)| *count == 0);
        never.map(|(name, _)| name).collect()
    }
}

#[cfg(test)]
mod tests {
    use super::*;

    #[test]
    fn rows_are_counted_by_their_tests() {
        let mut rows: Rows<dyn Fn(u32) -> bool> = Rows::none();
        rows.row("even".to_string(), Box::new(|number| number % 2 == 0));
        rows.row("over 9".to_string(), Box::new(|number| number > 9));
        assert_eq!(rows.missed(), ["even", "over 9"]);
        for number in [2, 3, 4] {
            rows.count(|holds| holds(number));
        }
        assert_eq!(
            rows.counts().collect::<Vec<_>>(),
            [("even", 2), ("over 9", 0)]
        );
        assert_eq!(rows.missed(), ["over 9"]);
    }
}
