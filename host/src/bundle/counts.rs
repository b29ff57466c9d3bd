//! The rows of the count and of the table's room.

use super::rows::Rows;
use super::seen::{Seen, EMPTY, OFFSET, PAST};
use super::{head, MOST};

impl Rows {
    pub fn counts_and_tables(&mut self) {
        self.wrong_counts();
        self.wrong_counts_beside();
        self.tables();
        self.tables_beside();
    }

    fn wrong_counts(&mut self) {
        for count in [0, 33, 34, 64, 255, 256, 257, 288, 0x2000, 0xFFFF] {
            self.add(format!("refused 2: count {count}"), move |seen| {
                seen.refused(2) && seen.count() == Some(count)
            });
        }
        for (what, of) in [("low", LOW), ("high", HIGH)] {
            let name = format!("refused 2: the count's {what} byte alone would do");
            self.add(name, move |seen| {
                seen.refused(2) && seen.count().is_some_and(of)
            });
        }
    }

    /// What else is right or wrong where the count is wrong.
    fn wrong_counts_beside(&mut self) {
        for count in [0, 33, 34] {
            let name = format!("refused 2: count {count}, and all else is right for it");
            self.add(name, move |seen| {
                let count_is = seen.count() == Some(count);
                seen.refused(2) && count_is && seen.right_but_for_the_count()
            });
        }
        for count in [0, 33, 0xFFFF] {
            let name = format!("refused 2: count {count} and nothing more");
            self.add(name, move |seen| {
                seen.refused(2) && seen.count() == Some(count) && seen.length() == 2
            });
        }
        self.add(
            "refused 2: too many images, and too short for their table",
            |seen| {
                let short = seen
                    .count()
                    .is_some_and(|count| count > MOST && seen.case.file.len() < head(count));
                seen.refused(2) && short
            },
        );
        self.add("refused 2: a file of over 4 GiB", |seen| {
            seen.refused(2) && seen.case.file.is_vast()
        });
    }

    fn tables(&mut self) {
        for length in 2..10 {
            let name = format!("refused 3: one image, bytes in all: {length}");
            self.add(name, move |seen| short_table(seen, 1, 10 - length));
        }
        for count in [2, 32] {
            for missing in [1, 2, 7, 8, 9, 8 * count] {
                let name = format!("refused 3: {count} images, bytes missing: {missing}");
                self.add(name, move |seen| short_table(seen, count, missing));
            }
        }
        for count in [1, 32] {
            let name = format!("refused 5: {count} images, the file ends with its table");
            self.add(name, move |seen| {
                let ends = seen.case.file.len() == head(count);
                ends && seen.count() == Some(count) && seen.refused(5)
            });
        }
    }

    /// A wrong entry stands before the place where the table is cut.
    fn tables_beside(&mut self) {
        for (rule, what) in [(OFFSET, "offset"), (EMPTY, "zero length"), (PAST, "past")] {
            self.add(format!("refused 3: an entry with a wrong {what}"), {
                move |seen| {
                    let wrong = seen.entries.iter().any(|entry| entry.rules & rule > 0);
                    !seen.whole_table() && seen.refused(3) && wrong
                }
            });
        }
        self.add("refused 4: a table that no cut length would hold", |seen| {
            let cut = seen.case.file.len() % (1 << 32);
            let at = seen.refused_at().filter(|(_, entry)| entry.refusal() == 4);
            seen.case.file.is_vast() && at.is_some() && cut < head(seen.entries.len())
        });
    }
}

const LOW: fn(usize) -> bool = |count| (1..=MOST).contains(&(count % 256));
const HIGH: fn(usize) -> bool = |count| (1..=MOST).contains(&(count / 256));

fn short_table(seen: &Seen, count: usize, missing: usize) -> bool {
    let short = seen.case.file.len() + missing == head(count);
    seen.refused(3) && short && seen.count() == Some(count)
}
