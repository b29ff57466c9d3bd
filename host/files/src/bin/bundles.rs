//! Compares the proved reader and writer of site bundles with the second ones,
//! file by file: all that a call hands back, and every byte of the buffer. The
//! first difference ends the run.

#[path = "bundles/compare.rs"]
mod compare;

use mullirim_host::bundle::cases::Case;
use mullirim_host::bundle::rows::Rows;
use mullirim_host::comparison::files;
use std::process::ExitCode;

fn main() -> ExitCode {
    files::compare("bundles", Rows::unmet(), |seed, number, tally| {
        compare::both(&Case::new(seed, number), tally)
    })
}

#[cfg(test)]
mod tests {
    use super::*;
    use crate::compare::Tally;

    #[test]
    fn two_thousand_files_agree_and_meet_most() {
        let mut tally = Tally::new(Rows::unmet());
        for number in 0..2_000 {
            assert_eq!(compare::both(&Case::new(3, number), &mut tally), Ok(()));
        }
        assert!(tally.rows.missed().len() < tally.rows.counts().count() / 4);
    }
}
