//! The rows that a request can fall under, those of the paper, of the search, of
//! the address that it leaves and of the whole sum, each with how often one did. A
//! run that leaves a row out has compared too little.

use crate::seen::{Form, Part, Seen, FORMS, STATES};
use crate::unfit::{reasons, REASONS};
use mullirim_host::second::answer;

type Holds = Box<dyn Fn(&Seen) -> bool>;

pub struct Rows {
    rows: Vec<(String, Holds, u64)>,
    /// By the only reason for which a request was unfit.
    unfit: [u64; REASONS.len()],
}

impl Rows {
    pub fn new() -> Rows {
        let mut rows = Rows {
            rows: Vec::new(),
            unfit: [0; REASONS.len()],
        };
        rows.orders();
        for form in &FORMS {
            rows.form(form);
        }
        rows.statuses();
        rows.commands();
        rows.pieces();
        rows.uploads();
        rows.large();
        rows.joins();
        rows.unerased();
        rows
    }

    pub fn add(&mut self, name: impl Into<String>, holds: impl Fn(&Seen) -> bool + 'static) {
        self.rows.push((name.into(), Box::new(holds), 0));
    }

    pub fn see(&mut self, seen: &Seen) {
        for (_, holds, count) in &mut self.rows {
            *count += u64::from(holds(seen));
        }
        if !seen.answered(answer::UNFIT) {
            return;
        }
        if let [only] = reasons(seen)[..] {
            let row = REASONS.iter().position(|name| *name == only);
            self.unfit[row.expect("a reason of the list")] += 1;
        }
    }

    /// Every row with its count.
    pub fn counts(&self) -> impl Iterator<Item = (String, u64)> + '_ {
        let unfit = REASONS.iter().zip(self.unfit);
        let unfit = unfit.map(|(name, count)| (format!("unfit: {name}"), count));
        let rows = self.rows.iter();
        unfit.chain(rows.map(|(name, _, count)| (name.clone(), *count)))
    }

    /// Unfit before form, form before state.
    fn orders(&mut self) {
        self.add("unfit, of wrong form", |seen| {
            seen.answered(answer::UNFIT) && seen.call.setup.len() == 8 && !seen.well_formed()
        });
        self.add("unfit, not allowed in its state", |seen| {
            let mut refused = FORMS
                .iter()
                .filter(|form| !form.states.contains(&seen.lent().state));
            seen.answered(answer::UNFIT) && refused.any(|form| seen.formed(form))
        });
        for state in STATES {
            self.add(format!("of wrong form in state {state}"), move |seen| {
                seen.answered(answer::STALLED) && !seen.well_formed() && seen.lent().state == state
            });
        }
        for (name, after) in [("a command", 2), ("a download", 5)] {
            self.add(format!("stalled in sync after {name}"), move |seen| {
                seen.answered(answer::STALLED)
                    && seen.lent().state == 3
                    && seen.lent().after == after
            });
        }
    }

    /// One request: in every state, and with each part of its form wrong where
    /// nothing else is.
    fn form(&mut self, form: &'static Form) {
        let name = form.name;
        for state in STATES {
            self.add(format!("{name} in state {state}"), move |seen| {
                let fit = !seen.answered(answer::UNFIT);
                fit && seen.formed(form) && seen.lent().state == state
            });
        }
        self.add(format!("{name} of the other type"), |seen| {
            seen.stalled_by(form, Part::Kind)
        });
        self.add(format!("{name}, wIndex not 0"), |seen| {
            seen.stalled_by(form, Part::Index)
        });
        let (least, most) = (*form.lengths.start(), *form.lengths.end());
        self.add(format!("{name}, wLength {}", most + 1), move |seen| {
            seen.stalled_by(form, Part::Length) && seen.length() == most + 1
        });
        if least > 0 {
            self.add(format!("{name}, wLength {}", least - 1), move |seen| {
                seen.stalled_by(form, Part::Length) && seen.length() == least - 1
            });
        }
        match form.number {
            0x42 => self.add("query, another wValue", |seen| {
                seen.stalled_by(form, Part::Value)
            }),
            _ => self.add(format!("{name}, taken with a wValue"), |seen| {
                seen.formed(form) && seen.answered(answer::TAKEN) && seen.value() != 0
            }),
        }
    }

    fn statuses(&mut self) {
        let polled = |seen: &Seen| seen.formed(&FORMS[2]) && seen.answered(answer::TAKEN);
        let aborted = |seen: &Seen| seen.formed(&FORMS[5]) && seen.answered(answer::TAKEN);
        for after in [2, 5] {
            self.add(format!("GETSTATUS from state 3 to {after}"), move |seen| {
                polled(seen) && seen.lent().state == 3 && seen.next().state == after
            });
        }
        for status in [0x05, 0x08, 0x09, 0x0B, 0x0F] {
            self.add(format!("GETSTATUS with status {status:02X}"), move |seen| {
                polled(seen) && seen.next().status == status
            });
        }
        self.add("ABORT of a download in sync", move |seen| {
            aborted(seen) && seen.lent().state == 3 && seen.download_runs()
        });
        self.add("ABORT of an upload", move |seen| {
            aborted(seen) && seen.lent().up_place > 0
        });
    }
}
