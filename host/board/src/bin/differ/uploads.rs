//! The rows of uploads, for each of the three streams.

use crate::rows::Rows;
use crate::seen::Seen;
use mullirim_host::sessions::INFO_BYTES;

impl Rows {
    pub fn uploads(&mut self) {
        for (name, choice, prefix) in STREAMS {
            self.stream(name, choice, prefix);
        }
    }

    /// One of the three streams.
    fn stream(&mut self, stream: &'static str, choice: u8, prefix: Option<u8>) {
        for (what, holds) in ROWS {
            self.add(format!("upload of {stream}: {what}"), move |seen| {
                let lent = seen.lent();
                let chosen =
                    lent.up_choice == choice && prefix.map_or(true, |flag| lent.up_prefix == flag);
                chosen && seen.upload.is_some_and(|asked| holds(seen, asked))
            });
        }
    }
}

const STREAMS: [(&str, u8, Option<u8>); 3] = [
    ("the info bytes", 1, None),
    ("a range with its prefix", 0, Some(1)),
    ("a range alone", 0, Some(0)),
];

type Which = fn(&Seen, u32) -> bool;

const ROWS: [(&str, Which); 9] = [
    ("begun", |seen, _| seen.lent().state == 2),
    ("gone on with", |seen, _| seen.lent().up_place > 0),
    ("ended by 1,023", |seen, asked| {
        asked == 1_023 && seen.next().state == 2
    }),
    (
        "1,024 asked and had, or the stream is shorter",
        |seen, asked| asked == 1_024 && (seen.outcome.count == 1_024 || seen.lent().up_choice == 1),
    ),
    ("one byte", |_, asked| asked == 1),
    ("less than asked", |seen, asked| {
        (1..asked).contains(&seen.outcome.count)
    }),
    ("all that was left, and asked", |seen, asked| {
        let lent = seen.lent();
        let left = match lent.up_choice {
            1 => INFO_BYTES - lent.up_place,
            _ => lent.up_len + 8 * u32::from(lent.up_prefix) - lent.up_place,
        };
        asked == left
    }),
    ("nothing left, going on", |seen, asked| {
        seen.outcome.count == 0 && asked == 1_024
    }),
    ("nothing left, ended", |seen, asked| {
        seen.outcome.count == 0 && asked < 1_024
    }),
];
