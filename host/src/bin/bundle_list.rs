//! Lists the bundle on standard input by the second implementation: the lines
//! that the program `bundle_list` must write.

use mullirim_host::bundle::list;
use std::io::{self, Read, Write};

fn main() -> io::Result<()> {
    let mut input = Vec::new();
    io::stdin().read_to_end(&mut input)?;
    io::stdout().write_all(list(&input).as_bytes())
}
