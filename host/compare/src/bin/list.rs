//! Lists the log on standard input by the independent model, as emc2305_replay does by the proved one.
use std::io::{self, Read, Write};

fn main() -> io::Result<()> {
    let (mut log, mut lines) = (Vec::new(), Vec::new());
    io::stdin().lock().read_to_end(&mut log)?;
    model::listing::list(&log, &mut lines);
    io::stdout().lock().write_all(&lines)
}
