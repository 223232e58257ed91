//! Replays the trace on standard input, as the program does.

use std::io::{self, BufWriter, Read, Write};

fn main() -> io::Result<()> {
    let mut input = Vec::new();
    // One byte past the limit is asked for, so that a long input is seen as one.
    let most = twin::trace::LIMIT as u64 + 1;
    io::stdin().lock().take(most).read_to_end(&mut input)?;
    // as much is written at once as the program writes
    let mut out = BufWriter::with_capacity(65_536, io::stdout().lock());
    twin::replay::replay(&input, &mut out)?;
    out.flush()
}
