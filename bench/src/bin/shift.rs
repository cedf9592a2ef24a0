//! `shift > CALLFILE`: the call file of the benchmark's shift, for 127 fast and 127 slow frames.

use std::io::Write;

fn main() -> std::io::Result<()> {
    std::io::stdout().write_all(&bench::shift().file)
}
