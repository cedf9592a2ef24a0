//! A count of a forecast that stops at 4294967295: messages of two zeros, each of which gets number 2, in a file
//! of 8 GiB. To be run by hand; the file takes next to no memory, since none of it is written.

use kernel::{Forecast, Unit};
use std::time::Instant;

/// So many messages are as many as a count can tell.
const MOST: usize = u32::MAX as usize;
const FOREIGN_VERSION: usize = 2;

fn main() {
    let unit = Unit::fresh(4, 4).expect("fresh tables");
    let file = vec![0; 2 * (MOST + 2)];
    for (messages, due) in [(MOST - 1, u32::MAX - 1), (MOST + 2, u32::MAX)] {
        let start = Instant::now();
        let forecast = unit.forecast(&file[..2 * messages]).expect("sound tables");
        let mut counts = [0; kernel::NUMBERS];
        counts[FOREIGN_VERSION] = due;
        let (most, laid) = (0, 0);
        assert_eq!(forecast, Forecast { most, laid, counts });
        let seconds = start.elapsed().as_secs();
        println!("{messages} messages are counted as {due}, in {seconds} s");
    }
}
